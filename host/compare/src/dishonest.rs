//! Pairs of tables, honest and dishonest, each with the verdict that thought gives it. All are made from tables that the
//! proved writers wrote, by a few changes.
//!
//! Where nothing else is said, a pair starts as three calls: core rows 0 to 2 and a padding row; round rows 24 to a call,
//! then 56 padding rows. Row 30 is round 6 of call 1, and row 47 is its last.

mod bus;
mod core_rows;
mod forged;
mod honest;
mod onward;
mod round_rows;
mod several;
mod tables;

pub use tables::{Tables, exchange, shuffle};

use crate::inputs::Words;
use crate::judge::Verdict;

/// Two tables with a name and the verdict on them.
pub struct Pair {
    /// What was done.
    pub name: &'static str,
    /// The tables.
    pub tables: Tables,
    /// What is to be said of them.
    pub expected: Verdict,
}

/// A name, and a change that answers the verdict on what it makes.
type Named = (&'static str, fn(&mut Tables, &mut Words) -> Verdict);

/// Every named pair, from a seed.
pub fn pairs(seed: u64) -> impl Iterator<Item = Pair> {
    let lists = [
        honest::HONEST,
        honest::REFUSED,
        core_rows::CORE_ROWS,
        core_rows::FAKED,
        round_rows::ROUND_ROWS,
        bus::BUS,
        forged::FORGED,
        forged::FORGED_INPUT,
        several::SEVERAL,
    ];
    lists
        .into_iter()
        .flatten()
        .enumerate()
        .map(move |(place, &(name, make))| {
            let mut words = Words::new(seed.wrapping_mul(1000).wrapping_add(place as u64));
            let mut tables = Tables::written(3, &mut words);
            let expected = make(&mut tables, &mut words);
            Pair { name, tables, expected }
        })
}

#[cfg(test)]
mod tests {
    use std::collections::HashSet;

    use super::*;
    use crate::judge;

    /// Each named pair has the verdict that is written beside it.
    #[test]
    fn the_verdicts_are_as_thought() {
        for seed in 1..4 {
            for pair in pairs(seed) {
                let verdict = judge::verdict(&pair.tables.core, &pair.tables.round);
                assert_eq!(verdict, pair.expected, "{} with seed {seed}", pair.name);
            }
        }
    }

    #[test]
    fn the_names_are_distinct() {
        let names: Vec<&str> = pairs(1).map(|pair| pair.name).collect();
        assert_eq!(names.len(), 158);
        assert_eq!(names.iter().collect::<HashSet<_>>().len(), names.len());
    }

    /// What is forged, and the carries and bytes that are faked in a core row, breaks one rule and no other.
    #[test]
    fn a_forgery_breaks_one_rule() {
        let lists = [core_rows::FAKED, forged::FORGED];
        let alone: HashSet<&str> = lists.into_iter().flatten().map(|&(name, _)| name).collect();
        assert_eq!(alone.len(), 28);
        for Pair { name, tables, .. } in pairs(1).filter(|pair| alone.contains(pair.name)) {
            assert_eq!(judge::rules_broken(&tables.core, &tables.round), 1, "{name}");
        }
    }
}
