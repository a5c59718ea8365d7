//! The executor's file against the core table: what is said of both, against a plain matching by a hash map.

mod drawn;
pub mod model;
mod named;
pub mod refusals;

use keccak_tables::same_operations::{Agreement, same_operations};
use keccak_tables::{Parameters, keccak};

pub use drawn::shuffle;

use crate::comparison::Comparison;
use crate::inputs::Words;
use crate::lent::{Lent, LentBytes};
use crate::plain_file;
use drawn::Pair;

/// The whole area; about `8 n` pairs of a table and a file are drawn, and `n / 10` long ones.
pub fn compare(comparison: &mut Comparison, seed: u64, n: usize) {
    let mut words = Words::new(seed);
    comparison.group("tables and files of the same list, as they are written, 0 to 40 operations");
    for calls in 0..=40 {
        written(comparison, &mut words, calls);
    }
    comparison.group("named tables and files");
    for (name, make) in named::NAMED {
        let (pair, _) = make(&mut words);
        one(comparison, &mut words, name, &pair.core(), &pair.file());
    }
    comparison
        .group("calls that repeat, in other orders, with inactive rows, other pointers, marks and segment numbers");
    for _ in 0..2 * n {
        drawn(comparison, &mut words, 0);
    }
    comparison.group("the same, changed in one place to four");
    for _ in 0..4 * n {
        let changes = 1 + words.below(4) as usize;
        drawn(comparison, &mut words, changes);
    }
    comparison.group("many copies of one to three calls, changed or not");
    for _ in 0..2 * n {
        let (calls, kinds) = (words.below(30) as usize, 1 + words.below(3) as usize);
        let changes = words.below(4) as usize;
        copies(comparison, &mut words, calls, kinds, changes);
    }
    comparison.group("up to 300 calls, changed or not");
    for _ in 0..n.div_ceil(10) {
        let (calls, kinds) = (words.below(301) as usize, 1 + words.below(300) as usize);
        let changes = words.below(3) as usize;
        copies(comparison, &mut words, calls, kinds, changes);
    }
    refusals::compare(comparison, &mut words);
}

/// A list's table, with any floor, and its file, and with one operation less in either.
fn written(comparison: &mut Comparison, words: &mut Words, calls: usize) {
    let list = words.operations(calls);
    let floor = Parameters::default().floor(4 << words.below(4));
    let input = || format!("the table of {list:?}");
    let Some(core) = comparison.done(input, keccak::keccak_table_with(floor, &list)) else {
        return;
    };
    let file = plain_file::file_of(&list);
    one(comparison, words, "as written", &core, &file);
    let last = plain_file::records(&file).last().map_or(0, |&(start, _)| start);
    one(comparison, words, "without the last record", &core, &file[..last]);
    let rows = calls.saturating_sub(1) * keccak::NUM_COLUMNS;
    one(comparison, words, "without the last row", &core[..rows], &file);
}

/// Up to twelve calls, with so many changes.
fn drawn(comparison: &mut Comparison, words: &mut Words, changes: usize) {
    let calls = words.below(13) as usize;
    let kinds = 1 + words.below(12) as usize;
    copies(comparison, words, calls, kinds, changes);
}

/// So many calls, of which these are drawn and the others copies, with so many changes before or behind the other order.
fn copies(comparison: &mut Comparison, words: &mut Words, calls: usize, kinds: usize, changes: usize) {
    let mut pair = Pair::drawn(words, calls, kinds);
    let early = words.below(changes as u64 + 1) as usize;
    (0..early).for_each(|_| pair.change(words));
    let inactive = words.below(4) as usize;
    pair.with_inactive(words, inactive);
    if words.below(3) > 0 {
        pair.reordered(words);
    }
    (early..changes).for_each(|_| pair.change(words));
    one(comparison, words, "drawn", &pair.core(), &pair.file());
}

/// What is said of a table and a file, which are only read.
fn one(comparison: &mut Comparison, words: &mut Words, what: &str, core: &[u64], file: &[u8]) {
    let expected = model::answer(core, file);
    let (mut lent_core, mut lent_file) = (Lent::new(core, words), LentBytes::new(file, words));
    let answer = same_operations(lent_core.slice(), lent_file.slice());
    let input = || format!("{what}: the table {core:?} and the file {file:?}");
    comparison.answered("same_operations", input, answer, expected.err());
    if let (Ok(answer), Ok(expected)) = (answer, expected) {
        comparison.equal(|_| input(), &numbers(answer), &expected);
    }
    lent_core.kept(comparison, |_| input());
    lent_file.holds(comparison, input, &[]);
}

/// Kind and place of an answer.
fn numbers(answer: Agreement) -> [u64; 2] {
    match answer {
        Agreement::Same => [0, 0],
        Agreement::Record(record) => [1, record],
        Agreement::Row(row) => [2, row],
    }
}

#[cfg(test)]
mod tests {
    use super::*;

    /// Each named pair has the answer that is written beside it.
    #[test]
    fn the_answers_are_as_thought() {
        for seed in 1..20 {
            let mut words = Words::new(seed);
            for (name, make) in named::NAMED {
                let (pair, expected) = make(&mut words);
                let answer = model::answer(&pair.core(), &pair.file());
                assert_eq!(answer, Ok(expected), "{name} with seed {seed}");
            }
        }
    }

    /// What is drawn has every kind of answer, and is never refused.
    #[test]
    fn every_answer_is_drawn() {
        let mut words = Words::new(1);
        let mut seen = [0; 3];
        for _ in 0..1_000 {
            let mut pair = Pair::drawn(&mut words, 6, 3);
            pair.change(&mut words);
            pair.with_inactive(&mut words, 2);
            pair.reordered(&mut words);
            let [kind, _] = model::answer(&pair.core(), &pair.file()).expect("nothing is refused");
            seen[kind as usize] += 1;
        }
        assert!(seen.into_iter().all(|times| times > 100), "{seen:?}");
    }
}
