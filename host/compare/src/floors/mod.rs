//! Every floor of the tables' heights: heights, padding lookups, both tables, charges and looks, the sums of files, against the published
//! rows and plain padding (`by_floor`); floors that are none; and the kit's program `tally` with arguments.

pub mod program;
pub mod refusals;
mod tall;

use keccak_tables::Parameters;

use crate::by_floor::FLOORS;
use crate::by_rounds::ALL;
use crate::charge;
use crate::comparison::Comparison;
use crate::inputs::Words;
use crate::rows::tables::{core_tables_by, heights_by, round_tables_by};
use crate::tally::{drawn_mode, sums};

/// The highest floor about which tables are written whose rows fill it.
const FILLED: u64 = 256;

/// The highest floor about which files are read whose records fill the core table.
const COUNTED: u64 = 4096;

/// The whole area: every floor in turn, and 4 `n` runs of the program.
pub fn compare(comparison: &mut Comparison, seed: u64, n: usize) {
    let mut words = Words::new(seed);
    let today = Parameters::default();
    comparison.group("heights and padding lookups with every floor, of 24 and of drawn numbers of rounds");
    for floor in FLOORS {
        for nr in [ALL, 1, words.rounds()] {
            heights_by(comparison, today.rounds(nr).floor(floor));
        }
    }
    comparison.group("core and round tables with floors to 256, of lists that fill less, as much and more");
    for floor in FLOORS.into_iter().filter(|&floor| floor <= FILLED) {
        tables(comparison, &mut words, floor);
    }
    comparison.group("core and round tables with every floor, of 0 to 3 operations");
    for floor in FLOORS {
        let (ops, rounds) = (words.below(4) as usize, words.rounds());
        let ops = words.operations(ops);
        tall::tables(comparison, &mut words, today.rounds(rounds).floor(floor), &ops);
    }
    comparison.group("charges and looks with every floor");
    for floor in FLOORS {
        charge::once(comparison, &mut words, today.shipped().floor(floor), &[]);
        let (ops, rounds) = (words.below(6) as usize, words.rounds());
        let (ops, with) = (words.operations(ops), drawn_mode(&mut words).rounds(rounds));
        charge::once(comparison, &mut words, with.floor(floor), &ops);
    }
    comparison.group("sums of files with every floor, in both modes");
    for floor in FLOORS {
        files(comparison, &mut words, floor);
    }
    refusals::compare(comparison, &mut words);
    comparison.group("the kit's program tally with arguments");
    program::compare(comparison, &mut words, 4 * n);
}

/// So many, and those next to it.
fn about(n: u64) -> impl Iterator<Item = usize> {
    (n.saturating_sub(1)..=n + 1).map(|n| n as usize)
}

/// Tables whose rows are about as many as the floor, of drawn and of all rounds.
fn tables(comparison: &mut Comparison, words: &mut Words, floor: u64) {
    for n in [0, 1].into_iter().chain(about(floor)) {
        let ops = words.operations(n);
        core_tables_by(comparison, words, Parameters::default().floor(floor), &ops);
    }
    for nr in [ALL, words.rounds()] {
        for n in [0, 1].into_iter().chain(about(floor / nr)) {
            let ops = words.operations(n);
            let with = Parameters::default().rounds(nr).floor(floor);
            round_tables_by(comparison, words, with, &ops);
        }
    }
}

/// Files of none, one and a few records, some of them off the eight, and of as many as fill either table or almost.
fn files(comparison: &mut Comparison, words: &mut Words, floor: u64) {
    let core = about(floor).filter(|_| floor <= COUNTED);
    let mut counts: Vec<usize> = about(floor / ALL).chain(core).collect();
    counts.extend([0, 1, 2 + words.below(40) as usize]);
    for n in counts {
        let mut ops = words.operations(n);
        if n > 2 && words.below(2) == 0 {
            ops[1] = words.unaligned_address();
        }
        let with = Parameters::default().floor(floor);
        sums(comparison, words, with, &ops);
        // The rounds have no part in it.
        let rounds = words.any_rounds();
        sums(comparison, words, with.shipped().rounds(rounds), &ops);
    }
}
