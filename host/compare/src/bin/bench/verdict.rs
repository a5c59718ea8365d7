//! The verdict on two tables, ours against the independent judge of `compare::judge`.
//!
//! There is no published judge. The independent one evaluates the published values and interactions through the oracle,
//! which puts a row's values and each tuple into vectors of their own, and balances the bus in a hash map; so a ratio below
//! 1 says nothing of a judge in Rust that allocates less. Written tables of 1, 100 and 2,730 calls, which hold; then the
//! tables of 100 calls with one OUTPUT byte changed, and with the round rows in the other order. Ours allocates its scratch
//! in each run. `line-100` is the line of text over the verdict alone, both ours.

use compare::say;
use std::hint::black_box;

use compare::dishonest::Tables;
use compare::inputs::Words;
use compare::judge;
use compare::verdicts::words;
use keccak_tables::verdict::{LINE_MOST, verdict, verdict_line};
use keccak_tables::{keccak, keccak_rnd};

use crate::timing::both;

pub fn run() {
    let written = |calls| Tables::written(calls, &mut Words::new(7));
    judges("verdict-1", &written(1), 20);
    let honest = written(100);
    judges("verdict-100", &honest, 5);
    let mut failing = honest.clone();
    failing.core_row(99)[210] ^= 1;
    judges("verdict-100-output", &failing, 5);
    lines("line-100", &honest, 9);
    lines("line-100-output", &failing, 9);
    let mut reversed = honest;
    reversed.round = reversed
        .round
        .rchunks_exact(keccak_rnd::NUM_COLUMNS)
        .flatten()
        .copied()
        .collect();
    judges("verdict-100-reversed", &reversed, 3);
    judges("verdict-2730", &written(2730), 1);
}

fn judges(name: &str, tables: &Tables, runs: usize) {
    let Tables { core, round } = tables;
    let rows = core.len() / keccak::NUM_COLUMNS + round.len() / keccak_rnd::NUM_COLUMNS;
    let answer = judge::verdict(core, round);
    assert_eq!(words(verdict(core, round)), answer.words(), "{name}");
    say!("{name}, {rows} rows, '{answer}': time of a row");
    let ours = || verdict(black_box(core), black_box(round));
    let other = || judge::verdict(black_box(core), black_box(round));
    both(name, runs, rows, ("ours", ours), ("the independent judge", other));
}

/// The line of a verdict over the verdict alone.
fn lines(name: &str, tables: &Tables, runs: usize) {
    let Tables { core, round } = tables;
    let rows = core.len() / keccak::NUM_COLUMNS + round.len() / keccak_rnd::NUM_COLUMNS;
    let mut line = [0; LINE_MOST];
    let length = verdict_line(core, round, &mut line);
    say!("{name}, {rows} rows, a line of {length:?} bytes: time of a row");
    let lined = || verdict_line(black_box(core), black_box(round), black_box(&mut [0; LINE_MOST]));
    let alone = || verdict(black_box(core), black_box(round));
    both(name, runs, rows, ("the line", lined), ("the verdict", alone));
}
