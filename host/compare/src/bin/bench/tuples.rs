//! The tuples of a row, ours by index and ours at once against the published interactions.
//!
//! The Rust's `bus_interactions` builds a list for the whole table, once; that is not timed. Timed is the evaluation of all
//! of it on four written rows: each interaction's values into a lent slice and its multiplicity, from the row's field
//! elements, made before. Ours is as many calls by index, from the row's words into the same kind of slice; each call
//! checks that every column of the row is below p. Ours at once is one call for all tuples of a row, with one such check,
//! and it writes each tuple's header too. How the Rust's prover walks its list is not published (the crate
//! `stark`): the walk is the oracle's, without its allocations. Its field is the oracle's stand-in.

use compare::say;
use std::hint::black_box;

use compare::evaluated::{CORE, ROUND, Table};
use oracle::BusInteraction;
use oracle::tables::types::FE;
use oracle::tables::{keccak, keccak_rnd};

use crate::timing::{best, line, ratio, time};
use crate::values::rows;

/// Short runs, and many: the best of them is one that nothing else on the machine cut into.
const ROWS: usize = 4;
const RUNS: usize = 1000;

pub fn run() {
    tuples("core-tuples", &CORE, &keccak::bus_interactions());
    tuples("round-tuples", &ROUND, &keccak_rnd::bus_interactions());
}

fn tuples(name: &str, table: &Table, interactions: &[BusInteraction]) {
    let words = &rows(table)[..ROWS * table.columns];
    let elements: Vec<FE> = words.iter().copied().map(FE::from).collect();
    say!("{name}, {ROWS} rows: time of a row's {} tuples", table.num_tuples);
    let rust = || {
        let mut out = [FE::zero(); 256];
        for row in elements.chunks_exact(table.columns) {
            evaluate_all(interactions, row, &mut out);
        }
    };
    let [by_index, at_once, rust] = best(
        RUNS,
        [
            Box::new(|| time(|| by_index(table, words))),
            Box::new(|| time(|| at_once(table, words))),
            Box::new(|| time(rust)),
        ],
    );
    line("ours, by index", by_index, ROWS);
    line("ours, at once", at_once, ROWS);
    line("the Rust", rust, ROWS);
    ratio(name, by_index, rust);
    ratio(&format!("{name}-at-once"), at_once, rust);
}

fn by_index(table: &Table, words: &[u64]) {
    let mut out = [0; 256];
    for row in words.chunks_exact(table.columns) {
        for index in 0..table.num_tuples {
            let _ = black_box((table.tuple)(black_box(row), index, 11, &mut out));
            black_box(&out);
        }
    }
}

fn at_once(table: &Table, words: &[u64]) {
    let mut out = vec![0; table.tuple_words];
    for row in words.chunks_exact(table.columns) {
        let _ = black_box((table.tuples)(black_box(row), 11, &mut out));
        black_box(&out);
    }
}

/// The Rust's side: every interaction on a row of elements.
pub fn evaluate_all(interactions: &[BusInteraction], row: &[FE], out: &mut [FE]) {
    for interaction in interactions {
        let _ = black_box(oracle::evaluate(black_box(interaction), row, out));
        black_box(&*out);
    }
}
