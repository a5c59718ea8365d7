//! The constraint values of a row, ours against the published `eval`.
//!
//! Timed is the evaluation of every row of a written table, padding included, row after row: ours from the row's words into
//! a lent slice, with its check that each column is below p; theirs from the row's field elements, made before, through a
//! builder whose expressions are their values and which puts each value at its place in a lent slice. The Rust's field is
//! the oracle's stand-in, because the crate `math` is not published; a field that is faster than the stand-in would make
//! the Rust's time shorter.

use compare::say;
use std::hint::black_box;

use compare::evaluated::{CORE, ROUND, Table};
use compare::inputs::Words;
use oracle::RowConstraints;
use oracle::tables::keccak::KeccakConstraints;
use oracle::tables::keccak_rnd::KeccakRndConstraints;
use oracle::tables::types::FE;

use crate::timing::both;

const RUNS: usize = 1000;

pub fn run() {
    values("core-values", &CORE, &KeccakConstraints);
    values("round-values", &ROUND, &KeccakRndConstraints);
}

fn values(name: &str, table: &Table, constraints: &impl RowConstraints) {
    let words = rows(table);
    let elements: Vec<FE> = words.iter().copied().map(FE::from).collect();
    let rows = words.len() / table.columns;
    say!("{name}, {rows} rows: time of a row's {} values", table.num_values);

    let ours = || {
        let mut out = [0; 256];
        for row in words.chunks_exact(table.columns) {
            let _ = black_box((table.values)(black_box(row), &mut out[..table.num_values]));
            black_box(&out);
        }
    };
    let rust = || {
        let mut out = [FE::zero(); 256];
        for row in elements.chunks_exact(table.columns) {
            oracle::evaluate_constraints(constraints, black_box(row), &mut out[..table.num_values]);
            black_box(&out);
        }
    };
    both(name, RUNS, rows, ("ours", ours), ("the Rust", rust));
}

/// The written table that both evaluate: 64 core rows, or 128 round rows.
pub fn rows(table: &Table) -> Vec<u64> {
    (table.written)(&Words::new(7).operations(table.operations)).expect("drawn operations are accepted")
}
