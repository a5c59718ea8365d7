//! The table of round constants.

use keccak_tables::{MAX_OPS, keccak_rc};

use crate::comparison::Comparison;
use crate::inputs::Words;
use crate::lent::Lent;
use crate::tuple_list::tuples;

pub fn compare(comparison: &mut Comparison, words: &mut Words) {
    comparison.group("constant rows, all 32");
    for round in 0..keccak_rc::NUM_ROWS {
        let mut out = Lent::drawn(keccak_rc::NUM_PRECOMPUTED_COLS + round % 4, words);
        let input = || format!("constant row {round}");
        comparison.done(input, keccak_rc::generate_row(round, out.slice()));
        out.holds(comparison, |_| input(), &oracle::keccak_rc_row(round));
    }

    comparison.group("constant tables and their multiplicities");
    for n in [0, 1, 2, 7, 24, 65_535, 65_536, 2_147_483, MAX_OPS - 1, MAX_OPS] {
        let mut table = Lent::drawn(keccak_rc::TABLE_WORDS + words.below(8) as usize, words);
        let input = || format!("the constant table for {n} operations");
        comparison.done(input, keccak_rc::generate_keccak_rc_trace(table.slice()));
        table.holds(comparison, |_| input(), &oracle::keccak_rc_table(0));
        comparison.done(input, keccak_rc::update_multiplicities(table.slice(), n as u64));
        table.holds(comparison, |_| input(), &oracle::keccak_rc_table(n));
    }

    comparison.group("tuples of constant rows");
    for row in oracle::keccak_rc_table(7).chunks_exact(keccak_rc::NUM_COLUMNS) {
        tuples_of(comparison, words, row);
    }
    for _ in 0..200 {
        let row: Vec<u64> = (0..keccak_rc::NUM_COLUMNS).map(|_| words.element()).collect();
        tuples_of(comparison, words, &row);
    }
}

fn tuples_of(comparison: &mut Comparison, words: &mut Words, row: &[u64]) {
    let (call, expected) = (keccak_rc::bus_interaction, oracle::keccak_rc_tuples(row));
    tuples(comparison, words, || "a constant row".into(), row, call, &expected);
}
