//! Answers of keccak_rnd.rs.

use std::sync::LazyLock;

use stark::lookup::BusInteraction;

use crate::operation::round_operations;
use crate::row::{check_width, values, words};
use crate::tables::keccak_rnd::{self, KeccakRndConstraints, bus_interactions, cols, generate_keccak_rnd_trace};
use crate::tuple::{BusSums, Tuple, bus_sums, tuples};

/// The columns of a round row.
pub const ROUND_COLUMNS: usize = cols::NUM_COLUMNS;

static INTERACTIONS: LazyLock<Vec<BusInteraction>> = LazyLock::new(bus_interactions);

/// The round table of a flat list of operations (`generate_keccak_rnd_trace`).
pub fn round_table(operations: &[u64]) -> Vec<u64> {
    words(&generate_keccak_rnd_trace(&round_operations(operations)))
}

/// The 141 constraint values of a row of 1,480 words.
pub fn round_values(row: &[u64]) -> Vec<u64> {
    check_width(row, ROUND_COLUMNS);
    values(&KeccakRndConstraints, row)
}

/// The 1,031 tuples of a row of 1,480 words.
pub fn round_tuples(row: &[u64]) -> Vec<Tuple> {
    check_width(row, ROUND_COLUMNS);
    tuples(&INTERACTIONS, row)
}

/// The sums of multiplicities over a round table.
pub fn round_sums(table: &[u64]) -> BusSums {
    bus_sums(&INTERACTIONS, table, ROUND_COLUMNS)
}

/// How many AreBytes tuples the padding rows of the round table for `n` operations send (`padding_are_bytes`).
pub fn padding_are_bytes(n: usize) -> u64 {
    keccak_rnd::padding_are_bytes(n)
}
