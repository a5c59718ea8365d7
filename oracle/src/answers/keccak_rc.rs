//! Answers of keccak_rc.rs.

use std::sync::LazyLock;

use stark::lookup::BusInteraction;

use crate::row::{check_width, words};
use crate::tables::keccak_rc::{
    NUM_PRECOMPUTED_COLS, NUM_ROWS, bus_interactions, cols, generate_keccak_rc_trace, generate_row,
    update_multiplicities,
};
use crate::tuple::{Tuple, tuples};

/// The columns of a constant row: 9 as precomputed, then the multiplicity.
pub const KECCAK_RC_COLUMNS: usize = cols::NUM_COLUMNS;

/// The 9 precomputed words of a constant row (`generate_row`).
pub fn keccak_rc_row(round: usize) -> [u64; NUM_PRECOMPUTED_COLS] {
    assert!(round < NUM_ROWS, "the constant table has {NUM_ROWS} rows");
    generate_row(round)
}

/// The 32 rows of 10 words for `n` operations (`generate_keccak_rc_trace`, then `update_multiplicities`).
pub fn keccak_rc_table(n: usize) -> Vec<u64> {
    let mut trace = generate_keccak_rc_trace();
    update_multiplicities(&mut trace, n);
    words(&trace)
}

/// The 1 tuple of a row of 10 words.
pub fn keccak_rc_tuples(row: &[u64]) -> Vec<Tuple> {
    static INTERACTIONS: LazyLock<Vec<BusInteraction>> = LazyLock::new(bus_interactions);
    check_width(row, KECCAK_RC_COLUMNS);
    tuples(&INTERACTIONS, row)
}
