//! The table of round constants: rows, multiplicities and tuples.
//!
//! ```
//! use keccak_tables::{Refusal, keccak_rc};
//!
//! let mut table = [0; keccak_rc::TABLE_WORDS];
//! keccak_rc::generate_keccak_rc_trace(&mut table)?;
//! keccak_rc::update_multiplicities(&mut table, 7)?;
//! let last = &table[23 * keccak_rc::NUM_COLUMNS..][..keccak_rc::NUM_COLUMNS];
//! assert_eq!(last, [23, 0x08, 0x80, 0, 0x80, 0, 0, 0, 0x80, 7]);
//! # Ok::<(), Refusal>(())
//! ```

use crate::ffi;
use crate::parameters::Parameters;
use crate::refusal::{PAST_END, Refusal};
use crate::tuple::BusInteraction;

/// The rows of the table: 24 rounds, then 8 rows with a zero constant.
pub const NUM_ROWS: usize = 32;

/// The columns that the row's number fixes: the round, then the 8 bytes of its constant.
pub const NUM_PRECOMPUTED_COLS: usize = 9;

/// All columns: the fixed ones, then the multiplicity.
pub const NUM_COLUMNS: usize = 10;

/// The words of the table.
pub const TABLE_WORDS: usize = NUM_ROWS * NUM_COLUMNS;

/// Writes the nine fixed columns of a row to the front of `out`.
///
/// # Errors
///
/// [`PastEnd`](Refusal::PastEnd): `round` is 32 or more; [`TooShort`](Refusal::TooShort): `out` has fewer than 9 words.
pub fn generate_row(round: usize, out: &mut [u64]) -> Result<(), Refusal> {
    ffi::keccak_rc_generate_row(round, out).named(|number, _| match number {
        PAST_END => "round",
        _ => "out",
    })
}

/// Writes the whole table, every multiplicity being 0.
///
/// # Errors
///
/// [`TooShort`](Refusal::TooShort): `table` has fewer than 320 words.
pub fn generate_keccak_rc_trace(table: &mut [u64]) -> Result<(), Refusal> {
    ffi::generate_keccak_rc_trace(table).named(|_, _| "table")
}

/// Sets the multiplicities of the rounds 0 to 23 to the number of operations.
///
/// # Errors
///
/// [`PastEnd`](Refusal::PastEnd): `n` is more than [`MAX_OPS`](crate::MAX_OPS); [`TooShort`](Refusal::TooShort):
/// `table` has fewer than 320 words.
pub fn update_multiplicities(table: &mut [u64], n: u64) -> Result<(), Refusal> {
    update_multiplicities_with(Parameters::default(), table, n)
}

/// The same of the last [`rounds`](Parameters::rounds) rounds of the 24; the multiplicities of the rounds before them are set to 0.
///
/// # Errors
///
/// [`Rounds`](Refusal::Rounds): the rounds are not 1 to 24; then those of [`update_multiplicities`].
pub fn update_multiplicities_with(parameters: Parameters, table: &mut [u64], n: u64) -> Result<(), Refusal> {
    ffi::keccak_rc_update_multiplicities(parameters.rounds, table, n).named(|number, _| match number {
        PAST_END => "n",
        _ => "table",
    })
}

/// Tuple `index` of a row of ten columns, of which it has one; its values go to the front of `out`.
///
/// # Errors
///
/// [`PastEnd`](Refusal::PastEnd): `index` is 1 or more; [`TooShort`](Refusal::TooShort): `row` has fewer than 10 words,
/// then `out` fewer than 9; [`NotElement`](Refusal::NotElement): a column of `row` is p or more.
pub fn bus_interaction(row: &[u64], index: usize, out: &mut [u64]) -> Result<BusInteraction, Refusal> {
    BusInteraction::from_flat(ffi::keccak_rc_bus_interaction(row, index, out), row, NUM_COLUMNS)
}
