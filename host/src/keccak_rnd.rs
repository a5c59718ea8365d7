//! The round table: 24 rows for each operation, or as many as [`Parameters`] say. Operations are a flat list, [`OP_WORDS`] words each.
//!
//! ```
//! use keccak_tables::{Bus, Refusal, Side, keccak_rnd};
//!
//! let mut row = [0; keccak_rnd::NUM_COLUMNS];
//! keccak_rnd::keccak_rnd_row(5, &[0; 25], 0, &mut row)?;
//!
//! // What the row sends on: the timestamp, the next round, and a state whose lane (0, 0) is 1.
//! let mut out = [0; keccak_rnd::MAX_TUPLE_LENGTH];
//! let tuple = keccak_rnd::bus_interaction(&row, 1, &mut out)?;
//! assert_eq!((tuple.bus, tuple.side), (Bus::Keccak, Side::Sender));
//! assert_eq!(out[..5], [5, 0, 1, 1, 0]);
//! # Ok::<(), Refusal>(())
//! ```

pub mod cols;

use crate::all_cores;
use crate::ffi;
use crate::keccak::of_list;
use crate::operation::OP_WORDS;
use crate::parameters::Parameters;
use crate::refusal::{PAST_END, Refusal, TOO_SHORT};
use crate::tuple::{BusInteraction, of_row};

/// The columns of a row ([`cols`]).
pub const NUM_COLUMNS: usize = 1480;

/// The constraint values of a row: 20 carries of C, 20 halfwords of C shifted, 100 halfwords shifted by ρ, then MU.
pub const NUM_VALUES: usize = 141;

/// The tuples of a row: 2 Keccak, 1 KeccakRc, then 808 ByteAlu and 220 AreBytes, mixed.
pub const NUM_TUPLES: usize = 1031;

/// The most values that a tuple of a row has.
pub const MAX_TUPLE_LENGTH: usize = 203;

/// The words of a row's tuples: for each the four of its header, then its values.
pub const TUPLE_WORDS: usize = 8211;

/// The rounds of an operation where [`Parameters`] say nothing else, and the most that it can have.
pub const ROUNDS: usize = 24;

/// Writes the row of a round to the front of `row`: START is the first 25 words of `start`, lane x + 5y.
///
/// # Errors
///
/// [`PastEnd`](Refusal::PastEnd): `round` is 24 or more; [`TooShort`](Refusal::TooShort): `start` has fewer than 25
/// words, then `row` fewer than 1,480.
pub fn keccak_rnd_row(timestamp: u64, start: &[u64], round: usize, row: &mut [u64]) -> Result<(), Refusal> {
    ffi::keccak_rnd_row(timestamp, start, round, row).named(|number, _| match number {
        PAST_END => "round",
        TOO_SHORT if start.len() < 25 => "start",
        _ => "row",
    })
}

/// Writes the round table of a list of operations to the front of `table`, which has room for [`keccak_rnd_height`] rows.
/// The operations' outputs are not read.
///
/// # Errors
///
/// [`PastEnd`](Refusal::PastEnd): more than [`MAX_OPS`](crate::MAX_OPS) operations; [`NotWhole`](Refusal::NotWhole):
/// `ops` is not whole operations; [`TooShort`](Refusal::TooShort): `table` has fewer than 1,480 words for each row of
/// [`keccak_rnd_height`]; [`HighAddress`](Refusal::HighAddress): an operation's address is above
/// [`LAST_ADDRESS`](crate::keccak::LAST_ADDRESS); [`Unaligned`](Refusal::Unaligned): one is no multiple of 8;
/// [`Segment`](Refusal::Segment): a segment word is 2^32 or more.
pub fn generate_keccak_rnd_trace(ops: &[u64], table: &mut [u64]) -> Result<(), Refusal> {
    generate_keccak_rnd_trace_with(Parameters::default(), ops, table)
}

/// The same by these parameters: [`rounds`](Parameters::rounds) rows to an operation, the last of the 24 rounds, of which the first takes
/// the operation's input; and no fewer rows than the [`floor`](Parameters::floor).
///
/// # Errors
///
/// [`Rounds`](Refusal::Rounds): the rounds are not 1 to 24; [`Floor`](Refusal::Floor): the floor is no power of two from 4 to 65,536; then
/// those of [`generate_keccak_rnd_trace`], `table` having 1,480 words for each row of [`keccak_rnd_height_with`].
pub fn generate_keccak_rnd_trace_with(parameters: Parameters, ops: &[u64], table: &mut [u64]) -> Result<(), Refusal> {
    ffi::generate_keccak_rnd_trace(parameters.rounds, parameters.floor, ops, table).named(of_list)
}

/// Writes the rows of a list of operations, 24 to each and without the table's padding, to the front of `table`. The rows of two
/// lists, one after the other, are those of the list that the two make, so threads can fill one table, as with
/// [`keccak_rows`](crate::keccak::keccak_rows).
///
/// # Errors
///
/// [`PastEnd`](Refusal::PastEnd): more than [`MAX_OPS`](crate::MAX_OPS) operations; [`NotWhole`](Refusal::NotWhole):
/// `ops` is not whole operations; [`TooShort`](Refusal::TooShort): `table` has fewer than 24 times 1,480 words for each
/// operation; [`HighAddress`](Refusal::HighAddress): an operation's address is above
/// [`LAST_ADDRESS`](crate::keccak::LAST_ADDRESS); [`Unaligned`](Refusal::Unaligned): one is no multiple of 8;
/// [`Segment`](Refusal::Segment): a segment word is 2^32 or more.
pub fn keccak_rnd_rows(ops: &[u64], table: &mut [u64]) -> Result<(), Refusal> {
    keccak_rnd_rows_with(Parameters::default(), ops, table)
}

/// The same by these parameters, as [`generate_keccak_rnd_trace_with`]; without padding the floor has no part in it, and is not looked at.
///
/// # Errors
///
/// [`Rounds`](Refusal::Rounds): the rounds are not 1 to 24; then those of [`keccak_rnd_rows`], `table` having 1,480 words for each round
/// of each operation.
pub fn keccak_rnd_rows_with(parameters: Parameters, ops: &[u64], table: &mut [u64]) -> Result<(), Refusal> {
    ffi::keccak_rnd_rows(parameters.rounds, ops, table).named(of_list)
}

/// The round table of a list of operations, in memory of its own. The rows of a long list are written on all cores.
///
/// # Errors
///
/// [`PastEnd`](Refusal::PastEnd): more than [`MAX_OPS`](crate::MAX_OPS) operations; [`NotWhole`](Refusal::NotWhole):
/// `ops` is not whole operations; [`HighAddress`](Refusal::HighAddress): an operation's address is above
/// [`LAST_ADDRESS`](crate::keccak::LAST_ADDRESS); [`Unaligned`](Refusal::Unaligned): one is no multiple of 8;
/// [`Segment`](Refusal::Segment): a segment word is 2^32 or more.
pub fn keccak_rnd_table(ops: &[u64]) -> Result<Vec<u64>, Refusal> {
    keccak_rnd_table_with(Parameters::default(), ops)
}

/// The same by these parameters.
///
/// ```
/// use keccak_tables::{Operation, Parameters, Refusal, keccak_rnd};
///
/// let list = Operation { timestamp: 5, address: 4096, input: [0; 25], output: [0; 25], segment: 0 }.words();
/// let twelve = Parameters::default().rounds(12);
/// let table = keccak_rnd::keccak_rnd_table_with(twelve, &list)?;
/// assert_eq!(table.len(), 16 * keccak_rnd::NUM_COLUMNS);
/// let rounds = table.chunks(keccak_rnd::NUM_COLUMNS).map(|row| row[keccak_rnd::cols::ROUND]);
/// assert!(rounds.take(12).eq(12..24));
/// assert_eq!(keccak_rnd::keccak_rnd_table_with(twelve.rounds(25), &list), Err(Refusal::Rounds { rounds: 25 }));
/// # Ok::<(), Refusal>(())
/// ```
///
/// # Errors
///
/// [`Rounds`](Refusal::Rounds): the rounds are not 1 to 24; [`Floor`](Refusal::Floor): the floor is no power of two from 4 to 65,536; then
/// those of [`keccak_rnd_table`].
pub fn keccak_rnd_table_with(parameters: Parameters, ops: &[u64]) -> Result<Vec<u64>, Refusal> {
    let n = ops.len() / OP_WORDS;
    let mut table = vec![0; height_for(parameters, n, "ops")? * NUM_COLUMNS];
    let rows = n * parameters.rounds as usize;
    let write = |ops: &[u64], rows: &mut [u64]| keccak_rnd_rows_with(parameters, ops, rows);
    // The padding is zero, as the memory is.
    if !all_cores::write(ops, &mut table[..rows * NUM_COLUMNS], write) {
        generate_keccak_rnd_trace_with(parameters, ops, &mut table)?;
    }
    Ok(table)
}

/// The rows of the round table of `n` operations: a power of two, 4 or more.
///
/// # Errors
///
/// [`PastEnd`](Refusal::PastEnd): `n` is more than [`MAX_OPS`](crate::MAX_OPS).
pub fn keccak_rnd_height(n: usize) -> Result<usize, Refusal> {
    keccak_rnd_height_with(Parameters::default(), n)
}

/// The same by these parameters: the next power of two of [`rounds`](Parameters::rounds) times `n`, and no fewer than the
/// [`floor`](Parameters::floor).
///
/// # Errors
///
/// [`Rounds`](Refusal::Rounds): the rounds are not 1 to 24; [`Floor`](Refusal::Floor): the floor is no power of two from 4 to 65,536; then
/// those of [`keccak_rnd_height`].
pub fn keccak_rnd_height_with(parameters: Parameters, n: usize) -> Result<usize, Refusal> {
    height_for(parameters, n, "n")
}

/// The same for a call whose argument by this name has n operations.
fn height_for(parameters: Parameters, n: usize, argument: &'static str) -> Result<usize, Refusal> {
    let answer = ffi::keccak_rnd_height(parameters.rounds, parameters.floor, n).named(|_, _| argument);
    answer.map(|rows| rows as usize)
}

/// How many AreBytes tuples the padding rows of the round table of `n` operations send; 0 where `n` is 0.
///
/// # Errors
///
/// [`PastEnd`](Refusal::PastEnd): `n` is more than [`MAX_OPS`](crate::MAX_OPS).
pub fn padding_are_bytes(n: usize) -> Result<u64, Refusal> {
    padding_are_bytes_with(Parameters::default(), n)
}

/// The same by these parameters, of the table that has [`keccak_rnd_height_with`] rows.
///
/// # Errors
///
/// [`Rounds`](Refusal::Rounds): the rounds are not 1 to 24; [`Floor`](Refusal::Floor): the floor is no power of two from 4 to 65,536; then
/// those of [`padding_are_bytes`].
pub fn padding_are_bytes_with(parameters: Parameters, n: usize) -> Result<u64, Refusal> {
    ffi::padding_are_bytes(parameters.rounds, parameters.floor, n).named(|_, _| "n")
}

/// Writes the 141 constraint values of a row of 1,480 columns, mod p and in the order of the Rust's `eval`, to the front
/// of `out`. All are 0 where the constraints hold.
///
/// # Errors
///
/// [`TooShort`](Refusal::TooShort): `row` has fewer than 1,480 words, then `out` fewer than 141;
/// [`NotElement`](Refusal::NotElement): a column of `row` is p or more.
pub fn round_values(row: &[u64], out: &mut [u64]) -> Result<(), Refusal> {
    ffi::keccak_rnd_values(row, out).named(|number, _| of_row(number, row, NUM_COLUMNS))
}

/// Tuple `index` of a row of 1,480 columns, in the order of the Rust's `bus_interactions`; its values go to the front of
/// `out`.
///
/// # Errors
///
/// [`PastEnd`](Refusal::PastEnd): `index` is 1,031 or more; [`TooShort`](Refusal::TooShort): `row` has fewer than 1,480
/// words, then `out` fewer than the tuple has values; [`NotElement`](Refusal::NotElement): a column of `row` is p or
/// more.
pub fn bus_interaction(row: &[u64], index: usize, out: &mut [u64]) -> Result<BusInteraction, Refusal> {
    BusInteraction::from_flat(ffi::keccak_rnd_bus_interaction(row, index, out), row, NUM_COLUMNS)
}

/// All 1,031 tuples of a row, one after the other, to the front of `out`: 8,211 words, which [`tuples`](crate::tuples)
/// reads. The row is checked once, so this is many times faster than a call for each tuple.
///
/// # Errors
///
/// [`TooShort`](Refusal::TooShort): `row` has fewer than 1,480 words, then `out` fewer than 8,211;
/// [`NotElement`](Refusal::NotElement): a column of `row` is p or more.
pub fn bus_interactions(row: &[u64], out: &mut [u64]) -> Result<(), Refusal> {
    ffi::keccak_rnd_bus_interactions(row, out).named(|number, _| of_row(number, row, NUM_COLUMNS))
}
