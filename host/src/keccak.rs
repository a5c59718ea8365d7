//! The core table: a row for each operation. Operations are a flat list, [`OP_WORDS`] words each.
//!
//! ```
//! use keccak_tables::{Bus, Operation, Refusal, Side, keccak};
//!
//! let list = Operation { timestamp: 5, address: 4096, input: [0; 25], output: [0; 25], segment: 0 }.words();
//! let mut row = [0; keccak::NUM_COLUMNS];
//! keccak::keccak_row(&list, 0, &mut row)?;
//!
//! let mut values = [1; keccak::NUM_VALUES];
//! keccak::core_values(&row, &mut values)?;
//! assert_eq!(values, [0; keccak::NUM_VALUES]);
//!
//! let mut out = [0; keccak::MAX_TUPLE_LENGTH];
//! let tuple = keccak::bus_interaction(&row, 2, 0, &mut out)?;
//! assert_eq!((tuple.bus, tuple.side, tuple.length), (Bus::Keccak, Side::Sender, 203));
//! # Ok::<(), Refusal>(())
//! ```

pub mod cols;

use crate::all_cores;
use crate::ffi;
use crate::operation::{MAX_OPS, OP_WORDS};
use crate::parameters::Parameters;
use crate::refusal::{PAST_END, Refusal, TOO_SHORT};
use crate::tuple::{BusInteraction, of_row};

/// The columns of a row ([`cols`]): 2 timestamp words, 8 address bytes, 200 INPUT, 200 OUTPUT, 25 pointers of 3 limbs, MU.
pub const NUM_COLUMNS: usize = 486;

/// The constraint values of a row: two for each lane's pointer, then the last pointer's high carry, then MU.
pub const NUM_VALUES: usize = 52;

/// The tuples of a row: 1 Ecall, 26 Memw, 2 Keccak, 25 IsWh, 25 IsHalfword, 1 ByteAlu, 4 AreBytes.
pub const NUM_TUPLES: usize = 84;

/// The most values that a tuple of a row has.
pub const MAX_TUPLE_LENGTH: usize = 203;

/// The words of a row's tuples: for each the four of its header, then its values.
pub const TUPLE_WORDS: usize = 1457;

/// The words of an operation's keys: two for each lane.
pub const KEY_WORDS: usize = 50;

/// The highest address from which 25 lanes start below 2^64, 2^64 - 193. The highest accepted one is the multiple of 8 before it,
/// 2^64 - 200.
pub const LAST_ADDRESS: u64 = u64::MAX - 192;

/// Writes the row of operation `index` of a list to the front of `row`.
///
/// Every address of the list is checked, on each call, so its time grows with the list. Where one row is wanted, lend its
/// operation alone; the rows of many are [`keccak_rows`].
///
/// ```
/// use keccak_tables::{OP_WORDS, Operation, Refusal, keccak};
///
/// let operation = |timestamp| Operation { timestamp, address: 4096, input: [0; 25], output: [0; 25], segment: 0 };
/// let list = Operation::list(&[operation(5), operation(6), operation(7)]);
/// let mut row = [0; keccak::NUM_COLUMNS];
/// keccak::keccak_row(&list[2 * OP_WORDS..][..OP_WORDS], 0, &mut row)?;
/// assert_eq!(row[0], 7);
/// # Ok::<(), Refusal>(())
/// ```
///
/// # Errors
///
/// [`PastEnd`](Refusal::PastEnd): more than [`MAX_OPS`] operations, then `index` is not below their
/// number; [`NotWhole`](Refusal::NotWhole): `ops` is not whole operations; [`TooShort`](Refusal::TooShort): `row` has
/// fewer than 486 words; [`HighAddress`](Refusal::HighAddress): an operation's address is above
/// [`LAST_ADDRESS`], in any operation of the list; [`Unaligned`](Refusal::Unaligned): one is no multiple of 8;
/// [`Segment`](Refusal::Segment): a segment word is 2^32 or more.
pub fn keccak_row(ops: &[u64], index: usize, row: &mut [u64]) -> Result<(), Refusal> {
    ffi::keccak_row(ops, index, row).named(|number, _| match number {
        PAST_END if ops.len() / OP_WORDS <= MAX_OPS => "index",
        TOO_SHORT => "row",
        _ => "ops",
    })
}

/// Writes the core table of a list of operations to the front of `table`, which has room for [`keccak_height`] rows.
///
/// # Errors
///
/// [`PastEnd`](Refusal::PastEnd): more than [`MAX_OPS`] operations; [`NotWhole`](Refusal::NotWhole):
/// `ops` is not whole operations; [`TooShort`](Refusal::TooShort): `table` has fewer than 486 words for each row of
/// [`keccak_height`]; [`HighAddress`](Refusal::HighAddress): an operation's address is above
/// [`LAST_ADDRESS`]; [`Unaligned`](Refusal::Unaligned): one is no multiple of 8;
/// [`Segment`](Refusal::Segment): a segment word is 2^32 or more.
pub fn generate_keccak_trace(ops: &[u64], table: &mut [u64]) -> Result<(), Refusal> {
    generate_keccak_trace_with(Parameters::default(), ops, table)
}

/// The same by these parameters, of which the [`floor`](Parameters::floor) alone has a part in it: the table has no fewer rows.
///
/// # Errors
///
/// [`Floor`](Refusal::Floor): the floor is no power of two from 4 to 65,536; then those of [`generate_keccak_trace`], `table` having 486
/// words for each row of [`keccak_height_with`].
pub fn generate_keccak_trace_with(parameters: Parameters, ops: &[u64], table: &mut [u64]) -> Result<(), Refusal> {
    ffi::generate_keccak_trace(parameters.floor, ops, table).named(of_list)
}

/// The argument of a refusal by a call that writes rows of a list.
pub(crate) fn of_list(number: u64, _: u64) -> &'static str {
    match number {
        TOO_SHORT => "table",
        _ => "ops",
    }
}

/// Writes the rows of a list of operations, without the table's padding, to the front of `table`.
///
/// The rows of two lists, one after the other, are those of the list that the two make, so threads can fill one table:
///
/// ```
/// use keccak_tables::{OP_WORDS, Operation, Refusal, keccak};
///
/// let operation = |timestamp| Operation { timestamp, address: 4096, input: [0; 25], output: [0; 25], segment: 0 };
/// let list = Operation::list(&[operation(5), operation(6), operation(7)]);
/// let mut rows = vec![0; 3 * keccak::NUM_COLUMNS];
/// let (early, late) = rows.split_at_mut(2 * keccak::NUM_COLUMNS);
/// std::thread::scope(|scope| {
///     let early = scope.spawn(|| keccak::keccak_rows(&list[..2 * OP_WORDS], early));
///     keccak::keccak_rows(&list[2 * OP_WORDS..], late)?;
///     early.join().expect("no call panics")
/// })?;
/// assert_eq!(rows, keccak::keccak_table(&list)?[..rows.len()]);
/// # Ok::<(), Refusal>(())
/// ```
///
/// # Errors
///
/// [`PastEnd`](Refusal::PastEnd): more than [`MAX_OPS`] operations; [`NotWhole`](Refusal::NotWhole):
/// `ops` is not whole operations; [`TooShort`](Refusal::TooShort): `table` has fewer than 486 words for each operation;
/// [`HighAddress`](Refusal::HighAddress): an operation's address is above
/// [`LAST_ADDRESS`]; [`Unaligned`](Refusal::Unaligned): one is no multiple of 8;
/// [`Segment`](Refusal::Segment): a segment word is 2^32 or more.
pub fn keccak_rows(ops: &[u64], table: &mut [u64]) -> Result<(), Refusal> {
    ffi::keccak_rows(ops, table).named(of_list)
}

/// The core table of a list of operations, in memory of its own. The rows of a long list are written on all cores.
///
/// # Errors
///
/// [`PastEnd`](Refusal::PastEnd): more than [`MAX_OPS`] operations; [`NotWhole`](Refusal::NotWhole):
/// `ops` is not whole operations; [`HighAddress`](Refusal::HighAddress): an operation's address is above
/// [`LAST_ADDRESS`]; [`Unaligned`](Refusal::Unaligned): one is no multiple of 8;
/// [`Segment`](Refusal::Segment): a segment word is 2^32 or more.
pub fn keccak_table(ops: &[u64]) -> Result<Vec<u64>, Refusal> {
    keccak_table_with(Parameters::default(), ops)
}

/// The same by these parameters, as [`generate_keccak_trace_with`].
///
/// ```
/// use keccak_tables::{Operation, Parameters, Refusal, keccak};
///
/// let list = Operation { timestamp: 5, address: 4096, input: [0; 25], output: [0; 25], segment: 0 }.words();
/// let sixteen = Parameters::default().floor(16);
/// let table = keccak::keccak_table_with(sixteen, &list)?;
/// assert_eq!(table.len(), 16 * keccak::NUM_COLUMNS);
/// assert_eq!(table[..4 * keccak::NUM_COLUMNS], keccak::keccak_table(&list)?);
/// assert_eq!(keccak::keccak_table_with(sixteen.floor(6), &list), Err(Refusal::Floor { floor: 6 }));
/// # Ok::<(), Refusal>(())
/// ```
///
/// # Errors
///
/// [`Floor`](Refusal::Floor): the floor is no power of two from 4 to 65,536; then those of [`keccak_table`].
pub fn keccak_table_with(parameters: Parameters, ops: &[u64]) -> Result<Vec<u64>, Refusal> {
    let n = ops.len() / OP_WORDS;
    let mut table = vec![0; height_for(parameters, n, "ops")? * NUM_COLUMNS];
    let (rows, padding) = table.split_at_mut(n * NUM_COLUMNS);
    if all_cores::write(ops, rows, keccak_rows) {
        pad(padding)?;
    } else {
        generate_keccak_trace_with(parameters, ops, &mut table)?;
    }
    Ok(table)
}

/// Writes padding rows, which are the same whatever the floor: those of the table of no operations.
fn pad(rows: &mut [u64]) -> Result<(), Refusal> {
    let padding = keccak_table(&[])?;
    for row in rows.chunks_mut(NUM_COLUMNS) {
        row.copy_from_slice(&padding[..NUM_COLUMNS]);
    }
    Ok(())
}

/// Writes the IS_WH keys of a list of operations: for each lane the pointer's upper 32 bits, then its bits 16 to 31.
///
/// # Errors
///
/// [`PastEnd`](Refusal::PastEnd): more than [`MAX_OPS`] operations; [`NotWhole`](Refusal::NotWhole):
/// `ops` is not whole operations; [`TooShort`](Refusal::TooShort): `out` has fewer than 50 words for each operation;
/// [`HighAddress`](Refusal::HighAddress): an operation's address is above
/// [`LAST_ADDRESS`]; [`Unaligned`](Refusal::Unaligned): one is no multiple of 8;
/// [`Segment`](Refusal::Segment): a segment word is 2^32 or more.
pub fn is_wh_keys(ops: &[u64], out: &mut [u64]) -> Result<(), Refusal> {
    ffi::is_wh_keys(ops, out).named(|number, _| match number {
        TOO_SHORT => "out",
        _ => "ops",
    })
}

/// The rows of the core table of `n` operations: a power of two, 4 or more.
///
/// # Errors
///
/// [`PastEnd`](Refusal::PastEnd): `n` is more than [`MAX_OPS`].
pub fn keccak_height(n: usize) -> Result<usize, Refusal> {
    keccak_height_with(Parameters::default(), n)
}

/// The same by these parameters: the next power of two of `n`, and no fewer than the [`floor`](Parameters::floor).
///
/// # Errors
///
/// [`Floor`](Refusal::Floor): the floor is no power of two from 4 to 65,536; then those of [`keccak_height`].
pub fn keccak_height_with(parameters: Parameters, n: usize) -> Result<usize, Refusal> {
    height_for(parameters, n, "n")
}

/// The same for a call whose argument by this name has n operations.
fn height_for(parameters: Parameters, n: usize, argument: &'static str) -> Result<usize, Refusal> {
    let answer = ffi::keccak_height(parameters.floor, n).named(|_, _| argument);
    answer.map(|rows| rows as usize)
}

/// Writes the 52 constraint values of a row of 486 columns, mod p and in the order of the Rust's `eval`, to the front of
/// `out`. All are 0 where the constraints hold.
///
/// # Errors
///
/// [`TooShort`](Refusal::TooShort): `row` has fewer than 486 words, then `out` fewer than 52;
/// [`NotElement`](Refusal::NotElement): a column of `row` is p or more.
pub fn core_values(row: &[u64], out: &mut [u64]) -> Result<(), Refusal> {
    ffi::keccak_values(row, out).named(|number, _| of_row(number, row, NUM_COLUMNS))
}

/// Tuple `index` of a row of 486 columns, in the order of the Rust's `bus_interactions`; its values go to the front of
/// `out`. `syscall` is the number of the Keccak system call, whose halves stand in tuple 0.
///
/// # Errors
///
/// [`PastEnd`](Refusal::PastEnd): `index` is 84 or more; [`TooShort`](Refusal::TooShort): `row` has fewer than 486
/// words, then `out` fewer than the tuple has values; [`NotElement`](Refusal::NotElement): a column of `row` is p or
/// more.
pub fn bus_interaction(row: &[u64], index: usize, syscall: u64, out: &mut [u64]) -> Result<BusInteraction, Refusal> {
    bus_interaction_with(Parameters::default(), row, index, syscall, out)
}

/// The same by these parameters: tuple 2 hands INPUT to the first of [`rounds`](Parameters::rounds) rounds, which is 24 less their number.
///
/// # Errors
///
/// [`Rounds`](Refusal::Rounds): the rounds are not 1 to 24; then those of [`bus_interaction`].
pub fn bus_interaction_with(
    parameters: Parameters,
    row: &[u64],
    index: usize,
    syscall: u64,
    out: &mut [u64],
) -> Result<BusInteraction, Refusal> {
    let flat = ffi::keccak_bus_interaction(parameters.rounds, row, index, syscall, out);
    BusInteraction::from_flat(flat, row, NUM_COLUMNS)
}

/// All 84 tuples of a row, one after the other, to the front of `out`: 1,457 words, which [`tuples`](crate::tuples) reads.
///
/// # Errors
///
/// [`TooShort`](Refusal::TooShort): `row` has fewer than 486 words, then `out` fewer than 1,457;
/// [`NotElement`](Refusal::NotElement): a column of `row` is p or more.
pub fn bus_interactions(row: &[u64], syscall: u64, out: &mut [u64]) -> Result<(), Refusal> {
    bus_interactions_with(Parameters::default(), row, syscall, out)
}

/// The same by these parameters, as [`bus_interaction_with`].
///
/// # Errors
///
/// [`Rounds`](Refusal::Rounds): the rounds are not 1 to 24; then those of [`bus_interactions`].
pub fn bus_interactions_with(
    parameters: Parameters,
    row: &[u64],
    syscall: u64,
    out: &mut [u64],
) -> Result<(), Refusal> {
    let answer = ffi::keccak_bus_interactions(parameters.rounds, row, syscall, out);
    answer.named(|number, _| of_row(number, row, NUM_COLUMNS))
}
