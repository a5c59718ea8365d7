//! The IS_WH table: keys, its rows, what they look up, and their tuples.
//!
//! ```
//! use keccak_tables::is_wh::{IsWhKey, IsWhRows};
//! use keccak_tables::{Refusal, bitwise};
//!
//! let key = IsWhKey::of_dword(0x0123_4567_89AB_CDEF);
//! assert_eq!((key.word, key.half), (0x0123_4567, 0x89AB));
//!
//! // Two pointers with one key, and one with another.
//! let rows = IsWhRows::of_keys(&[7, 9, 7, 8, 7, 9])?;
//! assert_eq!(rows.words(), [7, 8, 1, 7, 9, 2]);
//! assert_eq!(rows.table()?[..8], [8, 7, 0, 1, 9, 7, 0, 2]);
//! let mut counters = vec![0; bitwise::NUM_COUNTERS];
//! rows.charge(&mut counters)?;
//! # Ok::<(), Refusal>(())
//! ```

use crate::ffi;
use crate::keccak::{KEY_WORDS, is_wh_keys};
use crate::operation::{MAX_OPS, OP_WORDS};
use crate::refusal::{NOT_ELEMENT, Refusal, TOO_SHORT, word_at};
use crate::tuple::BusInteraction;

/// The columns of a row: the key's halfwords, lowest first, then the multiplicity.
pub const NUM_COLUMNS: usize = 4;

/// The tuples of a row.
pub const NUM_TUPLES: usize = 5;

/// The words of a row of the list that [`dedup_is_wh_rows`] writes: the key's word and half, then how often.
pub const ROW_WORDS: usize = 3;

/// The most keys in one list, and the most rows: 25 for each of [`MAX_OPS`] operations.
pub const MAX_KEYS: usize = 25 * MAX_OPS;

/// The most that a row counts, 2^20 - 1; a key that is sent more often has several rows.
pub const IS_WH_MU_MAX: u64 = (1 << 20) - 1;

/// The pair that a pointer sends.
#[derive(Debug, Clone, Copy, PartialEq, Eq, Hash)]
pub struct IsWhKey {
    /// The upper 32 bits.
    pub word: u64,
    /// Bits 16 to 31.
    pub half: u64,
}

impl IsWhKey {
    /// The key of a 64-bit number.
    #[must_use]
    pub fn of_dword(value: u64) -> Self {
        let key = ffi::is_wh_key(value);
        Self {
            word: key.word,
            half: key.half,
        }
    }
}

/// Writes the rows of a list of keys to the front of `rows`, and answers how many: the keys in order, by word and then by half,
/// each once with how often it occurs; one that occurs more than [`IS_WH_MU_MAX`] times has several rows, the full ones first.
///
/// `keys` is two words each, as [`is_wh_keys`] writes them; `codes` and `spare` have a word for each key, to work in, and `rows` has
/// room for a row of [`ROW_WORDS`] for each. [`IsWhRows`] lends all three.
///
/// # Errors
///
/// [`PastEnd`](Refusal::PastEnd): more than [`MAX_KEYS`] keys; [`NotWhole`](Refusal::NotWhole): `keys` is not pairs;
/// [`TooShort`](Refusal::TooShort): `codes`, then `spare`, has fewer words than there are keys, then `rows` fewer than three times as
/// many; [`NotElement`](Refusal::NotElement): a key's word is 2^32 or more, or its half 2^16 or more.
pub fn dedup_is_wh_rows(
    keys: &[u64],
    codes: &mut [u64],
    spare: &mut [u64],
    rows: &mut [u64],
) -> Result<usize, Refusal> {
    let n = keys.len() / 2;
    let answer = ffi::dedup_is_wh_rows(keys, codes, spare, rows).named(|number, _| match number {
        TOO_SHORT if codes.len() < n => "codes",
        TOO_SHORT if spare.len() < n => "spare",
        TOO_SHORT => "rows",
        _ => "keys",
    });
    answer.map(|rows| rows as usize)
}

/// The height of the table of `n` rows: a power of two, 4 or more.
///
/// # Errors
///
/// [`PastEnd`](Refusal::PastEnd): `n` is more than [`MAX_KEYS`].
pub fn is_wh_height(n: usize) -> Result<usize, Refusal> {
    let answer = ffi::is_wh_height(n).named(|_, _| "n");
    answer.map(|rows| rows as usize)
}

/// Writes the table of a list of rows, three words each, to the front of `table`, which has room for [`is_wh_height`] rows.
///
/// # Errors
///
/// [`PastEnd`](Refusal::PastEnd): more than [`MAX_KEYS`] rows; [`NotWhole`](Refusal::NotWhole): `rows` is not threes;
/// [`TooShort`](Refusal::TooShort): `table` has fewer than 4 words for each row of [`is_wh_height`];
/// [`NotElement`](Refusal::NotElement): a row's word is 2^32 or more, its half 2^16 or more, or its count 2^20 or more.
pub fn generate_is_wh_trace(rows: &[u64], table: &mut [u64]) -> Result<(), Refusal> {
    ffi::generate_is_wh_trace(rows, table).named(|number, _| match number {
        TOO_SHORT => "table",
        _ => "rows",
    })
}

/// Adds to the counters of the bitwise table, mod p, what the table of a list of rows looks up, padding rows included; no rows, no
/// table and no lookup.
///
/// # Errors
///
/// [`PastEnd`](Refusal::PastEnd) and [`NotWhole`](Refusal::NotWhole) as [`generate_is_wh_trace`]; [`TooShort`](Refusal::TooShort):
/// `counters` has fewer than 10,485,760 words; [`NotElement`](Refusal::NotElement): a word of `rows` as there, then a counter that is
/// charged is p or more. Every other counter may hold any word.
pub fn collect_bitwise_from_is_wh(rows: &[u64], counters: &mut [u64]) -> Result<(), Refusal> {
    ffi::collect_bitwise_from_is_wh(rows, counters).named(|number, place| match number {
        TOO_SHORT => "counters",
        NOT_ELEMENT if !is_past_limit_at(place, rows) => "counters",
        _ => "rows",
    })
}

/// Whether a list of rows has a word at that place that is more than it can be: a key's word, its half, or a count.
fn is_past_limit_at(place: u64, rows: &[u64]) -> bool {
    let limit = [1 << 32, 1 << 16, IS_WH_MU_MAX + 1][(place % ROW_WORDS as u64) as usize];
    word_at(place, rows).is_some_and(|word| word >= limit)
}

/// The rows of the IS_WH table, in memory of their own.
#[derive(Debug, Clone, PartialEq, Eq, Hash)]
pub struct IsWhRows(Vec<u64>);

impl IsWhRows {
    /// The rows of a list of keys, two words each.
    ///
    /// # Errors
    ///
    /// [`PastEnd`](Refusal::PastEnd), [`NotWhole`](Refusal::NotWhole) and [`NotElement`](Refusal::NotElement) as
    /// [`dedup_is_wh_rows`].
    pub fn of_keys(keys: &[u64]) -> Result<Self, Refusal> {
        let n = keys.len() / 2;
        // A list that is refused by its length needs no room.
        let room = if n > MAX_KEYS { 0 } else { n };
        let mut rows = vec![0; ROW_WORDS * room];
        let count = dedup_is_wh_rows(keys, &mut vec![0; room], &mut vec![0; room], &mut rows)?;
        rows.truncate(ROW_WORDS * count);
        rows.shrink_to_fit();
        Ok(Self(rows))
    }

    /// The rows of the keys of a list of operations.
    ///
    /// # Errors
    ///
    /// [`PastEnd`](Refusal::PastEnd), [`NotWhole`](Refusal::NotWhole), [`HighAddress`](Refusal::HighAddress),
    /// [`Unaligned`](Refusal::Unaligned) and [`Segment`](Refusal::Segment) as [`is_wh_keys`].
    pub fn of_operations(ops: &[u64]) -> Result<Self, Refusal> {
        let n = ops.len() / OP_WORDS;
        let room = if n > MAX_OPS { 0 } else { n };
        let mut keys = vec![0; KEY_WORDS * room];
        is_wh_keys(ops, &mut keys)?;
        Self::of_keys(&keys)
    }

    /// Their words, [`ROW_WORDS`] a row.
    #[must_use]
    pub fn words(&self) -> &[u64] {
        &self.0
    }

    /// Their table, padding rows included. Of no rows it has padding rows alone, whose lookups [`charge`](Self::charge) leaves out: nothing is
    /// sent to such a table, so it is best not shipped.
    ///
    /// # Errors
    ///
    /// None: every list of rows that this type holds is accepted.
    pub fn table(&self) -> Result<Vec<u64>, Refusal> {
        let rows = self.0.len() / ROW_WORDS;
        let mut table = vec![0; is_wh_height(rows)? * NUM_COLUMNS];
        generate_is_wh_trace(&self.0, &mut table)?;
        Ok(table)
    }

    /// Adds what their table looks up to the counters of the bitwise table.
    ///
    /// # Errors
    ///
    /// [`TooShort`](Refusal::TooShort): `counters` has fewer than 10,485,760 words; [`NotElement`](Refusal::NotElement): a counter that is
    /// charged is p or more.
    pub fn charge(&self, counters: &mut [u64]) -> Result<(), Refusal> {
        collect_bitwise_from_is_wh(&self.0, counters)
    }
}

/// Tuple `index` of a row of 4 columns; its values go to the front of `out`.
///
/// # Errors
///
/// [`PastEnd`](Refusal::PastEnd): `index` is 5 or more; [`TooShort`](Refusal::TooShort): `row` has fewer than 4 words,
/// then `out` fewer than the tuple has values; [`NotElement`](Refusal::NotElement): a column of `row` is p or more.
pub fn bus_interaction(row: &[u64], index: usize, out: &mut [u64]) -> Result<BusInteraction, Refusal> {
    BusInteraction::from_flat(ffi::is_wh_bus_interaction(row, index, out), row, NUM_COLUMNS)
}
