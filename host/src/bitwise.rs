//! The table of bitwise lookups: rows, counters and tuples.
//!
//! ```
//! use keccak_tables::bitwise::BitwiseOperationType;
//! use keccak_tables::{Refusal, bitwise};
//!
//! let index = bitwise::row_index(52, 18, 4)?;
//! let mut row = [0; bitwise::NUM_PRECOMPUTED_COLS];
//! bitwise::generate_bitwise_row(index, &mut row)?;
//! assert_eq!(row, [52, 18, 4, 16, 54, 38, 0, 0, 0, 9024, 1]);
//!
//! // The XOR in this row is looked up once more.
//! let mut counters = vec![0; bitwise::NUM_COUNTERS];
//! let kind = BitwiseOperationType::ByteAluXor;
//! bitwise::bump(&mut counters, kind, 52, 18, 4)?;
//! assert_eq!(counters[index * bitwise::NUM_LOOKUP_TYPES + kind.number()], 1);
//! # Ok::<(), Refusal>(())
//! ```

use crate::ffi;
use crate::refusal::{NOT_ELEMENT, PAST_END, Refusal, TOO_SHORT, is_large_at, word_at};
use crate::tuple::BusInteraction;

/// The rows of the table: X, Y below 256 and Z below 16.
pub const NUM_ROWS: usize = 1 << 20;

/// The columns that an index fixes.
pub const NUM_PRECOMPUTED_COLS: usize = 11;

/// All columns: the fixed ones, then a multiplicity for each kind of lookup.
pub const NUM_COLUMNS: usize = 21;

/// The kinds of lookup: those of [`BitwiseOperationType`].
pub const NUM_LOOKUP_TYPES: usize = BitwiseOperationType::ALL.len();

/// A kind of lookup. Its number is its place in [`BitwiseOperationType::ALL`]; a row's multiplicity of kind k is its column 11 + k.
#[derive(Debug, Clone, Copy, PartialEq, Eq, Hash)]
#[repr(usize)]
pub enum BitwiseOperationType {
    /// The top bit of the byte X.
    Msb8,
    /// The top bit of the halfword X + 256 Y.
    Msb16,
    /// Whether X, Y and Z are 0.
    Zero,
    /// X and Y are bytes.
    AreBytes,
    /// X + 256 Y is a halfword.
    IsHalf,
    /// X + 256 Y + 65,536 Z is below 2^20.
    IsB20,
    /// The halfword X + 256 Y, shifted left by Z bits.
    Hwsl,
    /// X AND Y.
    ByteAluAnd,
    /// X OR Y.
    ByteAluOr,
    /// X XOR Y.
    ByteAluXor,
}

impl BitwiseOperationType {
    /// Every kind, at its number.
    pub const ALL: [Self; 10] = [
        Self::Msb8,
        Self::Msb16,
        Self::Zero,
        Self::AreBytes,
        Self::IsHalf,
        Self::IsB20,
        Self::Hwsl,
        Self::ByteAluAnd,
        Self::ByteAluOr,
        Self::ByteAluXor,
    ];

    /// Its number, 0 to 9.
    #[must_use]
    pub const fn number(self) -> usize {
        self as usize
    }

    /// Its name in capitals, as the header and the programs write it.
    #[must_use]
    pub const fn name(self) -> &'static str {
        match self {
            Self::Msb8 => "MSB8",
            Self::Msb16 => "MSB16",
            Self::Zero => "ZERO",
            Self::AreBytes => "ARE_BYTES",
            Self::IsHalf => "IS_HALF",
            Self::IsB20 => "IS_B20",
            Self::Hwsl => "HWSL",
            Self::ByteAluAnd => "AND",
            Self::ByteAluOr => "OR",
            Self::ByteAluXor => "XOR",
        }
    }
}

/// A lookup on the table, by the constructors of the Rust.
///
/// ```
/// use keccak_tables::bitwise::{self, BitwiseOperation};
/// use keccak_tables::Refusal;
///
/// let lookups = [BitwiseOperation::zero(266_804)?, BitwiseOperation::b20(52, 18, 4)?];
/// let list = BitwiseOperation::list(&lookups);
/// assert_eq!(list, [2, 52, 18, 4, 5, 52, 18, 4]);
/// let mut counters = vec![0; bitwise::NUM_COUNTERS];
/// bitwise::add_ops(&mut counters, &list)?;
/// assert_eq!(counters[2_668_042], 1);
/// # Ok::<(), Refusal>(())
/// ```
#[derive(Debug, Clone, Copy, PartialEq, Eq, Hash)]
pub struct BitwiseOperation {
    /// Its kind.
    pub lookup_type: BitwiseOperationType,
    /// The byte X.
    pub x: u8,
    /// The byte Y.
    pub y: u8,
    /// Z, below 16.
    pub z: u8,
}

impl BitwiseOperation {
    /// A lookup of any kind.
    ///
    /// # Errors
    ///
    /// [`PastEnd`](Refusal::PastEnd): `z` is 16 or more.
    pub fn new(lookup_type: BitwiseOperationType, x: u8, y: u8, z: u8) -> Result<Self, Refusal> {
        Self::from_flat(ffi::lookup_new(lookup_type.number(), x, y, z), "z")
    }

    /// AND, OR or XOR of two bytes: Z is 0.
    #[must_use]
    pub fn byte_op(lookup_type: BitwiseOperationType, x: u8, y: u8) -> Self {
        Self::of_kind(ffi::lookup_byte_op(lookup_type.number(), x, y))
    }

    /// The top bit of a byte, or whether it is one: Y and Z are 0.
    #[must_use]
    pub fn single_byte(lookup_type: BitwiseOperationType, x: u8) -> Self {
        Self::of_kind(ffi::lookup_single_byte(lookup_type.number(), x))
    }

    /// The top bit of the halfword X + 256 Y, or whether it is one: Z is 0.
    #[must_use]
    pub fn halfword(lookup_type: BitwiseOperationType, x: u8, y: u8) -> Self {
        Self::of_kind(ffi::lookup_halfword(lookup_type.number(), x, y))
    }

    /// Whether a number of 20 bits is 0.
    ///
    /// # Errors
    ///
    /// [`PastEnd`](Refusal::PastEnd): `value` is 1,048,576 or more.
    pub fn zero(value: u32) -> Result<Self, Refusal> {
        Self::from_flat(ffi::lookup_zero(value), "value")
    }

    /// The halfword X + 256 Y, shifted left by Z bits.
    ///
    /// # Errors
    ///
    /// [`PastEnd`](Refusal::PastEnd): `z` is 16 or more.
    pub fn shift_op(lookup_type: BitwiseOperationType, x: u8, y: u8, z: u8) -> Result<Self, Refusal> {
        Self::from_flat(ffi::lookup_shift_op(lookup_type.number(), x, y, z), "z")
    }

    /// Whether X + 256 Y + 65,536 Z is below 2^20.
    ///
    /// # Errors
    ///
    /// [`PastEnd`](Refusal::PastEnd): `z` is 16 or more.
    pub fn b20(x: u8, y: u8, z: u8) -> Result<Self, Refusal> {
        Self::from_flat(ffi::lookup_b20(x, y, z), "z")
    }

    /// Its words in a flat list.
    #[must_use]
    pub fn words(&self) -> [u64; LOOKUP_WORDS] {
        [
            self.lookup_type.number() as u64,
            self.x.into(),
            self.y.into(),
            self.z.into(),
        ]
    }

    /// The flat list of some lookups.
    #[must_use]
    pub fn list(operations: &[Self]) -> Vec<u64> {
        operations.iter().flat_map(Self::words).collect()
    }

    /// The answer of a call of which that argument alone can be past its end: every kind has a number below 10.
    fn from_flat(flat: ffi::FlatLookup, argument: &'static str) -> Result<Self, Refusal> {
        Refusal::unless_done(flat.done, flat.refusal, flat.detail, |_, _| argument).map(|()| Self {
            lookup_type: BitwiseOperationType::ALL[flat.kind as usize],
            x: flat.x as u8,
            y: flat.y as u8,
            z: flat.z as u8,
        })
    }

    /// The answer of a call that refuses nothing but a kind.
    fn of_kind(flat: ffi::FlatLookup) -> Self {
        Self::from_flat(flat, "lookup_type").expect("every kind has a number below 10")
    }
}

/// The counters, one for each row and kind, at row × 10 + kind.
pub const NUM_COUNTERS: usize = NUM_ROWS * NUM_LOOKUP_TYPES;

/// The words of the table.
pub const TABLE_WORDS: usize = NUM_ROWS * NUM_COLUMNS;

/// The words of a lookup in a flat list: kind, X, Y, Z.
pub const LOOKUP_WORDS: usize = 4;

/// Writes the eleven fixed columns of row `index` to the front of `row`.
///
/// # Errors
///
/// [`PastEnd`](Refusal::PastEnd): `index` is 1,048,576 or more; [`TooShort`](Refusal::TooShort): `row` has fewer than
/// 11 words.
pub fn generate_bitwise_row(index: usize, row: &mut [u64]) -> Result<(), Refusal> {
    ffi::generate_bitwise_row(index, row).named(|number, _| match number {
        PAST_END => "index",
        _ => "row",
    })
}

/// The index of the row of X, Y and Z: x + 256 y + 65,536 z, where z is below 16.
///
/// # Errors
///
/// [`PastEnd`](Refusal::PastEnd): `z` is 16 or more.
pub fn row_index(x: u8, y: u8, z: u8) -> Result<usize, Refusal> {
    let answer = ffi::bitwise_row_index(x, y, z).named(|_, _| "z");
    answer.map(|index| index as usize)
}

/// Adds one, mod p, to the counter of a kind of lookup in the row of X, Y and Z.
///
/// # Errors
///
/// [`PastEnd`](Refusal::PastEnd): `z` is 16 or more; [`TooShort`](Refusal::TooShort): `counters` has fewer than
/// 10,485,760 words; [`NotElement`](Refusal::NotElement): that counter is p or more.
pub fn bump(counters: &mut [u64], kind: BitwiseOperationType, x: u8, y: u8, z: u8) -> Result<(), Refusal> {
    bump_numbered(counters, kind.number(), x, y, z)
}

/// The same of a kind by its number.
///
/// # Errors
///
/// [`PastEnd`](Refusal::PastEnd): `kind` is 10 or more, then `z` is 16 or more; [`TooShort`](Refusal::TooShort):
/// `counters` has fewer than 10,485,760 words; [`NotElement`](Refusal::NotElement): that counter is p or more.
pub fn bump_numbered(counters: &mut [u64], kind: usize, x: u8, y: u8, z: u8) -> Result<(), Refusal> {
    ffi::bitwise_bump(counters, kind, x, y, z).named(|number, _| of_bump(number, kind))
}

/// Adds `n`, mod p, to the counter of a kind of lookup in the row of X, Y and Z.
///
/// # Errors
///
/// Those of [`bump`].
pub fn bump_n(counters: &mut [u64], kind: BitwiseOperationType, x: u8, y: u8, z: u8, n: u64) -> Result<(), Refusal> {
    bump_n_numbered(counters, kind.number(), x, y, z, n)
}

/// The same of a kind by its number.
///
/// # Errors
///
/// Those of [`bump_numbered`].
pub fn bump_n_numbered(counters: &mut [u64], kind: usize, x: u8, y: u8, z: u8, n: u64) -> Result<(), Refusal> {
    ffi::bump_n(counters, kind, x, y, z, n).named(|number, _| of_bump(number, kind))
}

/// The argument of a refusal by `bump` or `bump_n`: the kind is checked before Z.
fn of_bump(number: u64, kind: usize) -> &'static str {
    match number {
        PAST_END if kind >= NUM_LOOKUP_TYPES => "kind",
        PAST_END => "z",
        _ => "counters",
    }
}

/// Adds a list of lookups, [`LOOKUP_WORDS`] each ([`BitwiseOperation::list`]), to their counters, one each, mod p.
///
/// # Errors
///
/// [`PastEnd`](Refusal::PastEnd): the first lookup whose kind is 10 or more, or whose Z is 16 or more;
/// [`NotWhole`](Refusal::NotWhole): `ops` is not whole lookups; [`TooShort`](Refusal::TooShort): `counters` has fewer than 10,485,760
/// words; [`NotElement`](Refusal::NotElement): X or Y of a lookup is 256 or more, then the counter of a lookup is p or more.
pub fn add_ops(counters: &mut [u64], ops: &[u64]) -> Result<(), Refusal> {
    ffi::add_ops(counters, ops).named(|number, place| match number {
        TOO_SHORT => "counters",
        NOT_ELEMENT if !is_no_byte_at(place, ops) => "counters",
        _ => "ops",
    })
}

/// Adds other counters to these, each to its own, mod p. The order in which several are added is of no account.
///
/// # Errors
///
/// [`TooShort`](Refusal::TooShort): `counters`, then `other`, has fewer than 10,485,760 words; [`NotElement`](Refusal::NotElement): a
/// word of `counters`, then of `other`, is p or more.
pub fn merge(counters: &mut [u64], other: &[u64]) -> Result<(), Refusal> {
    ffi::merge(counters, other).named(|number, place| match number {
        TOO_SHORT if counters.len() < NUM_COUNTERS => "counters",
        NOT_ELEMENT if is_large_at(place, &counters[..NUM_COUNTERS]) => "counters",
        _ => "other",
    })
}

/// Writes the whole table, every multiplicity being 0.
///
/// # Errors
///
/// [`TooShort`](Refusal::TooShort): `table` has fewer than 22,020,096 words.
pub fn generate_bitwise_trace(table: &mut [u64]) -> Result<(), Refusal> {
    ffi::generate_bitwise_trace(table).named(|_, _| "table")
}

/// Sets the multiplicities of a table to the counters, those that are 0 too; the fixed columns are neither read nor written.
///
/// # Errors
///
/// [`TooShort`](Refusal::TooShort): `counters` has fewer than 10,485,760 words, then `table` fewer than 22,020,096;
/// [`NotElement`](Refusal::NotElement): a counter is p or more.
pub fn fill_multiplicities(counters: &[u64], table: &mut [u64]) -> Result<(), Refusal> {
    ffi::fill_multiplicities(counters, table).named(|number, _| match number {
        TOO_SHORT if counters.len() >= NUM_COUNTERS => "table",
        _ => "counters",
    })
}

/// Adds a list of lookups, [`LOOKUP_WORDS`] each ([`BitwiseOperation::list`]), to the multiplicities of a table, one each, mod p.
///
/// # Errors
///
/// [`PastEnd`](Refusal::PastEnd): the first lookup whose kind is 10 or more, or whose Z is 16 or more;
/// [`NotWhole`](Refusal::NotWhole): `ops` is not whole lookups; [`TooShort`](Refusal::TooShort): `table` has fewer than 22,020,096
/// words; [`NotElement`](Refusal::NotElement): X or Y of a lookup is 256 or more, then the multiplicity of a lookup is p or more.
pub fn update_multiplicities(table: &mut [u64], ops: &[u64]) -> Result<(), Refusal> {
    ffi::bitwise_update_multiplicities(table, ops).named(|number, place| match number {
        TOO_SHORT => "table",
        NOT_ELEMENT if !is_no_byte_at(place, ops) => "table",
        _ => "ops",
    })
}

/// Whether a list of lookups has an X or a Y at that place that is no byte: they are looked at before what they charge.
fn is_no_byte_at(place: u64, ops: &[u64]) -> bool {
    matches!(place % LOOKUP_WORDS as u64, 1 | 2) && word_at(place, ops).is_some_and(|word| word >= 256)
}

/// Tuple `index` of a row of 21 columns; its values go to the front of `out`.
///
/// # Errors
///
/// [`PastEnd`](Refusal::PastEnd): `index` is 10 or more; [`TooShort`](Refusal::TooShort): `row` has fewer than 21
/// words, then `out` fewer than the tuple has values; [`NotElement`](Refusal::NotElement): a column of `row` is p or
/// more.
pub fn bus_interaction(row: &[u64], index: usize, out: &mut [u64]) -> Result<BusInteraction, Refusal> {
    BusInteraction::from_flat(ffi::bitwise_bus_interaction(row, index, out), row, NUM_COLUMNS)
}
