//! A segment's lookups on the bitwise table: charged to its counters, or looked at before.
//!
//! What is charged is what the rows of the core and the round table of a list of operations send, padding rows included; what the
//! IS_WH table of the same list looks up is charged by [`IsWhRows::charge`](crate::is_wh::IsWhRows::charge).
//!
//! ```
//! use keccak_tables::bitwise::{self, BitwiseOperationType};
//! use keccak_tables::segment::{self, Look};
//! use keccak_tables::{Operation, Refusal};
//!
//! let list = Operation { timestamp: 5, address: 4096, input: [0; 25], output: [0; 25], segment: 0 }.words();
//! let mut counters = vec![0; bitwise::NUM_COUNTERS];
//!
//! // What a charge would do, and then the charge.
//! let look = Look::new(&list, &counters)?;
//! let xor = look.kinds()[BitwiseOperationType::ByteAluXor.number()];
//! assert_eq!(xor.sum, 24 * 608);
//! segment::charge(&list, &mut counters)?;
//! assert_eq!(counters, look.counters());
//! assert_eq!(counters.iter().skip(9).step_by(10).max(), Some(&xor.largest));
//! # Ok::<(), Refusal>(())
//! ```

use crate::bitwise::{BitwiseOperationType, NUM_COUNTERS, NUM_LOOKUP_TYPES};
use crate::ffi;
use crate::parameters::Parameters;
use crate::refusal::{NOT_ELEMENT, Refusal, TOO_SHORT};

/// The words that a look writes: for each kind of lookup the sum charged, then the largest counter afterwards.
pub const LOOK_WORDS: usize = 2 * NUM_LOOKUP_TYPES;

/// Adds to the counters of the bitwise table, mod p, what the core and the round table of a list of operations look up, padding rows
/// included. A list without operations adds nothing.
///
/// # Errors
///
/// [`PastEnd`](Refusal::PastEnd): more than [`MAX_OPS`](crate::MAX_OPS) operations; [`NotWhole`](Refusal::NotWhole): `ops` is not
/// whole operations; [`TooShort`](Refusal::TooShort): `counters` has fewer than 10,485,760 words;
/// [`HighAddress`](Refusal::HighAddress): an operation's address is above [`LAST_ADDRESS`](crate::keccak::LAST_ADDRESS);
/// [`Unaligned`](Refusal::Unaligned): one is no multiple of 8; [`Segment`](Refusal::Segment): a segment word is 2^32 or more;
/// [`NotElement`](Refusal::NotElement): a counter, charged or not, is p or more.
pub fn charge(ops: &[u64], counters: &mut [u64]) -> Result<(), Refusal> {
    charge_with(Parameters::default(), ops, counters)
}

/// The same by these parameters: the round table has [`rounds`](Parameters::rounds) rows to an operation, neither table has fewer rows than
/// the [`floor`](Parameters::floor), and [`shipped`](Parameters::shipped) adds what the tables of a list without operations look up too,
/// which is AreBytes of 0 and 0, 220 times the floor.
///
/// # Errors
///
/// [`Rounds`](Refusal::Rounds): the rounds are not 1 to 24; [`Floor`](Refusal::Floor): the floor is no power of two from 4 to 65,536; then
/// those of [`charge`].
pub fn charge_with(parameters: Parameters, ops: &[u64], counters: &mut [u64]) -> Result<(), Refusal> {
    let Parameters { rounds, floor, shipped } = parameters;
    ffi::charge(rounds, floor, shipped, ops, counters).named(|number, _| match number {
        TOO_SHORT | NOT_ELEMENT => "counters",
        _ => "ops",
    })
}

/// What [`charge`] would do to these counters, which are only read: `copy` then begins with the charged counters, and `out` with
/// [`LOOK_WORDS`] words, the sum charged and the largest counter afterwards for each kind of lookup in turn. [`Look`] lends both.
///
/// # Errors
///
/// Those of [`charge`]; [`TooShort`](Refusal::TooShort) also where, after the counters, `copy` has fewer than 10,485,760 words, or then
/// `out` fewer than 20.
pub fn look(ops: &[u64], counters: &[u64], copy: &mut [u64], out: &mut [u64]) -> Result<(), Refusal> {
    look_with(Parameters::default(), ops, counters, copy, out)
}

/// The same by these parameters, as [`charge_with`].
///
/// # Errors
///
/// [`Rounds`](Refusal::Rounds): the rounds are not 1 to 24; [`Floor`](Refusal::Floor): the floor is no power of two from 4 to 65,536; then
/// those of [`look`].
pub fn look_with(
    parameters: Parameters,
    ops: &[u64],
    counters: &[u64],
    copy: &mut [u64],
    out: &mut [u64],
) -> Result<(), Refusal> {
    let (copies, words) = (copy.len(), counters.len());
    let Parameters { rounds, floor, shipped } = parameters;
    ffi::look(rounds, floor, shipped, ops, counters, copy, out).named(|number, _| match number {
        TOO_SHORT if words < NUM_COUNTERS => "counters",
        TOO_SHORT if copies < NUM_COUNTERS => "copy",
        TOO_SHORT => "out",
        NOT_ELEMENT => "counters",
        _ => "ops",
    })
}

/// What a charge does to the counters of one kind of lookup.
#[derive(Debug, Clone, Copy, PartialEq, Eq, Hash)]
pub struct KindLook {
    /// The kind.
    pub kind: BitwiseOperationType,
    /// The sum of what is added to its counters, a whole number.
    pub sum: u64,
    /// The largest of them afterwards, mod p.
    pub largest: u64,
}

/// A look at a charge, in memory of its own.
#[derive(Debug, Clone, PartialEq, Eq, Hash)]
pub struct Look {
    counters: Vec<u64>,
    words: [u64; LOOK_WORDS],
}

impl Look {
    /// What [`charge`] would do.
    ///
    /// # Errors
    ///
    /// Those of [`charge`].
    pub fn new(ops: &[u64], counters: &[u64]) -> Result<Self, Refusal> {
        Self::with(Parameters::default(), ops, counters)
    }

    /// What [`charge_with`] would do.
    ///
    /// # Errors
    ///
    /// Those of [`charge_with`].
    pub fn with(parameters: Parameters, ops: &[u64], counters: &[u64]) -> Result<Self, Refusal> {
        let mut look = Self {
            counters: vec![0; NUM_COUNTERS],
            words: [0; LOOK_WORDS],
        };
        look_with(parameters, ops, counters, &mut look.counters, &mut look.words)?;
        Ok(look)
    }

    /// A look whose copy and words are these.
    pub(crate) fn of(counters: Vec<u64>, words: &[u64]) -> Self {
        Self {
            counters,
            words: words.try_into().expect("a look's twenty words"),
        }
    }

    /// The charged counters, without words past them.
    #[must_use]
    pub fn counters(&self) -> &[u64] {
        &self.counters
    }

    /// What is done to each kind, at its number.
    #[must_use]
    pub fn kinds(&self) -> [KindLook; NUM_LOOKUP_TYPES] {
        BitwiseOperationType::ALL.map(|kind| KindLook {
            kind,
            sum: self.words[2 * kind.number()],
            largest: self.words[2 * kind.number() + 1],
        })
    }
}
