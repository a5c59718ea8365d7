//! Several registers that charge one table of counters, each with a ledger of its own: the sum of each kind of lookup that it has charged.
//!
//! A ledger has ten words, mod p, and that of register r stands from word 10 r on. In use are as many registers as whole ledgers stand in the
//! lent words, 16 at most. From counters and ledgers of zeros, where nothing else is written and fewer than p lookups are charged in all, the
//! counters of each kind add up to its sums over the ledgers; and what a register is answered, and its ledger, goes by its own calls alone.
//!
//! ```
//! use keccak_tables::bitwise::{self, BitwiseOperationType};
//! use keccak_tables::registers::{self, LEDGER_WORDS, RegisterLook};
//! use keccak_tables::{Operation, Refusal};
//!
//! let list = Operation { timestamp: 5, address: 4096, input: [0; 25], output: [0; 25], segment: 0 }.words();
//! let mut counters = vec![0; bitwise::NUM_COUNTERS];
//! let mut ledgers = vec![0; 3 * LEDGER_WORDS];
//!
//! // What a charge through register 2 would do, and then two charges through it.
//! let look = RegisterLook::new(2, &list, &counters, &ledgers)?;
//! registers::charge(2, &list, &mut counters, &mut ledgers)?;
//! assert_eq!(counters, look.look().counters());
//! assert_eq!(ledgers[20..], *look.ledger());
//! registers::charge(2, &list, &mut counters, &mut ledgers)?;
//! let xor = BitwiseOperationType::ByteAluXor.number();
//! assert_eq!(ledgers[20 + xor], 2 * 24 * 608);
//!
//! let refused = registers::charge(3, &list, &mut counters, &mut ledgers);
//! assert_eq!(refused, Err(Refusal::Register { register: 3 }));
//! # Ok::<(), Refusal>(())
//! ```

use crate::bitwise::{NUM_COUNTERS, NUM_LOOKUP_TYPES};
use crate::ffi;
use crate::parameters::Parameters;
use crate::refusal::{NOT_ELEMENT, Refusal, TOO_SHORT, is_large_at};
use crate::segment::{LOOK_WORDS, Look};

/// The most registers in use.
pub const MAX_REGISTERS: usize = 16;

/// The words of a ledger: a sum for each kind of lookup, at the kind's number.
pub const LEDGER_WORDS: usize = NUM_LOOKUP_TYPES;

/// The words that a look writes: those of [`segment::look`](crate::segment::look), then the register's ledger.
pub const REGISTER_LOOK_WORDS: usize = LOOK_WORDS + LEDGER_WORDS;

/// How many registers are in use where so many ledger words are lent.
#[must_use]
pub const fn in_use(words: usize) -> usize {
    if words / LEDGER_WORDS < MAX_REGISTERS {
        words / LEDGER_WORDS
    } else {
        MAX_REGISTERS
    }
}

/// Charges the counters as [`segment::charge`](crate::segment::charge), and adds to the register's ledger, mod p, how many lookups of each
/// kind that is. Every other word of the ledgers is as it was.
///
/// # Errors
///
/// [`Register`](Refusal::Register): the register is not [in use](in_use); then those of [`segment::charge`](crate::segment::charge);
/// then [`NotElement`](Refusal::NotElement): a word of the register's own ledger is p or more.
pub fn charge(register: u64, ops: &[u64], counters: &mut [u64], ledgers: &mut [u64]) -> Result<(), Refusal> {
    charge_with(Parameters::default(), register, ops, counters, ledgers)
}

/// The same by these parameters, as [`segment::charge_with`](crate::segment::charge_with).
///
/// # Errors
///
/// [`Rounds`](Refusal::Rounds): the rounds are not 1 to 24; [`Floor`](Refusal::Floor): the floor is no power of two from 4 to 65,536; then
/// those of [`charge`].
pub fn charge_with(
    parameters: Parameters,
    register: u64,
    ops: &[u64],
    counters: &mut [u64],
    ledgers: &mut [u64],
) -> Result<(), Refusal> {
    let Parameters { rounds, floor, shipped } = parameters;
    let answer = ffi::register_charge(rounds, floor, shipped, register, ops, counters, ledgers);
    answer.named(|number, place| match number {
        TOO_SHORT => "counters",
        NOT_ELEMENT => large_in(place, counters),
        _ => "ops",
    })
}

/// What [`charge`] would do to these counters and ledgers, which are only read: `copy` then begins with the charged counters, and `out` with
/// [`REGISTER_LOOK_WORDS`] words, those of [`segment::look`](crate::segment::look) and then the register's ledger as the charge would leave
/// it. [`RegisterLook`] lends both.
///
/// # Errors
///
/// Those of [`charge`]; [`TooShort`](Refusal::TooShort) also where, after the counters, `copy` has fewer than 10,485,760 words, or then
/// `out` fewer than 30.
pub fn look(
    register: u64,
    ops: &[u64],
    counters: &[u64],
    ledgers: &[u64],
    copy: &mut [u64],
    out: &mut [u64],
) -> Result<(), Refusal> {
    look_with(Parameters::default(), register, ops, counters, ledgers, copy, out)
}

/// The same by these parameters, as [`charge_with`].
///
/// # Errors
///
/// [`Rounds`](Refusal::Rounds): the rounds are not 1 to 24; [`Floor`](Refusal::Floor): the floor is no power of two from 4 to 65,536; then
/// those of [`look`].
pub fn look_with(
    parameters: Parameters,
    register: u64,
    ops: &[u64],
    counters: &[u64],
    ledgers: &[u64],
    copy: &mut [u64],
    out: &mut [u64],
) -> Result<(), Refusal> {
    let (copies, words) = (copy.len(), counters.len());
    let Parameters { rounds, floor, shipped } = parameters;
    let answer = ffi::register_look(rounds, floor, shipped, register, ops, counters, ledgers, copy, out);
    answer.named(|number, place| match number {
        TOO_SHORT if words < NUM_COUNTERS => "counters",
        TOO_SHORT if copies < NUM_COUNTERS => "copy",
        TOO_SHORT => "out",
        NOT_ELEMENT => large_in(place, counters),
        _ => "ops",
    })
}

/// Which slice a word that is no element stands in: the ledger is looked at only where every counter is one.
fn large_in(place: u64, counters: &[u64]) -> &'static str {
    if is_large_at(place, &counters[..NUM_COUNTERS]) {
        "counters"
    } else {
        "ledgers"
    }
}

/// A look at a register's charge, in memory of its own.
#[derive(Debug, Clone, PartialEq, Eq, Hash)]
pub struct RegisterLook {
    look: Look,
    ledger: [u64; LEDGER_WORDS],
}

impl RegisterLook {
    /// What [`charge`] would do.
    ///
    /// # Errors
    ///
    /// Those of [`charge`].
    pub fn new(register: u64, ops: &[u64], counters: &[u64], ledgers: &[u64]) -> Result<Self, Refusal> {
        Self::with(Parameters::default(), register, ops, counters, ledgers)
    }

    /// What [`charge_with`] would do.
    ///
    /// # Errors
    ///
    /// Those of [`charge_with`].
    pub fn with(
        parameters: Parameters,
        register: u64,
        ops: &[u64],
        counters: &[u64],
        ledgers: &[u64],
    ) -> Result<Self, Refusal> {
        let (mut copy, mut out) = (vec![0; NUM_COUNTERS], [0; REGISTER_LOOK_WORDS]);
        look_with(parameters, register, ops, counters, ledgers, &mut copy, &mut out)?;
        let (words, ledger) = out.split_at(LOOK_WORDS);
        Ok(Self {
            look: Look::of(copy, words),
            ledger: ledger.try_into().expect("ten words are left"),
        })
    }

    /// What is done to the counters, as without a register.
    #[must_use]
    pub fn look(&self) -> &Look {
        &self.look
    }

    /// The register's ledger afterwards.
    #[must_use]
    pub fn ledger(&self) -> &[u64; LEDGER_WORDS] {
        &self.ledger
    }
}
