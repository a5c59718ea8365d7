//! The calls that take a list of operations and write words, and how many words each needs.

use keccak_tables::keccak::LAST_ADDRESS;
use keccak_tables::{MAX_OPS, OP_WORDS, Parameters, Refusal, SEGMENT_WORD, keccak, keccak_rnd};

use crate::by_floor;
use crate::by_rounds;
use crate::inputs::{LAST_ALIGNED, Words};
use crate::refusals::first;

/// The least number of operations that is refused, which is the detail too.
pub const TOO_MANY: u64 = MAX_OPS as u64 + 1;

/// The refusal of a list's operations, which comes after those of its length and of slices, and before 5: of its addresses, and then 11 for
/// the first segment word of which the upper half is not 0.
pub fn of_operations(ops: &[u64]) -> Option<(u64, u64)> {
    of_addresses(ops).or_else(|| first_word(ops, SEGMENT_WORD, |word| word >> 32 != 0).map(|word| (11, word)))
}

/// The refusal of a list's addresses: 4 for the first that is too high, wherever it stands, and then 7 for the first that is no multiple of 8.
pub fn of_addresses(ops: &[u64]) -> Option<(u64, u64)> {
    let first = |number, refused| first_word(ops, 1, refused).map(|address| (number, address));
    first(4, |address| u128::from(address) + 192 >= 1 << 64).or_else(|| first(7, |address| address % 8 != 0))
}

/// Of the words at this place of a list's operations the first that is refused.
fn first_word(ops: &[u64], place: usize, refused: fn(u64) -> bool) -> Option<u64> {
    let mut words = ops.chunks_exact(OP_WORDS).map(|operation| operation[place]);
    words.find(|&word| refused(word))
}

/// The refusal of a call that takes a list: of its length, then of the other conditions given, which are those of slices, then of its
/// operations, which are looked at only then.
pub fn of_list(ops: &[u64], slices: &[(bool, u64, u64)]) -> Option<(u64, u64)> {
    let n = ops.len() / OP_WORDS;
    let lengths = [(n > MAX_OPS, 1, TOO_MANY), (!ops.len().is_multiple_of(OP_WORDS), 2, 2)];
    first(&lengths).or_else(|| first(slices)).or_else(|| of_operations(ops))
}

/// What is put among the operations of a list.
#[derive(Debug, Clone, Copy)]
pub struct Put {
    /// Addresses, one after the other.
    pub addresses: &'static [u64],
    /// Segment words, likewise.
    pub segments: &'static [u64],
}

/// Of addresses the highest accepted one; those that 4 or 7 refuses, alone, twice, and both in either order; of segment words the last that is
/// accepted, those that 11 refuses, alone and twice; and such words with addresses that are refused before them.
pub const PUT: [Put; 15] = [
    put(&[], &[]),
    put(&[LAST_ALIGNED], &[LAST_SEGMENT]),
    put(&[LAST_ADDRESS], &[]),
    put(&[LAST_ADDRESS + 1], &[]),
    put(&[u64::MAX], &[]),
    put(&[4100, 12], &[]),
    put(&[LAST_ADDRESS + 1, u64::MAX], &[]),
    put(&[LAST_ADDRESS, LAST_ADDRESS + 1], &[]),
    put(&[u64::MAX, 4100, LAST_ADDRESS + 1], &[]),
    put(&[], &[LAST_SEGMENT + 1]),
    put(&[], &[1 << 63, LAST_SEGMENT + 1]),
    put(&[], &[LAST_SEGMENT, u64::MAX, 1 << 40]),
    put(&[4100], &[LAST_SEGMENT + 1]),
    put(&[LAST_ADDRESS + 1], &[u64::MAX]),
    put(&[12, u64::MAX], &[1 << 32, 1 << 33]),
];

/// The last segment number.
pub const LAST_SEGMENT: u64 = u32::MAX as u64;

const fn put(addresses: &'static [u64], segments: &'static [u64]) -> Put {
    Put { addresses, segments }
}

/// Some operations, these addresses and segment words among theirs, each at a drawn place, as many as have room; and words past them that
/// look like an operation at a high address.
pub fn list_with(words: &mut Words, n: usize, past: usize, put: Put) -> Vec<u64> {
    let mut list = words.operations(n);
    list.extend(vec![u64::MAX; past]);
    for (place, put) in [(1, put.addresses), (SEGMENT_WORD, put.segments)] {
        let put = &put[..n.min(put.len())];
        let at = words.below((n - put.len()) as u64 + 1) as usize;
        for (operation, &word) in list.chunks_exact_mut(OP_WORDS).skip(at).zip(put) {
            operation[place] = word;
        }
    }
    list
}

/// A call on a list, an index and a slice, by parameters.
type Call = fn(Parameters, &[u64], usize, &mut [u64]) -> Result<(), Refusal>;

/// A call on a list.
pub struct ListCall {
    /// The archive's name for it.
    pub name: &'static str,
    /// Whether it takes the index of an operation.
    pub takes_index: bool,
    /// Whether it takes the number of rounds.
    takes_rounds: bool,
    /// Whether it takes the floor.
    takes_floor: bool,
    /// The words that it needs for n operations.
    needed: fn(Parameters, usize) -> usize,
    /// The call; the parameters and the index may have no part in it.
    call: Call,
}

impl ListCall {
    /// What it is refused by before anything else: the rounds and the floor, where it takes them.
    pub fn refusal(&self, with: Parameters) -> Option<(u64, u64)> {
        let rounds = by_rounds::refusal(with.rounds).filter(|_| self.takes_rounds);
        rounds.or(by_floor::refusal(with.floor).filter(|_| self.takes_floor))
    }

    /// The words that it needs for n operations by these parameters; where they are refused, as many as by those of today.
    pub fn needed_by(&self, with: Parameters, n: usize) -> usize {
        match self.refusal(with) {
            None => (self.needed)(with, n),
            Some(_) => (self.needed)(Parameters::default(), n),
        }
    }

    /// The words that it needs for n operations.
    pub fn needed(&self, n: usize) -> usize {
        self.needed_by(Parameters::default(), n)
    }

    /// The call by these parameters.
    pub fn by(&self, with: Parameters, ops: &[u64], index: usize, out: &mut [u64]) -> Result<(), Refusal> {
        (self.call)(with, ops, index, out)
    }

    /// The call on a list and a slice, with the index of the last operation.
    pub fn at_last(&self, ops: &[u64], out: &mut [u64]) -> Result<(), Refusal> {
        let last = (ops.len() / OP_WORDS).saturating_sub(1);
        self.by(Parameters::default(), ops, last, out)
    }
}

/// All of them.
pub const LIST_CALLS: [ListCall; 6] = [
    ListCall {
        name: "generate_keccak_trace",
        takes_index: false,
        takes_rounds: false,
        takes_floor: true,
        needed: |with, n| by_floor::height(with.floor, n) * 486,
        call: |with, ops, _, table| keccak::generate_keccak_trace_with(with, ops, table),
    },
    ListCall {
        name: "generate_keccak_rnd_trace",
        takes_index: false,
        takes_rounds: true,
        takes_floor: true,
        needed: |with, n| by_floor::round_height(with, n) * 1480,
        call: |with, ops, _, table| keccak_rnd::generate_keccak_rnd_trace_with(with, ops, table),
    },
    ListCall {
        name: "keccak_rows",
        takes_index: false,
        takes_rounds: false,
        takes_floor: false,
        needed: |_, n| 486 * n,
        call: |_, ops, _, table| keccak::keccak_rows(ops, table),
    },
    ListCall {
        name: "keccak_rnd_rows",
        takes_index: false,
        takes_rounds: true,
        takes_floor: false,
        needed: |with, n| with.rounds as usize * 1480 * n,
        call: |with, ops, _, table| keccak_rnd::keccak_rnd_rows_with(with, ops, table),
    },
    ListCall {
        name: "is_wh_keys",
        takes_index: false,
        takes_rounds: false,
        takes_floor: false,
        needed: |_, n| 50 * n,
        call: |_, ops, _, out| keccak::is_wh_keys(ops, out),
    },
    ListCall {
        name: "keccak_row",
        takes_index: true,
        takes_rounds: false,
        takes_floor: false,
        needed: |_, _| 486,
        call: |_, ops, index, row| keccak::keccak_row(ops, index, row),
    },
];
