//! The operation file: records under two marks, in any order. One under 4B 4F has [`RECORD_BYTES`] bytes, the mark and then an operation's 52
//! words before its segment number, lowest byte first, and is of segment 0. One under 4B 50 has [`SEGMENT_RECORD_BYTES`]: behind the same words
//! four bytes of its segment number.
//!
//! ```
//! use keccak_tables::operation_file::{RECORD_BYTES, Tally, file_bytes, read_operations, write_operations};
//! use keccak_tables::{OP_WORDS, Operation, Parameters, Refusal};
//!
//! let list = Operation { timestamp: 5, address: 4096, input: [0; 25], output: [0; 25], segment: 0 }.words();
//! let mut file = [0; RECORD_BYTES];
//! write_operations(&list, &mut file)?;
//!
//! let mut tally = Tally::new();
//! file.chunks(100).for_each(|piece| tally.feed(piece));
//! assert_eq!(tally.finish()?.byte_alu, 19_393);
//! let shipped = Parameters::default().shipped();
//! assert_eq!(Tally::new().finish_with(shipped)?.are_bytes, 880);
//! assert_eq!(Tally::new().finish_with(shipped.floor(64))?.are_bytes, 64 * 220);
//!
//! let mut read = [0; OP_WORDS];
//! read_operations(&file, &mut read)?;
//! assert_eq!(read, list);
//! assert_eq!(read_operations(&file[1..], &mut read), Err(Refusal::BadRecord { start: 0 }));
//!
//! // An operation of another segment than 0 is written under 4B 50.
//! let numbered = Operation { timestamp: 6, address: 8192, input: [0; 25], output: [0; 25], segment: 9 }.words();
//! let both = [list, numbered].concat();
//! let mut mixed = vec![0; file_bytes(&both)];
//! write_operations(&both, &mut mixed)?;
//! assert_eq!((mixed.len(), &mixed[418..420]), (418 + 422, &[0x4B, 0x50][..]));
//! let mut tally = Tally::new();
//! tally.feed(&mixed);
//! assert_eq!(tally.finish()?.segments(), Some((0, 9)));
//!
//! // Old files may have records at addresses that are no multiples of 8. They are read, and left out of the count.
//! file[10] = 4;
//! let mut tally = Tally::new();
//! tally.feed(&file);
//! let sums = tally.finish()?;
//! assert_eq!((sums.ops, sums.unaligned), (0, 1));
//! read_operations(&file, &mut read)?;
//! assert_eq!(write_operations(&read, &mut file), Err(Refusal::Unaligned { address: 4100 }));
//! # Ok::<(), Refusal>(())
//! ```

use std::fmt;

use crate::ffi::{self, FlatCursor};
use crate::operation::{OP_WORDS, SEGMENT_WORD};
use crate::parameters::Parameters;
use crate::refusal::{Refusal, TOO_SHORT};

/// The bytes of a record under 4B 4F.
pub const RECORD_BYTES: usize = 418;

/// The bytes of a record under 4B 50: its segment number has four.
pub const SEGMENT_RECORD_BYTES: usize = 422;

/// The byte that both marks begin with.
pub const FIRST_MARK: u8 = 0x4B;
/// The second byte of the mark of a record without a segment number.
pub const PLAIN_MARK: u8 = 0x4F;
/// The second byte of the mark of a record with one.
pub const SEGMENT_MARK: u8 = 0x50;

/// How many bytes the records of a list have: what [`write_operations`] needs.
#[must_use]
pub fn file_bytes(ops: &[u64]) -> usize {
    let bytes = |operation: &[u64]| match operation[SEGMENT_WORD] {
        0 => RECORD_BYTES,
        _ => SEGMENT_RECORD_BYTES,
    };
    ops.chunks_exact(OP_WORDS).map(bytes).sum()
}

/// What a file's tables would hold and send: operations, heights, and per bus the sum of multiplicities; how many records these leave
/// out; and the segment numbers. As text, the lines that `tally` prints.
#[repr(C)]
#[derive(Debug, Clone, Copy, PartialEq, Eq, Hash)]
pub struct Sums {
    /// Records at addresses that are multiples of 8.
    pub ops: u64,
    /// Rows of the core table.
    pub core_rows: u64,
    /// Rows of the round table.
    pub round_rows: u64,
    /// Sent on ByteAlu.
    pub byte_alu: u64,
    /// Sent on AreBytes.
    pub are_bytes: u64,
    /// Sent on KeccakRc.
    pub keccak_rc: u64,
    /// Sent on IsHalfword.
    pub is_halfword: u64,
    /// Sent on IsWh.
    pub is_wh: u64,
    /// Sent on Memw.
    pub memw: u64,
    /// Received on Ecall.
    pub ecall: u64,
    /// Records at other addresses, which all the others leave out.
    pub unaligned: u64,
    /// Whether there are segment numbers to tell: 1 or 0.
    segments: u64,
    least_segment: u64,
    greatest_segment: u64,
}

impl Sums {
    /// The least and the greatest segment number of the records that are counted, where one of these is marked 4B 50; a record under 4B 4F
    /// is of segment 0.
    #[must_use]
    pub const fn segments(&self) -> Option<(u32, u32)> {
        match self.segments {
            0 => None,
            // The bytes of a segment number are four, so it is no more than a half word.
            _ => Some((self.least_segment as u32, self.greatest_segment as u32)),
        }
    }

    /// The ten numbers that `tally` always prints, in its order and by its names. Two lines more, `segments A B` and `unaligned N`, stand only
    /// where there is something to tell.
    #[must_use]
    pub const fn lines(&self) -> [(&'static str, u64); 10] {
        [
            ("ops", self.ops),
            ("core-rows", self.core_rows),
            ("round-rows", self.round_rows),
            ("ByteAlu", self.byte_alu),
            ("AreBytes", self.are_bytes),
            ("KeccakRc", self.keccak_rc),
            ("IsHalfword", self.is_halfword),
            ("IsWh", self.is_wh),
            ("Memw", self.memw),
            ("Ecall", self.ecall),
        ]
    }
}

impl fmt::Display for Sums {
    fn fmt(&self, f: &mut fmt::Formatter<'_>) -> fmt::Result {
        for (name, number) in self.lines() {
            writeln!(f, "{name} {number}")?;
        }
        if let Some((least, greatest)) = self.segments() {
            writeln!(f, "segments {least} {greatest}")?;
        }
        match self.unaligned {
            0 => Ok(()),
            records => writeln!(f, "unaligned {records}"),
        }
    }
}

/// A reader of a file that comes in pieces, cut anywhere. It holds twelve words, however long the file is.
#[must_use = "what the file says is the answer of `finish`"]
#[derive(Debug, Clone)]
pub struct Tally(FlatCursor);

impl Tally {
    /// A reader at the beginning of a file.
    pub fn new() -> Self {
        Self(ffi::tally_start())
    }

    /// Reads the next piece.
    pub fn feed(&mut self, bytes: &[u8]) {
        self.0 = ffi::tally_feed(self.0, bytes);
    }

    /// The first fault so far. Reading on does not change it.
    #[must_use]
    pub fn fault(&self) -> Option<Refusal> {
        Refusal::from_flat(self.0.refusal, self.0.detail, |_, _| "bytes").err()
    }

    /// What the whole file says, now that it has ended, where the tables of an empty one are not shipped: its sums are 0.
    ///
    /// Records at addresses that are no multiples of 8 are no fault: they are left out of the sums, and counted beside them.
    ///
    /// # Errors
    ///
    /// [`PastEnd`](Refusal::PastEnd): a byte after record 89,478,485; [`HighAddress`](Refusal::HighAddress): a record's
    /// address is above [`LAST_ADDRESS`](crate::keccak::LAST_ADDRESS); [`BadRecord`](Refusal::BadRecord): a wrong mark
    /// or a cut record. The first faulty record is told, and of it the mark before the address. Never [`Unaligned`](Refusal::Unaligned).
    pub fn finish(self) -> Result<Sums, Refusal> {
        self.finish_with(Parameters::default())
    }

    /// The same by these parameters: the tables have no fewer rows than the [`floor`](Parameters::floor), and
    /// [`shipped`](Parameters::shipped) counts the rows of an empty file's tables too. The rounds have no part in it, and are not looked at:
    /// what is counted is the tables of 24.
    ///
    /// # Errors
    ///
    /// [`Floor`](Refusal::Floor): the floor is no power of two from 4 to 65,536; then those of [`finish`](Self::finish).
    pub fn finish_with(self, parameters: Parameters) -> Result<Sums, Refusal> {
        ffi::tally_finish(parameters.floor, parameters.shipped, self.0).named(|_, _| "bytes")
    }
}

impl Default for Tally {
    fn default() -> Self {
        Self::new()
    }
}

/// Writes the operations of a file to the front of `ops`. A faulty file is refused as by [`Tally`], and then a short list.
///
/// Records at addresses that are no multiples of 8 are read like any other; the calls that take the list then refuse it.
///
/// # Errors
///
/// Those of [`Tally::finish`]; then [`TooShort`](Refusal::TooShort): `ops` has fewer than [`OP_WORDS`] words for each record.
pub fn read_operations(file: &[u8], ops: &mut [u64]) -> Result<(), Refusal> {
    ffi::read_operations(file, ops).named(|number, _| match number {
        TOO_SHORT => "ops",
        _ => "file",
    })
}

/// Writes the records of a list of operations to the front of `file`: of segment 0 under 4B 4F, of any other under 4B 50. What readers of old could
/// read, they read as before.
///
/// # Errors
///
/// [`PastEnd`](Refusal::PastEnd): more than [`MAX_OPS`](crate::MAX_OPS) operations; [`NotWhole`](Refusal::NotWhole):
/// `ops` is not whole operations; [`TooShort`](Refusal::TooShort): `file` has fewer than [`file_bytes`] of the list;
/// [`HighAddress`](Refusal::HighAddress): an operation's address is above
/// [`LAST_ADDRESS`](crate::keccak::LAST_ADDRESS); [`Unaligned`](Refusal::Unaligned): one is no multiple of 8;
/// [`Segment`](Refusal::Segment): a segment word is 2^32 or more.
pub fn write_operations(ops: &[u64], file: &mut [u8]) -> Result<(), Refusal> {
    ffi::write_operations(ops, file).named(|number, _| match number {
        TOO_SHORT => "file",
        _ => "ops",
    })
}
