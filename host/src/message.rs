//! From message to operations: the calls of the permutation that hash a message with SHA3-256, and a list judged against a message.
//!
//! ```
//! use keccak_tables::message::{self, Digest};
//! use keccak_tables::{OP_WORDS, Refusal, keccak, keccak_rnd, verdict};
//!
//! let page = b"pallet 17, 40 crates of tea\n";
//! let digest = Digest::new(page, 4096, 5)?;
//! assert_eq!(digest.list().len(), OP_WORDS);
//! assert_eq!(digest.to_string(), "8d7a62682a07b878b3964e9a98be1b070704f080a5031d3ef269c59cd2c947a8");
//!
//! // The list is the page's, and its tables hold.
//! assert!(message::judge_message(page, digest.list())?);
//! assert!(!message::judge_message(b"pallet 17, 41 crates of tea\n", digest.list())?);
//! let (core, round) = (keccak::keccak_table(digest.list())?, keccak_rnd::keccak_rnd_table(digest.list())?);
//! assert!(verdict::verdict(&core, &round)?.holds());
//! # Ok::<(), Refusal>(())
//! ```

use std::fmt;

use crate::ffi;
use crate::operation::{OP_WORDS, SEGMENT_WORD};
use crate::refusal::Refusal;

/// The bytes of a block of SHA3-256.
pub const RATE: usize = 136;

/// The most bytes of a message.
pub const MAX_MESSAGE: usize = 65_536;

/// The bytes of a digest.
pub const DIGEST_BYTES: usize = 32;

/// How many operations hash a message of so many bytes: as many as the padded message has blocks.
#[must_use]
pub const fn operation_count(bytes: usize) -> usize {
    bytes / RATE + 1
}

/// Writes the operations that hash a message, all at one address, from a first timestamp on, and answers how many there are:
/// [`operation_count`] of them. Each output is the permutation of its input, each input the previous output with the next block added, the
/// first from zero; timestamps rise by 1 and the segment is 0. The last output's first 32 bytes are the message's SHA3-256.
///
/// # Errors
///
/// [`LongMessage`](Refusal::LongMessage): more than [`MAX_MESSAGE`] bytes; [`LateTimestamp`](Refusal::LateTimestamp): the last timestamp
/// would pass 2^64 - 1; [`TooShort`](Refusal::TooShort): `ops` has fewer than [`OP_WORDS`] words for each operation;
/// [`HighAddress`](Refusal::HighAddress): the address is above [`LAST_ADDRESS`](crate::keccak::LAST_ADDRESS);
/// [`Unaligned`](Refusal::Unaligned): it is no multiple of 8.
pub fn message_operations(message: &[u8], address: u64, timestamp: u64, ops: &mut [u64]) -> Result<usize, Refusal> {
    let count = ffi::message_operations(message, address, timestamp, ops).named(|_, _| "ops")?;
    Ok(count as usize)
}

/// Whether a list of operations is the one that [`message_operations`] writes for this message, at the list's own first address and from
/// its first timestamp on. An empty list is not, and none is whose timestamps would pass 2^64 - 1.
///
/// # Errors
///
/// [`PastEnd`](Refusal::PastEnd): more than [`MAX_OPS`](crate::MAX_OPS) operations; [`LongMessage`](Refusal::LongMessage): more than
/// [`MAX_MESSAGE`] bytes; [`NotWhole`](Refusal::NotWhole): `ops` is not whole operations; [`HighAddress`](Refusal::HighAddress): an
/// operation's address is above [`LAST_ADDRESS`](crate::keccak::LAST_ADDRESS); [`Unaligned`](Refusal::Unaligned): one is no multiple of 8;
/// [`Segment`](Refusal::Segment): a segment word is 2^32 or more.
pub fn judge_message(message: &[u8], ops: &[u64]) -> Result<bool, Refusal> {
    ffi::judge_message(message, ops).named(|_, _| "ops")
}

/// The SHA3-256 of a message, with the operations that compute it, in memory of its own. As text, 64 hexadecimal digits in lower case.
#[derive(Debug, Clone, PartialEq, Eq, Hash)]
pub struct Digest {
    list: Vec<u64>,
}

impl Digest {
    /// The operations that hash a message, as [`message_operations`] writes them.
    ///
    /// # Errors
    ///
    /// Those of [`message_operations`], but for [`TooShort`](Refusal::TooShort).
    pub fn new(message: &[u8], address: u64, timestamp: u64) -> Result<Self, Refusal> {
        // What is too long is refused before the list is looked at.
        let count = operation_count(message.len().min(MAX_MESSAGE));
        let mut list = vec![0; count * OP_WORDS];
        message_operations(message, address, timestamp, &mut list)?;
        Ok(Self { list })
    }

    /// The flat list of the operations.
    #[must_use]
    pub fn list(&self) -> &[u64] {
        &self.list
    }

    /// The 32 bytes of the digest: the first of the last operation's output.
    #[must_use]
    pub fn bytes(&self) -> [u8; DIGEST_BYTES] {
        let lanes = &self.list[self.list.len() - OP_WORDS + SEGMENT_WORD - 25..];
        std::array::from_fn(|at| lanes[at / 8].to_le_bytes()[at % 8])
    }
}

impl fmt::Display for Digest {
    fn fmt(&self, f: &mut fmt::Formatter<'_>) -> fmt::Result {
        self.bytes().iter().try_for_each(|byte| write!(f, "{byte:02x}"))
    }
}
