//! Operations, and their flat form: [`OP_WORDS`] words each.

use crate::refusal::Refusal;

/// The words of an operation in a flat list: timestamp, address, 25 input lanes, 25 output lanes, segment number.
pub const OP_WORDS: usize = 53;

/// The place of the segment number among them, which is the last; of its word the upper half is 0.
pub const SEGMENT_WORD: usize = 52;

/// The most operations in one list.
pub const MAX_OPS: usize = 89_478_485;

/// One call of the permutation. Lane (x, y) is at x + 5y.
#[derive(Debug, Clone, Copy, PartialEq, Eq, Hash)]
pub struct Operation {
    /// When it was made.
    pub timestamp: u64,
    /// Where the state lies in memory: a multiple of 8.
    pub address: u64,
    /// The state before.
    pub input: [u64; 25],
    /// The state after, which no writer checks.
    pub output: [u64; 25],
    /// In which segment of a job it was made. No column of a table holds it.
    pub segment: u32,
}

impl Operation {
    /// Its words in a flat list.
    #[must_use]
    pub fn words(&self) -> [u64; OP_WORDS] {
        let mut words = [0; OP_WORDS];
        words[0] = self.timestamp;
        words[1] = self.address;
        words[2..27].copy_from_slice(&self.input);
        words[27..SEGMENT_WORD].copy_from_slice(&self.output);
        words[SEGMENT_WORD] = u64::from(self.segment);
        words
    }

    /// The flat list of some operations.
    ///
    /// ```
    /// use keccak_tables::{Operation, Refusal, keccak};
    ///
    /// let operation = |timestamp| Operation { timestamp, address: 4096, input: [0; 25], output: [0; 25], segment: 0 };
    /// let table = keccak::keccak_table(&Operation::list(&[operation(5), operation(6)]))?;
    /// assert_eq!(table[keccak::NUM_COLUMNS], 6);
    /// # Ok::<(), Refusal>(())
    /// ```
    #[must_use]
    pub fn list(operations: &[Self]) -> Vec<u64> {
        operations.iter().flat_map(Self::words).collect()
    }

    /// The operation of so many words of a flat list.
    ///
    /// # Errors
    ///
    /// [`Segment`](Refusal::Segment): the segment word is 2^32 or more.
    ///
    /// ```
    /// use keccak_tables::{OP_WORDS, Operation};
    ///
    /// let operation = Operation { timestamp: 5, address: 4096, input: [1; 25], output: [2; 25], segment: 3 };
    /// let list = [operation.words(), operation.words()].concat();
    /// let (operations, rest) = list.as_chunks::<OP_WORDS>();
    /// assert!(rest.is_empty());
    /// assert!(operations.iter().all(|words| Operation::from_words(words) == Ok(operation)));
    /// ```
    pub fn from_words(words: &[u64; OP_WORDS]) -> Result<Self, Refusal> {
        let lanes = |start| std::array::from_fn(|lane| words[start + lane]);
        let word = words[SEGMENT_WORD];
        Ok(Self {
            timestamp: words[0],
            address: words[1],
            input: lanes(2),
            output: lanes(27),
            segment: u32::try_from(word).map_err(|_| Refusal::Segment { word })?,
        })
    }
}
