//! The month in whole numbers: what the segments of many operation files use of their round tables, from the files' operation counts alone.
//!
//! ```
//! use keccak_tables::Refusal;
//! use keccak_tables::month::{Fill, Month};
//!
//! let month = Month::new(&[0, 1, 2, 4])?;
//! assert_eq!((month.files, month.operations), (4, 7));
//! assert_eq!((month.used_rows, month.padding_rows), (168, 60));
//! // 24 of 32 rows, 48 of 64 and 96 of 128 are equally full, and the first is shown; a file without operations has a table too.
//! assert_eq!(month.fullest, Some(Fill { used: 24, total: 32 }));
//! assert_eq!(month.emptiest, Some(Fill { used: 0, total: 4 }));
//! let high = month.heights().filter(|&(_, files)| files > 0).map(|(height, _)| height);
//! assert_eq!(high.collect::<Vec<_>>(), [4, 32, 64, 128]);
//! # Ok::<(), Refusal>(())
//! ```

use crate::ffi;
use crate::parameters::Parameters;
use crate::refusal::{Refusal, TOO_SHORT};

/// The most files of a month.
pub const MAX_FILES: usize = 4096;

/// The words of a month: files, operations, used rows, padding rows; used rows and all rows of the fullest round table, and of the emptiest;
/// the files at each of the [`NUM_HEIGHTS`] heights, lowest first; and 1 where there is a fullest and an emptiest, else 0.
pub const MONTH_WORDS: usize = 39;

/// The heights that a round table can have: 2^2 to 2^31.
pub const NUM_HEIGHTS: usize = 30;

/// Which word is which; [`HEIGHTS`](words::HEIGHTS) is the first of those that have the files at a height.
pub mod words {
    /// The files.
    pub const FILES: usize = 0;
    /// Their operations.
    pub const OPERATIONS: usize = 1;
    /// The rows of their round tables that hold a round.
    pub const USED_ROWS: usize = 2;
    /// The others.
    pub const PADDING_ROWS: usize = 3;
    /// The used rows of the fullest round table.
    pub const FULLEST_USED: usize = 4;
    /// All its rows.
    pub const FULLEST_TOTAL: usize = 5;
    /// The used rows of the emptiest.
    pub const EMPTIEST_USED: usize = 6;
    /// All its rows.
    pub const EMPTIEST_TOTAL: usize = 7;
    /// The files whose round table has 2^2 rows; behind it 2^3 and so on.
    pub const HEIGHTS: usize = 8;
    /// 1 where there is a fullest and an emptiest, else 0.
    pub const SHOWN: usize = 38;
}

/// Writes the [`MONTH_WORDS`] words of a month to the front of `out`: `counts` has the number of operations of each file. A file without
/// operations is one whose tables are shipped, with as many rows of padding as the floor. In any other order of the counts the words are the
/// same, but for which of the tables that are equally full is shown, which is the first. [`Month`] has the words by their names.
///
/// # Errors
///
/// [`Files`](Refusal::Files): more than [`MAX_FILES`] counts; [`PastEnd`](Refusal::PastEnd): a count is more than
/// [`MAX_OPS`](crate::MAX_OPS); [`TooShort`](Refusal::TooShort): `out` has fewer than 39 words.
pub fn month(counts: &[u64], out: &mut [u64]) -> Result<(), Refusal> {
    month_with(Parameters::default(), counts, out)
}

/// The same by these parameters: an operation has [`rounds`](Parameters::rounds) rows, and no table fewer than the
/// [`floor`](Parameters::floor). Whether tables are [`shipped`](Parameters::shipped) has no part in it.
///
/// # Errors
///
/// [`Rounds`](Refusal::Rounds): the rounds are not 1 to 24; [`Floor`](Refusal::Floor): the floor is no power of two from 4 to 65,536; then
/// those of [`month`](fn@month).
pub fn month_with(parameters: Parameters, counts: &[u64], out: &mut [u64]) -> Result<(), Refusal> {
    let Parameters { rounds, floor, .. } = parameters;
    ffi::month(rounds, floor, counts, out).named(|number, _| match number {
        TOO_SHORT => "out",
        _ => "counts",
    })
}

/// The rows of a round table.
#[derive(Debug, Clone, Copy, PartialEq, Eq, Hash)]
pub struct Fill {
    /// Those that hold a round of an operation.
    pub used: u64,
    /// All of them, padding included.
    pub total: u64,
}

/// A month by the names of its words.
#[derive(Debug, Clone, Copy, PartialEq, Eq, Hash)]
pub struct Month {
    /// The files.
    pub files: u64,
    /// Their operations.
    pub operations: u64,
    /// The rows of their round tables that hold a round.
    pub used_rows: u64,
    /// The others.
    pub padding_rows: u64,
    /// The fullest round table, the first of those that are; none where there is no file.
    pub fullest: Option<Fill>,
    /// The emptiest, likewise.
    pub emptiest: Option<Fill>,
    /// The files at each height, lowest first: [`heights`](Self::heights) has the heights too.
    pub files_at: [u64; NUM_HEIGHTS],
}

impl Month {
    /// The month of files with these operation counts.
    ///
    /// # Errors
    ///
    /// [`Files`](Refusal::Files): more than [`MAX_FILES`] counts; [`PastEnd`](Refusal::PastEnd): a count is more than
    /// [`MAX_OPS`](crate::MAX_OPS).
    pub fn new(counts: &[u64]) -> Result<Self, Refusal> {
        Self::with(Parameters::default(), counts)
    }

    /// The same by these parameters.
    ///
    /// # Errors
    ///
    /// [`Rounds`](Refusal::Rounds): the rounds are not 1 to 24; [`Floor`](Refusal::Floor): the floor is no power of two from 4 to 65,536;
    /// then those of [`new`](Self::new).
    pub fn with(parameters: Parameters, counts: &[u64]) -> Result<Self, Refusal> {
        let mut words = [0; MONTH_WORDS];
        month_with(parameters, counts, &mut words)?;
        Ok(Self::of(&words))
    }

    /// What the words say.
    fn of(words: &[u64; MONTH_WORDS]) -> Self {
        let fill = |used: usize, total: usize| {
            let (used, total) = (words[used], words[total]);
            (words[words::SHOWN] == 1).then_some(Fill { used, total })
        };
        Self {
            files: words[words::FILES],
            operations: words[words::OPERATIONS],
            used_rows: words[words::USED_ROWS],
            padding_rows: words[words::PADDING_ROWS],
            fullest: fill(words::FULLEST_USED, words::FULLEST_TOTAL),
            emptiest: fill(words::EMPTIEST_USED, words::EMPTIEST_TOTAL),
            files_at: std::array::from_fn(|height| words[words::HEIGHTS + height]),
        }
    }

    /// Each height that a round table can have, from 4 to 2^31, and how many files have it.
    pub fn heights(&self) -> impl Iterator<Item = (u64, u64)> {
        self.files_at
            .into_iter()
            .enumerate()
            .map(|(at, files)| (4 << at, files))
    }
}
