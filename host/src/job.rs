//! A job: the verdicts on its segments, and then that on all of them together.
//!
//! A job is one core table and one round table, in which the rows of each segment stand behind those of the segment before it, and a list
//! of each segment's two row counts: its core rows and its round rows. If every segment holds and no timestamp is active in two of them,
//! the job holds, and its count is the sum. The job can hold while a segment fails: where a round row stands with the wrong segment.
//!
//! ```
//! use keccak_tables::job::Report;
//! use keccak_tables::verdict::{Table, Verdict};
//! use keccak_tables::{Operation, Parameters, Refusal, keccak, keccak_rnd};
//!
//! // Two segments of one call each, of a single round.
//! let one = Parameters::default().rounds(1);
//! let mut calls = [5, 6].map(|timestamp| Operation { timestamp, address: 4096, input: [0; 25], output: [0; 25], segment: 0 });
//! calls.iter_mut().for_each(|call| call.output[0] = 0x8000_0000_8000_8008);
//! let (mut core, mut round) = (vec![], vec![]);
//! for call in calls {
//!     core.extend(keccak::keccak_table(&call.words())?);
//!     round.extend(keccak_rnd::keccak_rnd_table_with(one, &call.words())?);
//! }
//!
//! let report = Report::with(one, &core, &round, &[4, 4, 4, 4])?;
//! assert!(report.segments().all(|verdict| verdict == Verdict::Holds { active: 1 }));
//! assert_eq!(report.job(), Verdict::Holds { active: 2 });
//!
//! // The second segment's round row filed with the first: both segments fail, and the job is the same.
//! let report = Report::with(one, &core, &round, &[4, 5, 4, 3])?;
//! let unbalanced = |table, row, index| Verdict::Unbalanced { table, row, index };
//! let segments = [unbalanced(Table::Round, 4, 0), unbalanced(Table::Core, 0, 2)];
//! assert_eq!(report.segments().collect::<Vec<_>>(), segments);
//! assert_eq!(report.job(), Verdict::Holds { active: 2 });
//! assert!(!report.holds());
//! # Ok::<(), Refusal>(())
//! ```

use crate::ffi;
use crate::parameters::Parameters;
use crate::refusal::{NOT_WHOLE, Refusal, TOO_SHORT};
use crate::verdict::{Verdict, from_words, halves, of_halves, of_verdict, own_scratch};

/// The words of a segment in the list of counts: its core rows, then its round rows.
pub const COUNT_WORDS: usize = 2;

/// The words of a verdict in a report: 0, the count of active core rows, 0 and 0; or the failure's place in the order of the verdict, 1 to
/// 6, its table, 0 core and 1 round, its row and its index.
pub const VERDICT_WORDS: usize = 4;

/// Judges each segment of a job, and then the job, into the lent words: [`VERDICT_WORDS`] for each segment in order, and as many for the
/// job. Rows and indexes are those of what was judged, so a segment's rows count from its own first. [`Report`] lends the words.
///
/// It allocates a scratch, as [`verdict`](crate::verdict::verdict) does; [`job_within`] is lent one, and [`job_alone`] has none.
///
/// # Errors
///
/// [`NotWhole`](Refusal::NotWhole): `core`, then `round`, is not whole rows; then `counts` are not pairs, or their sums, as whole numbers,
/// are not the rows of the two tables; [`TooShort`](Refusal::TooShort): `report` has fewer than 4 words for each segment and 4 more;
/// [`NotElement`](Refusal::NotElement): a word of `core`, or else of `round`, is p or more.
pub fn job(core: &[u64], round: &[u64], counts: &[u64], report: &mut [u64]) -> Result<(), Refusal> {
    job_with(Parameters::default(), core, round, counts, report)
}

/// The same by these parameters: every segment, and the job, is of [`rounds`](Parameters::rounds) rounds.
///
/// # Errors
///
/// [`Rounds`](Refusal::Rounds): the rounds are not 1 to 24; then those of [`job`].
pub fn job_with(
    parameters: Parameters,
    core: &[u64],
    round: &[u64],
    counts: &[u64],
    report: &mut [u64],
) -> Result<(), Refusal> {
    job_within_with(parameters, core, round, counts, report, &mut own_scratch(core, round))
}

/// The report of [`job`] in a lent scratch of [`scratch_words`](crate::verdict::scratch_words) words or more for the job's tables, which is
/// used as [`verdict_within`](crate::verdict::verdict_within) uses it.
///
/// # Errors
///
/// [`NotWhole`](Refusal::NotWhole) as [`job`]; [`TooShort`](Refusal::TooShort): `report` as there, then `scratch`; then
/// [`NotElement`](Refusal::NotElement) as [`job`].
pub fn job_within(
    core: &[u64],
    round: &[u64],
    counts: &[u64],
    report: &mut [u64],
    scratch: &mut [u64],
) -> Result<(), Refusal> {
    job_within_with(Parameters::default(), core, round, counts, report, scratch)
}

/// The report of [`job_with`], likewise.
///
/// # Errors
///
/// [`Rounds`](Refusal::Rounds): the rounds are not 1 to 24; then those of [`job_within`].
pub fn job_within_with(
    parameters: Parameters,
    core: &[u64],
    round: &[u64],
    counts: &[u64],
    report: &mut [u64],
    scratch: &mut [u64],
) -> Result<(), Refusal> {
    let has_room = report.len() >= report_words(counts);
    let (first, second) = halves(core, round, scratch);
    ffi::job_within(parameters.rounds, core, round, counts, report, first, second)
        .named(|number, detail| of_job(number, detail, core, has_room))
        .map_err(of_halves)
}

/// The report of [`job`] without memory of its own, as [`verdict_alone`](crate::verdict::verdict_alone) judges.
///
/// # Errors
///
/// Those of [`job`].
pub fn job_alone(core: &[u64], round: &[u64], counts: &[u64], report: &mut [u64]) -> Result<(), Refusal> {
    job_alone_with(Parameters::default(), core, round, counts, report)
}

/// The report of [`job_with`], likewise.
///
/// # Errors
///
/// Those of [`job_with`].
pub fn job_alone_with(
    parameters: Parameters,
    core: &[u64],
    round: &[u64],
    counts: &[u64],
    report: &mut [u64],
) -> Result<(), Refusal> {
    ffi::job(parameters.rounds, core, round, counts, report).named(|number, detail| of_job(number, detail, core, false))
}

/// The words of the report on a job with these counts.
fn report_words(counts: &[u64]) -> usize {
    (counts.len() / COUNT_WORDS + 1) * VERDICT_WORDS
}

/// The argument of a refusal: where the report has room, it is another slice that is too short.
fn of_job(number: u64, detail: u64, core: &[u64], has_room: bool) -> &'static str {
    match (number, detail) {
        (NOT_WHOLE, 2) => "counts",
        (TOO_SHORT, _) if !has_room => "report",
        _ => of_verdict(number, detail, core),
    }
}

/// A report, in memory of its own.
#[derive(Debug, Clone, PartialEq, Eq, Hash)]
pub struct Report {
    words: Vec<u64>,
}

impl Report {
    /// The report of [`job`].
    ///
    /// # Errors
    ///
    /// Those of [`job`], but that no slice is too short.
    pub fn new(core: &[u64], round: &[u64], counts: &[u64]) -> Result<Self, Refusal> {
        Self::with(Parameters::default(), core, round, counts)
    }

    /// The report of [`job_with`].
    ///
    /// # Errors
    ///
    /// Those of [`job_with`], but that no slice is too short.
    pub fn with(parameters: Parameters, core: &[u64], round: &[u64], counts: &[u64]) -> Result<Self, Refusal> {
        let mut words = vec![0; report_words(counts)];
        job_with(parameters, core, round, counts, &mut words)?;
        Ok(Self { words })
    }

    /// The verdicts on the segments, in order.
    pub fn segments(&self) -> impl ExactSizeIterator<Item = Verdict> + DoubleEndedIterator + Clone {
        let verdicts = self.words.as_chunks::<VERDICT_WORDS>().0;
        verdicts[..verdicts.len() - 1].iter().map(|&words| from_words(words))
    }

    /// The verdict on the job.
    pub fn job(&self) -> Verdict {
        let last = self.words.last_chunk().expect("a report ends with the job's words");
        from_words(*last)
    }

    /// Whether every segment holds, and the job.
    #[must_use]
    pub fn holds(&self) -> bool {
        self.segments().all(Verdict::holds) && self.job().holds()
    }

    /// The words of the report.
    #[must_use]
    pub fn words(&self) -> &[u64] {
        &self.words
    }
}
