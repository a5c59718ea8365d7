//! The verdict on a core table and a round table: whether both hold together, or the first failure.
//!
//! Each call has three forms, which answer the same:
//!
//! - by its own name it allocates a scratch while it judges, 32 bytes for each row of both tables: 2.2 MB for the tables of 2,730 calls;
//! - with `_within` behind the name the scratch is lent, of [`scratch_words`] words;
//! - with `_alone` behind the name it has no memory of its own.
//!
//! With a scratch the time was measured to grow as n log n with the rows, in every order of them that was tried, which whoever judges foreign
//! tables does not choose.
//! Alone it is as quick for rows in the writer's order, and slower in others, up to the square of the rows.

use std::fmt;

use crate::ffi::{self, FlatVerdict};
use crate::parameters::Parameters;
use crate::refusal::{NOT_WHOLE, Refusal, TOO_SHORT, is_large_at};
use crate::{keccak, keccak_rnd};

/// One of the two tables.
#[derive(Debug, Clone, Copy, PartialEq, Eq, Hash)]
pub enum Table {
    /// The core table.
    Core,
    /// The round table.
    Round,
}

/// What is said of two tables. Rows and indexes count from 0. Failures are looked for in this order: core values, core
/// lookups, timestamps, round values, round lookups, balance, there the core table first. Of the first kind that there is,
/// the lowest row is named, and in it the lowest index.
#[must_use = "a failure is a verdict too, and not an error"]
#[non_exhaustive]
#[derive(Debug, Clone, Copy, PartialEq, Eq, Hash)]
pub enum Verdict {
    /// Both tables hold.
    Holds {
        /// The active core rows.
        active: u64,
    },
    /// A constraint value is not 0.
    Value {
        /// In which table.
        table: Table,
        /// In which row.
        row: u64,
        /// Which value.
        index: u64,
    },
    /// A tuple is not found where it is looked up.
    Lookup {
        /// In which table.
        table: Table,
        /// In which row.
        row: u64,
        /// Which tuple.
        index: u64,
    },
    /// An earlier active core row has this active core row's timestamp.
    Repeated {
        /// Which row.
        row: u64,
    },
    /// A tuple of the Keccak bus is not sent as often as it is received.
    Unbalanced {
        /// In which table.
        table: Table,
        /// In which row.
        row: u64,
        /// Which tuple.
        index: u64,
    },
}

impl Verdict {
    /// Whether both tables hold.
    #[must_use]
    pub const fn holds(self) -> bool {
        matches!(self, Self::Holds { .. })
    }
}

/// Judges a core table of rows of [`keccak::NUM_COLUMNS`] words and a round table of rows of
/// [`keccak_rnd::NUM_COLUMNS`] words. Either may be empty.
///
/// ```
/// use keccak_tables::verdict::{Table, Verdict, verdict};
/// use keccak_tables::{Operation, Refusal, keccak, keccak_rnd};
///
/// assert_eq!(verdict(&[], &[])?, Verdict::Holds { active: 0 });
///
/// // The writers take any OUTPUT. This one is not Keccak-f[1600] of INPUT, so no round row sends it.
/// let list = Operation { timestamp: 5, address: 4096, input: [0; 25], output: [0; 25], segment: 0 }.words();
/// let (core, round) = (keccak::keccak_table(&list)?, keccak_rnd::keccak_rnd_table(&list)?);
/// let answer = verdict(&core, &round)?;
/// assert_eq!(answer, Verdict::Unbalanced { table: Table::Core, row: 0, index: 3 });
/// assert!(!answer.holds());
/// assert_eq!(answer.to_string(), "core row 0 balance 3");
/// # Ok::<(), Refusal>(())
/// ```
///
/// # Errors
///
/// [`NotWhole`](Refusal::NotWhole): `core`, then `round`, is not whole rows; [`NotElement`](Refusal::NotElement): a
/// word of `core`, or else of `round`, is p or more.
pub fn verdict(core: &[u64], round: &[u64]) -> Result<Verdict, Refusal> {
    verdict_with(Parameters::default(), core, round)
}

/// The same by these parameters: a core row hands its INPUT to the first of [`rounds`](Parameters::rounds) rounds.
///
/// ```
/// use keccak_tables::verdict::{Table, Verdict, verdict_with};
/// use keccak_tables::{Operation, Parameters, Refusal, keccak, keccak_rnd};
///
/// let twelve = Parameters::default().rounds(12);
/// let list = Operation { timestamp: 5, address: 4096, input: [0; 25], output: [0; 25], segment: 0 }.words();
/// let (core, round) = (keccak::keccak_table(&list)?, keccak_rnd::keccak_rnd_table_with(twelve, &list)?);
/// let unbalanced = |index| Ok(Verdict::Unbalanced { table: Table::Core, row: 0, index });
/// // OUTPUT is not right; by another number of rounds nobody takes INPUT either.
/// assert_eq!(verdict_with(twelve, &core, &round), unbalanced(3));
/// assert_eq!(verdict_with(twelve.rounds(13), &core, &round), unbalanced(2));
/// # Ok::<(), Refusal>(())
/// ```
///
/// # Errors
///
/// [`Rounds`](Refusal::Rounds): the rounds are not 1 to 24; then those of [`verdict`].
pub fn verdict_with(parameters: Parameters, core: &[u64], round: &[u64]) -> Result<Verdict, Refusal> {
    verdict_within_with(parameters, core, round, &mut own_scratch(core, round))
}

/// The words of a scratch for each row of both tables.
pub const SCRATCH_WORDS: usize = 4;

/// The words of the scratch that is needed to judge these two tables: [`SCRATCH_WORDS`] for each row of both.
#[must_use]
pub const fn scratch_words(core: &[u64], round: &[u64]) -> usize {
    SCRATCH_WORDS * (core.len() / keccak::NUM_COLUMNS + round.len() / keccak_rnd::NUM_COLUMNS)
}

/// The verdict of [`verdict`] in a lent scratch of [`scratch_words`] words or more. What it holds before does not matter; afterwards its
/// first `scratch_words` words are 0 and those behind as they were, and where the call is refused all are.
///
/// ```
/// use keccak_tables::verdict::{Verdict, scratch_words, verdict_within};
/// use keccak_tables::{Refusal, keccak, keccak_rnd};
///
/// let (core, round) = (keccak::keccak_table(&[])?, keccak_rnd::keccak_rnd_table(&[])?);
/// let needed = scratch_words(&core, &round);
/// assert_eq!(needed, 4 * (4 + 4));
/// let mut scratch = vec![7; needed + 1];
/// assert_eq!(verdict_within(&core, &round, &mut scratch)?, Verdict::Holds { active: 0 });
/// assert_eq!(scratch, [vec![0; needed], vec![7]].concat());
///
/// let refused = verdict_within(&core, &round, &mut scratch[..needed - 1]);
/// assert_eq!(refused, Err(Refusal::TooShort { argument: "scratch", needed: needed as u64 }));
/// # Ok::<(), Refusal>(())
/// ```
///
/// # Errors
///
/// [`NotWhole`](Refusal::NotWhole) as [`verdict`]; [`TooShort`](Refusal::TooShort): `scratch` has fewer than [`scratch_words`] words; then
/// [`NotElement`](Refusal::NotElement) as [`verdict`].
pub fn verdict_within(core: &[u64], round: &[u64], scratch: &mut [u64]) -> Result<Verdict, Refusal> {
    verdict_within_with(Parameters::default(), core, round, scratch)
}

/// The verdict of [`verdict_with`], likewise.
///
/// # Errors
///
/// [`Rounds`](Refusal::Rounds): the rounds are not 1 to 24; then those of [`verdict_within`].
pub fn verdict_within_with(
    parameters: Parameters,
    core: &[u64],
    round: &[u64],
    scratch: &mut [u64],
) -> Result<Verdict, Refusal> {
    let (first, second) = halves(core, round, scratch);
    let flat = ffi::verdict_within(parameters.rounds, core, round, first, second);
    from_flat(&flat, core).map_err(of_halves)
}

/// The verdict of [`verdict`] without memory of its own: as quick for rows in the writer's order, slower in others, up to the square of
/// the rows.
///
/// # Errors
///
/// Those of [`verdict`].
pub fn verdict_alone(core: &[u64], round: &[u64]) -> Result<Verdict, Refusal> {
    verdict_alone_with(Parameters::default(), core, round)
}

/// The verdict of [`verdict_with`], likewise.
///
/// # Errors
///
/// Those of [`verdict_with`].
pub fn verdict_alone_with(parameters: Parameters, core: &[u64], round: &[u64]) -> Result<Verdict, Refusal> {
    from_flat(&ffi::verdict(parameters.rounds, core, round), core)
}

/// The most bytes that a line of [`verdict_line`] has.
pub const LINE_MOST: usize = 4335;

/// Judges two tables as [`verdict`] does and writes the verdict into `line` as text: `holds N`; or `core` or `round`, `row R`, then
/// `value I`, `timestamp 0`, `lookup I` or `balance I`, for the last two the bus's name and the tuple's values in order. Answers the
/// line's length. Numbers are decimal, words have a single space between them, and no line end follows. Two lines are equal exactly
/// where the verdicts and the shown tuples are.
///
/// ```
/// use keccak_tables::verdict::{LINE_MOST, verdict_line};
/// use keccak_tables::Refusal;
///
/// let mut line = [0; LINE_MOST];
/// let length = verdict_line(&[], &[], &mut line)?;
/// assert_eq!(&line[..length], b"holds 0");
/// assert_eq!(verdict_line(&[], &[], &mut line[..6]), Err(Refusal::TooShort { argument: "line", needed: 7 }));
/// # Ok::<(), Refusal>(())
/// ```
///
/// # Errors
///
/// Those of [`verdict`]; then [`TooShort`](Refusal::TooShort): the line does not fit into `line`, which never happens where
/// [`LINE_MOST`] bytes are lent.
pub fn verdict_line(core: &[u64], round: &[u64], line: &mut [u8]) -> Result<usize, Refusal> {
    verdict_line_with(Parameters::default(), core, round, line)
}

/// The line of [`verdict_with`], likewise.
///
/// # Errors
///
/// [`Rounds`](Refusal::Rounds): the rounds are not 1 to 24; then those of [`verdict_line`].
pub fn verdict_line_with(
    parameters: Parameters,
    core: &[u64],
    round: &[u64],
    line: &mut [u8],
) -> Result<usize, Refusal> {
    let mut text = [0; LINE_MOST];
    let length = verdict_line_within_with(parameters, core, round, &mut text, &mut own_scratch(core, round))?;
    let short = Refusal::TooShort {
        argument: "line",
        needed: length as u64,
    };
    line.get_mut(..length).ok_or(short)?.copy_from_slice(&text[..length]);
    Ok(length)
}

/// The line of [`verdict_line`] in a lent scratch, which is used as [`verdict_within`] uses it. [`LINE_MOST`] bytes are lent at least, whatever
/// the line, so that nothing is refused once the tables are judged.
///
/// # Errors
///
/// [`NotWhole`](Refusal::NotWhole) as [`verdict`]; [`TooShort`](Refusal::TooShort): `line` has fewer than [`LINE_MOST`] bytes, or `scratch`
/// fewer than [`scratch_words`] words; then [`NotElement`](Refusal::NotElement) as [`verdict`].
pub fn verdict_line_within(
    core: &[u64],
    round: &[u64],
    line: &mut [u8],
    scratch: &mut [u64],
) -> Result<usize, Refusal> {
    verdict_line_within_with(Parameters::default(), core, round, line, scratch)
}

/// The line of [`verdict_line_with`], likewise.
///
/// # Errors
///
/// [`Rounds`](Refusal::Rounds): the rounds are not 1 to 24; then those of [`verdict_line_within`].
pub fn verdict_line_within_with(
    parameters: Parameters,
    core: &[u64],
    round: &[u64],
    line: &mut [u8],
    scratch: &mut [u64],
) -> Result<usize, Refusal> {
    let is_short = line.len() < LINE_MOST;
    let (first, second) = halves(core, round, scratch);
    let answer = ffi::verdict_line_within(parameters.rounds, core, round, line, first, second);
    let answer = answer.named(|number, detail| of_line(number, detail, core, is_short));
    answer.map(|length| length as usize).map_err(of_halves)
}

/// The line of [`verdict_line`] without memory of its own, as [`verdict_alone`] judges.
///
/// # Errors
///
/// Those of [`verdict_line`].
pub fn verdict_line_alone(core: &[u64], round: &[u64], line: &mut [u8]) -> Result<usize, Refusal> {
    verdict_line_alone_with(Parameters::default(), core, round, line)
}

/// The line of [`verdict_line_with`], likewise.
///
/// # Errors
///
/// Those of [`verdict_line_with`].
pub fn verdict_line_alone_with(
    parameters: Parameters,
    core: &[u64],
    round: &[u64],
    line: &mut [u8],
) -> Result<usize, Refusal> {
    ffi::verdict_line(parameters.rounds, core, round, line)
        .named(|number, detail| of_line(number, detail, core, true))
        .map(|length| length as usize)
}

/// The line of [`verdict_line`].
///
/// ```
/// use keccak_tables::verdict::verdict_text;
/// use keccak_tables::{Refusal, keccak};
///
/// let mut row = [0; keccak::NUM_COLUMNS];
/// row[keccak::cols::MU] = 1;
/// row[keccak::cols::ADDR + 2] = 256;
/// assert_eq!(verdict_text(&row, &[])?, "core row 0 value 0");
/// # Ok::<(), Refusal>(())
/// ```
///
/// # Errors
///
/// Those of [`verdict`].
pub fn verdict_text(core: &[u64], round: &[u64]) -> Result<String, Refusal> {
    verdict_text_with(Parameters::default(), core, round)
}

/// The line of [`verdict_line_with`].
///
/// # Errors
///
/// Those of [`verdict_with`].
pub fn verdict_text_with(parameters: Parameters, core: &[u64], round: &[u64]) -> Result<String, Refusal> {
    let mut line = vec![0; LINE_MOST];
    let length = verdict_line_with(parameters, core, round, &mut line)?;
    line.truncate(length);
    Ok(String::from_utf8(line).expect("a line has letters, digits and spaces"))
}

/// What was said of this core table and a round table.
fn from_flat(flat: &FlatVerdict, core: &[u64]) -> Result<Verdict, Refusal> {
    Refusal::from_flat(flat.refusal, flat.detail, |number, detail| {
        of_verdict(number, detail, core)
    })?;
    if flat.holds == 1 {
        return Ok(Verdict::Holds { active: flat.active });
    }
    Ok(failure(flat.kind, flat.table, flat.row, flat.index))
}

/// The verdict of four words in the report on a job.
pub(crate) fn from_words([kind, first, row, index]: [u64; 4]) -> Verdict {
    if kind == 0 {
        return Verdict::Holds { active: first };
    }
    failure(kind, first, row, index)
}

fn failure(kind: u64, table: u64, row: u64, index: u64) -> Verdict {
    let table = if table == 0 { Table::Core } else { Table::Round };
    match kind {
        1 | 4 => Verdict::Value { table, row, index },
        2 | 5 => Verdict::Lookup { table, row, index },
        3 => Verdict::Repeated { row },
        6 => Verdict::Unbalanced { table, row, index },
        _ => unreachable!("the definition of the verdicts has no failure of kind {kind}"),
    }
}

/// The argument of a refusal: of what is not whole the detail says which, and the core table's words are checked first.
pub(crate) fn of_verdict(number: u64, detail: u64, core: &[u64]) -> &'static str {
    let is_core = match number {
        TOO_SHORT => return SCRATCH,
        NOT_WHOLE => detail == 0,
        _ => is_large_at(detail, core),
    };
    if is_core { "core" } else { "round" }
}

/// The same of a line, which alone is too short where the scratch has room.
fn of_line(number: u64, detail: u64, core: &[u64], is_short: bool) -> &'static str {
    if number == TOO_SHORT && is_short {
        "line"
    } else {
        of_verdict(number, detail, core)
    }
}

/// The argument that is lent as two slices.
const SCRATCH: &str = "scratch";

/// A scratch for these tables.
pub(crate) fn own_scratch(core: &[u64], round: &[u64]) -> Vec<u64> {
    vec![0; scratch_words(core, round)]
}

/// A scratch as the two slices that the archive is lent: half of the words that are needed, and what is behind them.
pub(crate) fn halves<'a>(core: &[u64], round: &[u64], scratch: &'a mut [u64]) -> (&'a mut [u64], &'a mut [u64]) {
    let half = scratch_words(core, round) / 2;
    scratch.split_at_mut(half.min(scratch.len()))
}

/// A refusal of either slice is one of the scratch, which needs twice as many words.
pub(crate) fn of_halves(refusal: Refusal) -> Refusal {
    match refusal {
        Refusal::TooShort {
            argument: SCRATCH,
            needed,
        } => Refusal::TooShort {
            argument: SCRATCH,
            needed: 2 * needed,
        },
        other => other,
    }
}

/// One line: `holds N`; or `core` or `round`, `row R`, then `value I`, `lookup I`, `timestamp 0` or `balance I`: that of
/// [`verdict_text`] without its tuple.
impl fmt::Display for Verdict {
    fn fmt(&self, f: &mut fmt::Formatter<'_>) -> fmt::Result {
        match *self {
            Self::Holds { active } => write!(f, "holds {active}"),
            Self::Value { table, row, index } => write!(f, "{table} row {row} value {index}"),
            Self::Lookup { table, row, index } => write!(f, "{table} row {row} lookup {index}"),
            Self::Repeated { row } => write!(f, "core row {row} timestamp 0"),
            Self::Unbalanced { table, row, index } => write!(f, "{table} row {row} balance {index}"),
        }
    }
}

impl fmt::Display for Table {
    fn fmt(&self, f: &mut fmt::Formatter<'_>) -> fmt::Result {
        f.write_str(match self {
            Self::Core => "core",
            Self::Round => "round",
        })
    }
}

#[cfg(test)]
mod tests {
    use super::*;
    use crate::P;
    use crate::refusal::Lent;

    /// A struct of the words behind the refusal: holds, active, kind, table, row, index.
    fn told([holds, active, kind, table, row, index]: [u64; 6]) -> FlatVerdict {
        let (refusal, detail) = (0, 0);
        FlatVerdict {
            refusal,
            detail,
            holds,
            active,
            kind,
            table,
            row,
            index,
        }
    }

    #[test]
    fn each_kind_of_verdict_is_read_and_printed() {
        let (core, round) = (Table::Core, Table::Round);
        let value = |table, row, index| Verdict::Value { table, row, index };
        let lookup = |table, row, index| Verdict::Lookup { table, row, index };
        let unbalanced = |table, row, index| Verdict::Unbalanced { table, row, index };
        let cases = [
            ([1, 3, 7, 0, 0, 0], Verdict::Holds { active: 3 }, "holds 3"),
            ([0, 0, 1, 0, 1, 50], value(core, 1, 50), "core row 1 value 50"),
            ([0, 0, 2, 0, 1, 54], lookup(core, 1, 54), "core row 1 lookup 54"),
            (
                [0, 0, 3, 0, 4, 0],
                Verdict::Repeated { row: 4 },
                "core row 4 timestamp 0",
            ),
            ([0, 0, 4, 1, 9, 140], value(round, 9, 140), "round row 9 value 140"),
            ([0, 0, 5, 1, 9, 2], lookup(round, 9, 2), "round row 9 lookup 2"),
            ([0, 0, 6, 0, 0, 2], unbalanced(core, 0, 2), "core row 0 balance 2"),
            ([0, 0, 6, 1, 9, 1], unbalanced(round, 9, 1), "round row 9 balance 1"),
        ];
        for (words, verdict, line) in cases {
            assert_eq!(from_flat(&told(words), &[]), Ok(verdict));
            assert_eq!(verdict.to_string(), line);
            assert_eq!(verdict.holds(), words[0] == 1);
            // The report on a job has the kind, table, row and index of a failure, and 0 and the count of what holds.
            let [holds, active, kind, table, row, index] = words;
            let report = if holds == 1 {
                [0, active, 0, 0]
            } else {
                [kind, table, row, index]
            };
            assert_eq!(from_words(report), verdict);
        }
    }

    #[test]
    fn a_refusal_names_its_table() {
        let read = |refusal, detail| {
            from_flat(
                &FlatVerdict {
                    refusal,
                    detail,
                    ..told([0; 6])
                },
                &[0, P],
            )
        };
        for (place, argument) in [(0, "round"), (1, "core"), (2, "round"), (u64::MAX, "round")] {
            assert_eq!(read(5, place), Err(Refusal::NotElement { argument, place }));
        }
        for (detail, argument, which) in [(0, "core", Lent::Core), (1, "round", Lent::Round)] {
            assert_eq!(read(2, detail), Err(Refusal::NotWhole { argument, which }));
        }
    }
}
