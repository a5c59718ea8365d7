//! Jobs: the report on segments and on all of them, against a second reading of the paper, which adds the counts up as `u128`, cuts each
//! segment out and judges it and the whole by the independent judge.

mod drawn;
mod named;
pub mod refusals;

pub use drawn::Job;

use keccak_tables::job::{
    COUNT_WORDS, Report, VERDICT_WORDS, job, job_alone, job_alone_with, job_with, job_within, job_within_with,
};
use keccak_tables::{P, Parameters, Refusal};
use oracle::{CORE_COLUMNS, ROUND_COLUMNS};

use crate::by_rounds::{self, ALL};
use crate::comparison::Comparison;
use crate::inputs::Words;
use crate::lent::Lent;
use crate::scratch::Scratch;
use crate::{cases, judge, verdicts};

/// The whole area: the named jobs; `n` / 10 drawn jobs of 0 to 12 segments, each as it was written, with rows moved between segments or in
/// their tables, with timestamps shared, and with counts that do not add up; and refusals.
pub fn compare(comparison: &mut Comparison, seed: u64, n: usize) {
    let mut words = Words::new(seed);
    comparison.group("named jobs, against thought, and those of verdict_cases");
    for (name, make) in named::NAMED {
        let (job, expected) = make(&mut words);
        let input = || format!("the job '{name}' of seed {seed}");
        let theirs = reported(comparison, &mut words, &input, &job);
        comparison.equal(|_| input(), &theirs.unwrap_or_default(), &expected.concat());
    }
    for (name, job) in cases::jobs() {
        reported(
            comparison,
            &mut words,
            &|| format!("the job '{name}' of verdict_cases"),
            &job,
        );
    }
    comparison
        .group("drawn jobs of 0 to 12 segments, as written, and with rows moved, timestamps shared and words changed");
    for drawn in 0..n.div_ceil(10) {
        let written = Job::drawn(&mut words, drawn % 13);
        let input = || format!("job {drawn} of seed {seed}, as written: {}", written.what());
        reported(comparison, &mut words, &input, &written);
        for change in drawn::CHANGES {
            let mut changed = written.clone();
            let changes = change(&mut changed, &mut words);
            let input = || format!("job {drawn} of seed {seed}:{changes} {}", changed.what());
            reported(comparison, &mut words, &input, &changed);
        }
    }
    refusals::compare(comparison, &mut words);
}

/// The report by the paper's words, or the refusal's number and detail: 8; 2 on core, round and counts; 3; 5 on core and round.
pub fn report(job: &Job, room: usize) -> Result<Vec<u64>, (u64, u64)> {
    let Job {
        nr,
        core,
        round,
        counts,
    } = job;
    if let Some(refusal) = by_rounds::refusal(*nr) {
        return Err(refusal);
    }
    let rows = [core.len() / CORE_COLUMNS, round.len() / ROUND_COLUMNS];
    if core.len() != rows[0] * CORE_COLUMNS {
        return Err((2, 0));
    }
    if round.len() != rows[1] * ROUND_COLUMNS {
        return Err((2, 1));
    }
    let sums = [0, 1].map(|k| -> u128 { counts.iter().skip(k).step_by(2).map(|&count| u128::from(count)).sum() });
    if counts.len() % 2 == 1 || sums != rows.map(|rows| rows as u128) {
        return Err((2, 2));
    }
    let needed = 4 * (counts.len() / 2 + 1);
    if room < needed {
        return Err((3, needed as u64));
    }
    let large = |table: &Vec<u64>| table.iter().position(|&word| word >= P);
    if let Some(place) = large(core).or_else(|| large(round)) {
        return Err((5, place as u64));
    }
    let (mut words, mut core_left, mut round_left) = (Vec::new(), &core[..], &round[..]);
    for pair in counts.chunks_exact(2) {
        let (segment_core, rest) = core_left.split_at(pair[0] as usize * CORE_COLUMNS);
        core_left = rest;
        let (segment_round, rest) = round_left.split_at(pair[1] as usize * ROUND_COLUMNS);
        round_left = rest;
        words.extend(judge::verdict_by(*nr, segment_core, segment_round).words());
    }
    words.extend(judge::verdict_by(*nr, core, round).words());
    Ok(words)
}

/// Our report on a job, with guards about every slice, against the paper's; answers the paper's, where nothing is refused.
fn reported(
    comparison: &mut Comparison,
    words: &mut Words,
    input: &dyn Fn() -> String,
    given: &Job,
) -> Option<Vec<u64>> {
    let room = (given.counts.len() / COUNT_WORDS + 1) * VERDICT_WORDS + words.below(6) as usize;
    let expected = one_call(comparison, words, input, given, room);
    let parameters = Parameters::default().rounds(given.nr);
    let ours = Report::with(parameters, &given.core, &given.round, &given.counts);
    comparison.answered(
        "job_within",
        input,
        ours.as_ref().map_err(|&refusal| refusal),
        expected.as_ref().err().copied(),
    );
    let expected = expected.ok()?;
    if let Ok(ours) = ours {
        comparison.equal(|_| input(), ours.words(), &expected);
        let verdicts: Vec<u64> = ours
            .segments()
            .chain([ours.job()])
            .flat_map(|verdict| verdicts::words(Ok(verdict)))
            .collect();
        comparison.equal(|_| format!("the verdicts of {}", input()), &verdicts, &expected);
        let holds = expected.chunks_exact(4).all(|verdict| verdict[0] == 0);
        comparison.equal(
            |_| format!("whether all hold, {}", input()),
            &[ours.holds().into()],
            &[holds.into()],
        );
    }
    Some(expected)
}

/// Every call with so many words for the report: with memory of its own, without, and in every scratch.
fn one_call(
    comparison: &mut Comparison,
    words: &mut Words,
    input: &dyn Fn() -> String,
    given: &Job,
    room: usize,
) -> Result<Vec<u64>, (u64, u64)> {
    let expected = report(given, room);
    called(
        comparison,
        words,
        "job_within",
        input,
        (given, room),
        expected.as_deref(),
        own,
    );
    called(
        comparison,
        words,
        "job",
        input,
        (given, room),
        expected.as_deref(),
        alone,
    );
    for mut scratch in Scratch::each(&given.core, &given.round, words) {
        let refusal = scratch.refusal(expected.as_ref().err().copied());
        let expected = refusal.as_ref().map_or(expected.as_deref(), Err);
        let within = |nr, slices: [&[u64]; 3], out: &mut [u64]| within(nr, slices, out, scratch.slice());
        called(comparison, words, "job_within", input, (given, room), expected, within);
        scratch.left(comparison, input, refusal.is_none());
    }
    expected
}

/// One call, with guards about every slice.
fn called(
    comparison: &mut Comparison,
    words: &mut Words,
    name: &'static str,
    input: &dyn Fn() -> String,
    (given, room): (&Job, usize),
    expected: Result<&[u64], &(u64, u64)>,
    call: impl FnOnce(u64, [&[u64]; 3], &mut [u64]) -> Result<(), Refusal>,
) {
    let mut read = [&given.core, &given.round, &given.counts].map(|slice| Lent::new(slice, words));
    let mut lent = Lent::drawn(room, words);
    let answer = call(given.nr, read.each_mut().map(|slice| &*slice.slice()), lent.slice());
    comparison.answered(name, input, answer, expected.err().copied());
    lent.holds(comparison, |_| input(), expected.unwrap_or(&[]));
    for slice in read {
        slice.kept(comparison, |_| format!("what is only read, {}", input()));
    }
}

/// The call with memory of its own; where the rounds are all 24, that which takes no parameters.
fn own(nr: u64, [core, round, counts]: [&[u64]; 3], out: &mut [u64]) -> Result<(), Refusal> {
    match nr {
        ALL => job(core, round, counts, out),
        nr => job_with(Parameters::default().rounds(nr), core, round, counts, out),
    }
}

/// That without memory of its own, likewise.
fn alone(nr: u64, [core, round, counts]: [&[u64]; 3], out: &mut [u64]) -> Result<(), Refusal> {
    match nr {
        ALL => job_alone(core, round, counts, out),
        nr => job_alone_with(Parameters::default().rounds(nr), core, round, counts, out),
    }
}

/// That in a scratch, likewise.
fn within(nr: u64, [core, round, counts]: [&[u64]; 3], out: &mut [u64], scratch: &mut [u64]) -> Result<(), Refusal> {
    match nr {
        ALL => job_within(core, round, counts, out, scratch),
        nr => job_within_with(Parameters::default().rounds(nr), core, round, counts, out, scratch),
    }
}

#[cfg(test)]
mod tests {
    use super::*;

    /// Each named job has the report that is written beside it.
    #[test]
    fn the_reports_are_as_thought() {
        for seed in 1..4 {
            let mut words = Words::new(seed);
            for (name, make) in named::NAMED {
                let (job, expected) = make(&mut words);
                let room = 4 * expected.len();
                assert_eq!(report(&job, room), Ok(expected.concat()), "{name} with seed {seed}");
                assert_eq!(report(&job, room - 1), Err((3, room as u64)), "{name} with seed {seed}");
            }
        }
    }

    #[test]
    fn sums_do_not_wrap() {
        let mut job = named::two(&mut Words::new(1));
        job.counts = vec![1 << 63, 32, 1 << 63, 32, 8, 0];
        assert_eq!(report(&job, 16), Err((2, 2)));
        job.counts = vec![8, u64::MAX, 0, 65];
        assert_eq!(report(&job, 12), Err((2, 2)));
        job.counts = vec![8, 63, 0, 1];
        assert!(report(&job, 12).is_ok());
    }
}
