//! `job CORE ROUND COUNTS`: the verdicts on the segments of a job, a line each, and then that on the job. `--rounds NR` judges tables of NR
//! rounds, with `--binary` COUNTS is a file of words.

use std::ffi::OsString;
use std::path::Path;

use super::commit::open_together;
use super::files::zeros;
use super::judge::{rows, words};
use super::numbers::numbers;
use super::options::Options;
use super::progress::Waiting;
use super::{Failure, Outcome, Streams, files, help, refused};
use keccak_tables::job::{COUNT_WORDS, Report, VERDICT_WORDS};
use keccak_tables::verdict::scratch_words;
use keccak_tables::{Lent, Refusal, keccak, keccak_rnd};

pub fn job(arguments: &[OsString], streams: &mut Streams) -> Result<Outcome, Failure> {
    let (options, files) = Options::read("job", &["--rounds", "--binary"], arguments)?;
    let files: &[OsString; 3] = files.try_into().map_err(|_| help::wrong("job", files))?;
    let parameters = options.parameters()?;
    let paths = files.each_ref().map(Path::new);
    let [core, round, counts] = open_together(paths, streams.errors)?;
    let core = files::words(paths[0], core)?;
    let round = files::words(paths[1], round)?;
    let counts = match options.has("--binary") {
        true => files::words(paths[2], counts)?,
        false => numbers(paths[2], counts, COUNT_WORDS)?,
    };
    // The call takes as much, and gives it back.
    drop(zeros::<u64>(
        scratch_words(&core, &round) + 2 * counts.len() + VERDICT_WORDS,
    )?);
    let waiting = Waiting::new(&format!(
        "judging {} rows in {} segments, and then as one job",
        rows(&core, &round),
        counts.len() / COUNT_WORDS
    ));
    let answer = Report::with(parameters, &core, &round, &counts);
    drop(waiting);
    match answer {
        Ok(report) => print(&report, streams),
        Err(refusal) => refused(refusal, &said(refusal, &core, &round, &counts), streams),
    }
}

/// A line for each segment, and one for the job.
fn print(report: &Report, streams: &mut Streams) -> Result<Outcome, Failure> {
    for (segment, verdict) in report.segments().enumerate() {
        writeln!(streams.output, "segment {segment}: {verdict}")?;
    }
    writeln!(streams.output, "job: {}", report.job())?;
    Ok(Outcome::of(report.holds()))
}

/// What a refusal says of the counts, or of the two tables.
fn said(refusal: Refusal, core: &[u64], round: &[u64], counts: &[u64]) -> String {
    match refusal {
        Refusal::NotWhole { which: Lent::List, .. } => {
            let sum = |k| -> u128 { counts.iter().skip(k).step_by(COUNT_WORDS).map(|&n| u128::from(n)).sum() };
            if counts.len().is_multiple_of(COUNT_WORDS) {
                format!(
                    "COUNTS has {} core rows and {} round rows, and the tables have {} and {}",
                    sum(0),
                    sum(1),
                    core.len() / keccak::NUM_COLUMNS,
                    round.len() / keccak_rnd::NUM_COLUMNS
                )
            } else {
                format!("COUNTS has {} words, which are not pairs", counts.len())
            }
        }
        other => words(other, core, round),
    }
}
