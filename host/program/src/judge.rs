//! `judge CORE ROUND`: the verdict on two tables, as one line; `judge --all CORE ROUND`: every failure. `--rounds NR` judges tables of NR rounds.

use std::ffi::OsString;
use std::io::{BufWriter, Write};
use std::path::Path;

use super::commit::open_together;
use super::failures::failures;
use super::files::zeros;
use super::options::Options;
use super::progress::{Progress, Waiting};
use super::{Failure, Outcome, Streams, files, help, refused};
use keccak_tables::verdict::{LINE_MOST, Table, scratch_words, verdict_line_within_with};
use keccak_tables::{Lent, Parameters, Refusal, keccak, keccak_rnd, layout};

pub fn judge(arguments: &[OsString], streams: &mut Streams) -> Result<Outcome, Failure> {
    let (options, most, files) = options(arguments)?;
    let parameters = options.parameters()?;
    let paths = files.each_ref().map(Path::new);
    let [core, round] = open_together(paths, streams.errors)?;
    let core = files::words(paths[0], core)?;
    let round = files::words(paths[1], round)?;
    let (mut scratch, mut line) = (zeros(scratch_words(&core, &round))?, [0; LINE_MOST]);
    let waiting = Waiting::new(&format!("judging {} rows", rows(&core, &round)));
    let answer = verdict_line_within_with(parameters, &core, &round, &mut line, &mut scratch);
    drop((waiting, scratch));
    let line = match answer {
        Ok(length) => String::from_utf8_lossy(&line[..length]),
        Err(refusal) => return refused(refusal, &words(refusal, &core, &round), streams),
    };
    let holds = line.starts_with("holds ");
    match most.filter(|_| !holds) {
        Some(most) => list(parameters, &core, &round, most, streams)?,
        None => writeln!(streams.output, "{line}")?,
    }
    Ok(Outcome::of(holds))
}

/// The options, how many failures are wanted, where more than the verdict is, and the two files.
fn options(arguments: &[OsString]) -> Result<(Options<'_>, Option<usize>, &[OsString; 2]), Failure> {
    let (options, files) = Options::read("judge", &["--rounds", "--all", "--most"], arguments)?;
    let most = match (options.has("--all"), options.number("--most")) {
        (false, None) => None,
        (true, None) => Some(usize::MAX),
        (true, Some(most @ 1..)) => Some(most as usize),
        (true, Some(0)) => {
            return Err(Failure::Usage(
                "judge: behind --most stands 0, and 1 is the least".into(),
            ));
        }
        (false, Some(_)) => return Err(Failure::Usage("judge: --most is taken with --all alone".into())),
    };
    let files = files.try_into().map_err(|_| help::wrong("judge", files))?;
    Ok((options, most, files))
}

/// The rows of both tables.
pub fn rows(core: &[u64], round: &[u64]) -> usize {
    core.len() / keccak::NUM_COLUMNS + round.len() / keccak_rnd::NUM_COLUMNS
}

/// Prints every failure, or the first of them, and says how many more there are.
fn list(
    parameters: Parameters,
    core: &[u64],
    round: &[u64],
    most: usize,
    streams: &mut Streams,
) -> Result<(), Failure> {
    let mut progress = Progress::new("rows, values and then lookups", 2 * rows(core, round) as u64);
    let found = failures(parameters, core, round, &mut |more| progress.add(more)).expect("the verdict refused nothing");
    drop(progress);
    let shown = most.min(found.len());
    // Of lines by the million each would be written alone.
    let mut output = BufWriter::with_capacity(files::PIECE_BYTES, &mut *streams.output);
    found[..shown]
        .iter()
        .try_for_each(|failure| writeln!(output, "{failure}"))?;
    output.flush()?;
    drop(output);
    if shown < found.len() {
        let _ = writeln!(streams.errors, "{} more are not shown", found.len() - shown);
    }
    Ok(())
}

/// What a refusal says of the two tables: which of them, and where in it.
pub fn words(refusal: Refusal, core: &[u64], round: &[u64]) -> String {
    let (core, round) = (("CORE", Table::Core, core), ("ROUND", Table::Round, round));
    match refusal {
        Refusal::NotWhole { which, .. } => {
            let (name, table, words) = if which == Lent::Core { core } else { round };
            format!(
                "{name} has {} words, which are not whole rows of {}",
                words.len(),
                width(table)
            )
        }
        Refusal::NotElement { argument, place } => {
            let at = place as usize;
            let (name, table, words) = if argument == "core" { core } else { round };
            let (row, column) = (at / width(table), at % width(table));
            let place = layout::column(table, column)
                .map(|place| place.to_string())
                .unwrap_or_default();
            format!(
                "{name}, row {row}, column {column} ({place}): {} is not below p",
                words[at]
            )
        }
        other => other.to_string(),
    }
}

fn width(table: Table) -> usize {
    match table {
        Table::Core => keccak::NUM_COLUMNS,
        Table::Round => keccak_rnd::NUM_COLUMNS,
    }
}
