//! `month [--rounds NR] [--floor F] [--svg FILE] [COUNTS]`: the month in whole numbers, from a text with a file's operation count on each line.

use std::ffi::OsString;
use std::fs::File;
use std::path::Path;

use super::commit::{WordFile, commit};
use super::files::Target;
use super::numbers::{numbers, numbers_of};
use super::options::Options;
use super::{Failure, Outcome, Streams, help, picture, refused};
use keccak_tables::month::Month;
use keccak_tables::{MAX_OPS, Parameters, Refusal};

/// The longest bar of what is drawn, in characters.
const LONGEST: u64 = 50;

pub fn month(arguments: &[OsString], streams: &mut Streams) -> Result<Outcome, Failure> {
    let (options, files) = Options::read("month", &["--rounds", "--floor", "--svg"], arguments)?;
    let svg = options.word("--svg").map(Path::new);
    match files {
        [] => {
            let parameters = options.parameters()?;
            let counts = numbers_of(streams.input, 1)?;
            let target = svg.map(|path| to_be_drawn(path, None)).transpose()?;
            tell(parameters, &counts, target.as_ref(), streams)
        }
        [path] => {
            let (path, parameters) = (Path::new(path), options.parameters()?);
            let file = File::open(path).map_err(Failure::file(path))?;
            let counts = numbers(path, file.try_clone(), 1)?;
            let target = svg.map(|path| to_be_drawn(path, Some(&file))).transpose()?;
            tell(parameters, &counts, target.as_ref(), streams)
        }
        _ => Err(help::wrong("month", files)),
    }
}

/// Prints the month, and draws it. The picture takes its name when all that is printed has left, so that status 0 says that both are there.
fn tell(
    parameters: Parameters,
    counts: &[u64],
    svg: Option<&Target>,
    streams: &mut Streams,
) -> Result<Outcome, Failure> {
    let month = match Month::with(parameters, counts) {
        Ok(month) => month,
        Err(refusal) => return refused(refusal, &said(refusal, counts), streams),
    };
    let drawn = svg.map(|target| drawn(target, &picture::svg(parameters, counts, &month)));
    let drawn = drawn.transpose()?;
    print(parameters, counts, &month, streams)?;
    match drawn {
        Some(file) => commit(vec![file], streams),
        None => Ok(Outcome::Fine),
    }
}

/// What a refusal says of the text.
fn said(refusal: Refusal, counts: &[u64]) -> String {
    let past = counts.iter().position(|&count| count > MAX_OPS as u64);
    match (refusal, past) {
        (Refusal::PastEnd { .. }, Some(at)) => {
            format!("COUNTS, line {}: a file has at most {MAX_OPS} operations", at + 1)
        }
        _ => refusal.to_string(),
    }
}

/// Where the picture goes: neither to the text nor to where this program prints.
fn to_be_drawn<'a>(path: &'a Path, counts: Option<&File>) -> Result<Target<'a>, Failure> {
    let target = Target::of(path)?;
    if counts.map_or(Ok(false), |counts| target.is_file(counts))? {
        return Err(Failure::Usage("FILE and COUNTS must be two files".into()));
    }
    if target.is_printed_to()? {
        let message = "FILE can't be standard output or standard error, where this program prints";
        return Err(Failure::Usage(message.into()));
    }
    Ok(target)
}

/// The picture beside its name.
fn drawn(target: &Target, picture: &str) -> Result<WordFile, Failure> {
    let mut file = WordFile::beside(target)?;
    file.put_bytes(picture.as_bytes())?;
    file.sync()?;
    Ok(file)
}

/// A line for each number; a terminal gets bars in place of the heights' lines.
fn print(parameters: Parameters, counts: &[u64], month: &Month, streams: &mut Streams) -> Result<(), Failure> {
    let output = &mut streams.output;
    writeln!(output, "files {}", month.files)?;
    writeln!(output, "operations {}", month.operations)?;
    writeln!(output, "used-rows {}", month.used_rows)?;
    writeln!(output, "padding-rows {}", month.padding_rows)?;
    for (name, fill) in [("fullest", month.fullest), ("emptiest", month.emptiest)] {
        if let Some(fill) = fill {
            let file = counts
                .iter()
                .position(|&count| picture::fill_of(parameters, count) == fill);
            let file = file.expect("it is a file's") + 1;
            writeln!(output, "{name} {} {} file {file}", fill.used, fill.total)?;
        }
    }
    if streams.terminal {
        return Ok(output.write_all(bars(month).as_bytes())?);
    }
    for (height, files) in month.heights() {
        writeln!(output, "height {height} {files}")?;
    }
    Ok(())
}

/// The files at each height, from the lowest that has one to the highest, as bars of plain characters.
fn bars(month: &Month) -> String {
    let heights: Vec<(u64, u64)> = month.heights().collect();
    let has_files = |&(_, files): &(u64, u64)| files > 0;
    let Some(first) = heights.iter().position(has_files) else {
        return String::new();
    };
    let last = heights.iter().rposition(has_files).expect("there is a first");
    let most = month.files_at.into_iter().max().expect("there are heights");
    let mut text = "\nround height   files\n".to_string();
    for &(height, files) in &heights[first..=last] {
        // The longest bar is the most files', and none is so short that it is not seen.
        let length = (files * LONGEST).div_ceil(most.max(LONGEST));
        let bar = "#".repeat(length as usize);
        text += format!("{height:>12} {files:>7} {bar}").trim_end();
        text += "\n";
    }
    text
}
