//! `tally [--shipped] [--floor F] [OPS]`: ten lines on an operation file, one more on segment numbers and one on the records that all these leave
//! out; or its first fault.

use std::ffi::OsString;
use std::fs::File;
use std::io::{self, Read};
use std::path::Path;

use super::commit::open_together;
use super::options::Options;
use super::progress::Progress;
use super::records::{Places, Reader};
use super::{Failure, Outcome, Streams, files, help};
use keccak_tables::Parameters;
use keccak_tables::operation_file::Sums;

pub fn tally(arguments: &[OsString], streams: &mut Streams) -> Result<Outcome, Failure> {
    let (options, files) = Options::read("tally", &["--shipped", "--floor"], arguments)?;
    let (sums, _) = match files {
        [] => {
            let (parameters, input) = (options.parameters()?, &mut *streams.input);
            read(input, 0)?.finish(parameters, Path::new("standard input"))?
        }
        [path] => {
            let (path, parameters) = (Path::new(path), options.parameters()?);
            sums_of_file(&mut open(path, streams)?, path, parameters)?
        }
        _ => return Err(help::wrong("tally", files)),
    };
    write!(streams.output, "{sums}")?;
    Ok(Outcome::Fine)
}

/// Opens a file of operations. A change of it that was cut short is ended first.
pub fn open(path: &Path, streams: &mut Streams) -> Result<File, Failure> {
    let [file] = open_together([path], streams.errors)?;
    file.map_err(Failure::file(path))
}

/// Prints some lines of names and numbers, as those of the sums.
pub fn print(lines: &[(&str, u64)], streams: &mut Streams) -> Result<Outcome, Failure> {
    lines
        .iter()
        .try_for_each(|(name, number)| writeln!(streams.output, "{name} {number}"))?;
    Ok(Outcome::Fine)
}

/// The sums of a file that is read to its end or its first fault, and where its records are.
pub fn sums_of_file(file: &mut File, path: &Path, parameters: Parameters) -> Result<(Sums, Places), Failure> {
    let bytes = file.metadata().map_err(Failure::file(path))?.len();
    let reader = read(file, bytes).map_err(Failure::file(path))?;
    reader.finish(parameters, path)
}

fn read(input: &mut dyn Read, bytes: u64) -> io::Result<Reader> {
    let mut progress = Progress::new("bytes read", bytes);
    let mut reader = Reader::default();
    let mut buffer = [0; files::PIECE_BYTES];
    while !reader.has_fault() {
        match files::fill(input, &mut buffer)? {
            0 => break,
            got => {
                reader.feed(&buffer[..got]);
                progress.add(got as u64);
            }
        }
    }
    Ok(reader)
}
