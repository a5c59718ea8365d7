//! `message MESSAGE ADDRESS TIMESTAMP OPS`: the operations that hash a file with SHA3-256, as an operation file; `is-message MESSAGE OPS`:
//! whether an operation file is a message's.
//!
//! The operation file is written beside its name and takes it when it is whole and the lines are printed, as a table does.

use std::ffi::OsString;
use std::fs::File;
use std::path::Path;

use super::commit::{WordFile, commit};
use super::files::{self, Target, zeros};
use super::options::number;
use super::{Failure, Outcome, Streams, help, list, tally};
use keccak_tables::message::{Digest, judge_message};
use keccak_tables::operation_file::{RECORD_BYTES, write_operations};
use keccak_tables::{OP_WORDS, Parameters, Refusal};

pub fn message(arguments: &[OsString], streams: &mut Streams) -> Result<Outcome, Failure> {
    let [message, address, timestamp, ops] = arguments else {
        return Err(help::wrong("message", arguments));
    };
    let [address, timestamp] = [("ADDRESS", address), ("TIMESTAMP", timestamp)].map(|(name, word)| {
        let wrong = || {
            format!(
                "message: {name} is `{}`, which is no decimal below 2^64",
                word.display()
            )
        };
        word.to_str().and_then(number).ok_or_else(|| Failure::Usage(wrong()))
    });
    let (address, timestamp) = (address?, timestamp?);
    let (path, ops) = (Path::new(message), Path::new(ops));
    let target = Target::of(ops)?;
    let file = File::open(path).map_err(Failure::file(path))?;
    if target.is_file(&file)? {
        return Err(Failure::Usage("MESSAGE and OPS must be two files".into()));
    }
    if target.is_printed_to()? {
        let message = "OPS can't be standard output or standard error, where this program prints";
        return Err(Failure::Usage(message.into()));
    }
    let digest = Digest::new(&files::bytes(path, Ok(file))?, address, timestamp).map_err(Failure::Refused)?;
    let file = written(&target, digest.list())?;
    writeln!(
        streams.output,
        "ops {}\nsha3-256 {digest}",
        digest.list().len() / OP_WORDS
    )?;
    commit(vec![file], streams)
}

pub fn is_message(arguments: &[OsString], streams: &mut Streams) -> Result<Outcome, Failure> {
    let [message, ops] = arguments else {
        return Err(help::wrong("is-message", arguments));
    };
    let (name, path) = (Path::new(message), Path::new(ops));
    let message = files::bytes(name, File::open(name))?;
    let operations = list::read(&mut tally::open(path, streams)?, path, Parameters::default())?;
    match judge_message(&message, &operations.list) {
        Ok(yes) => {
            writeln!(streams.output, "{}", if yes { "yes" } else { "no" })?;
            Ok(Outcome::of(yes))
        }
        Err(refusal @ Refusal::Unaligned { .. }) => Err(Failure::Told(refusal, operations.words(refusal, path))),
        Err(refusal) => Err(Failure::Refused(refusal)),
    }
}

/// The records of a list, beside their file's name and on the disk.
fn written(target: &Target, list: &[u64]) -> Result<WordFile, Failure> {
    let mut records = zeros(list.len() / OP_WORDS * RECORD_BYTES)?;
    write_operations(list, &mut records).map_err(Failure::Refused)?;
    let mut file = WordFile::beside(target)?;
    file.put_bytes(&records)?;
    file.sync()?;
    Ok(file)
}
