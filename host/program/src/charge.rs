//! `look OPS COUNTERS`: what a charge of a segment's lookups would do to a file of counters; `charge OPS COUNTERS`: the same, done. With
//! `--register R --ledgers LEDGERS` the charge is one of a register, whose sums are added to its ledger in that file.
//!
//! The charge is the look, whose copy takes the place of the file: it is written beside the file and takes its name when it is whole and
//! what is printed has left; with it the ledgers, and the record of what was charged (`charged.rs`). So the exit status is 0 exactly where the
//! file was charged, and a charge that is tried again is never made twice. The files are locked meanwhile, so that two charges at once are
//! made one after the other.

use std::ffi::OsString;
use std::fs::File;
use std::io;
use std::path::Path;

use super::charged::{Charge, Record};
use super::commit::{WordFile, commit, open_together, settle};
use super::files::{self, Target};
use super::ledgers::{Ledgers, Locked};
use super::list::{self, Operations};
use super::options::Options;
use super::progress::{Progress, Waiting};
use super::{Failure, Outcome, Streams, help, tally};
use keccak_tables::bitwise::{BitwiseOperationType, NUM_COUNTERS, NUM_LOOKUP_TYPES};
use keccak_tables::registers::REGISTER_LOOK_WORDS;
use keccak_tables::segment::LOOK_WORDS;
use keccak_tables::{OP_WORDS, Parameters, Refusal, registers, segment};

/// How many words are written before progress is told.
const PIECE_WORDS: usize = 1 << 20;

pub fn look(arguments: &[OsString], streams: &mut Streams) -> Result<Outcome, Failure> {
    let wanted = Wanted::of("look", arguments)?;
    let (parameters, path) = (wanted.parameters, wanted.ops);
    let (counters, ledgers) = match wanted.through {
        Some((register, path)) => {
            let [counters, ledgers] = open_together([wanted.counters, path], streams.errors)?;
            let ledgers = Ledgers::read(parameters, register, files::words(path, ledgers)?)?;
            (counters, Some(ledgers))
        }
        None => {
            let [counters] = open_together([wanted.counters], streams.errors)?;
            (counters, None)
        }
    };
    let operations = list::read(&mut tally::open(path, streams)?, path, parameters)?;
    let words = files::words(wanted.counters, counters)?;
    match Seen::of(parameters, ledgers.as_ref(), &operations.list, &words)? {
        Ok(seen) => print(&seen, true, streams),
        Err(refusal) => Err(said(refusal, &operations, path, &words, ledgers.as_ref())),
    }
}

pub fn charge(arguments: &[OsString], streams: &mut Streams) -> Result<Outcome, Failure> {
    let wanted = Wanted::of("charge", arguments)?;
    let (parameters, path) = (wanted.parameters, wanted.ops);
    let locked = match wanted.through {
        Some((register, path)) => Some(Locked::read(parameters, register, path, streams)?),
        None => None,
    };
    let mut file = tally::open(path, streams)?;
    let mut others = vec![("OPS", &file)];
    if let Some(locked) = &locked {
        files::are_two(("OPS", &file), ("LEDGERS", &locked.file))?;
        others.push(("LEDGERS", &locked.file));
    }
    let others = others.into_iter().map(|(name, file)| Ok((name, file.try_clone()?)));
    let others = others.collect::<io::Result<Vec<_>>>()?;
    let operations = list::read(&mut file, path, parameters)?;
    let (lock, target) = to_be_changed("COUNTERS", wanted.counters, &others, streams)?;
    let words = files::words(wanted.counters, lock.try_clone())?;
    let ledgers = locked.as_ref().map(|locked| &locked.ledgers);
    match Seen::of(parameters, ledgers, &operations.list, &words)? {
        Ok(seen) => wanted.charged(&seen, &operations.list, &words, &target, locked.as_ref(), streams),
        Err(refusal) => Err(said(refusal, &operations, path, &words, ledgers)),
    }
}

/// What is wanted, through which register if any, and the files.
struct Wanted<'a> {
    parameters: Parameters,
    through: Option<(u64, &'a Path)>,
    /// Whether what was charged before is to be charged once more.
    again: bool,
    ops: &'a Path,
    counters: &'a Path,
}

impl<'a> Wanted<'a> {
    fn of(name: &str, arguments: &'a [OsString]) -> Result<Self, Failure> {
        let takes = ["--rounds", "--floor", "--shipped", "--register", "--ledgers", "--again"];
        let takes = if name == "charge" { &takes[..] } else { &takes[..5] };
        let (options, files) = Options::read(name, takes, arguments)?;
        let through = match (options.number("--register"), options.word("--ledgers")) {
            (Some(register), Some(ledgers)) => Some((register, Path::new(ledgers))),
            (None, None) => None,
            _ => {
                let words = format!("{name}: --register and --ledgers are taken together");
                return Err(Failure::Usage(words));
            }
        };
        let [ops, counters] = files else {
            return Err(help::wrong(name, files));
        };
        Ok(Self {
            parameters: options.parameters()?,
            through,
            again: options.has("--again"),
            ops: Path::new(ops),
            counters: Path::new(counters),
        })
    }

    /// Charges what was seen: writes the files beside their names, prints, and gives them their names.
    fn charged(
        &self,
        seen: &Seen,
        ops: &[u64],
        words: &[u64],
        target: &Target,
        locked: Option<&Locked>,
        streams: &mut Streams,
    ) -> Result<Outcome, Failure> {
        let register = self.through.map(|(register, _)| register);
        let charge = Charge {
            parameters: self.parameters,
            register,
            ops,
        };
        let record = Record::read(target.full().unwrap_or(self.counters), &words[..NUM_COUNTERS])?;
        let digest = charge.digest();
        if let Some(line) = record.line_of(&digest).filter(|_| !self.again) {
            return repeated(&digest, &record, line, streams);
        }
        let mut files = vec![written(target, &seen.counters, &words[NUM_COUNTERS..])?];
        if let (Some(locked), Some(ledger)) = (locked, seen.ledger()) {
            files.push(locked.written(ledger)?);
        }
        files.push(record.written(&charge, &digest)?);
        print(seen, false, streams)?;
        writeln!(streams.output, "digest {digest}")?;
        commit(files, streams)
    }
}

/// That a charge was made before: its line on standard output, what that means on standard error.
fn repeated(digest: &str, record: &Record, line: usize, streams: &mut Streams) -> Result<Outcome, Failure> {
    writeln!(streams.output, "charged {digest}")?;
    let path = record.path().display();
    let _ = writeln!(
        streams.errors,
        "this was charged before, as {path}, line {line} says, and nothing is changed; --again charges it once more"
    );
    Ok(Outcome::DoesNotHold)
}

/// What a charge would do, through a register or none: the charged counters, for each kind its sum and its largest counter, the ledger.
struct Seen {
    counters: Vec<u64>,
    words: [u64; REGISTER_LOOK_WORDS],
    has_ledger: bool,
}

impl Seen {
    /// The one call, with a line for whoever waits.
    fn of(
        parameters: Parameters,
        ledgers: Option<&Ledgers>,
        ops: &[u64],
        counters: &[u64],
    ) -> Result<Result<Self, Refusal>, Failure> {
        let (mut copy, mut words) = (files::zeros(NUM_COUNTERS)?, [0; REGISTER_LOOK_WORDS]);
        let _waiting = Waiting::new(&format!("charging {} operations", ops.len() / OP_WORDS));
        let answer = match ledgers {
            None => segment::look_with(parameters, ops, counters, &mut copy, &mut words),
            Some(Ledgers { register, words: kept }) => {
                registers::look_with(parameters, *register, ops, counters, kept, &mut copy, &mut words)
            }
        };
        Ok(answer.map(|()| Self {
            counters: copy,
            words,
            has_ledger: ledgers.is_some(),
        }))
    }

    fn ledger(&self) -> Option<&[u64]> {
        self.has_ledger.then(|| &self.words[LOOK_WORDS..])
    }
}

/// A line for each kind; of a look also one for each word of the ledger.
fn print(seen: &Seen, as_look: bool, streams: &mut Streams) -> Result<Outcome, Failure> {
    for (kind, [sum, largest]) in BitwiseOperationType::ALL.iter().zip(seen.words.as_chunks().0) {
        match as_look {
            true => writeln!(streams.output, "{} {sum} {largest}", kind.name())?,
            false => writeln!(streams.output, "{} {sum}", kind.name())?,
        }
    }
    let ledger = seen.ledger().filter(|_| as_look);
    for (kind, sum) in BitwiseOperationType::ALL.iter().zip(ledger.into_iter().flatten()) {
        writeln!(streams.output, "ledger {} {sum}", kind.name())?;
    }
    Ok(Outcome::Fine)
}

/// A refusal with what it says of the counters, of the ledgers, or of the operations.
fn said(
    refusal: Refusal,
    operations: &Operations,
    path: &Path,
    counters: &[u64],
    ledgers: Option<&Ledgers>,
) -> Failure {
    let words = match (refusal, ledgers) {
        (Refusal::TooShort { needed, .. }, _) => {
            format!("COUNTERS has {} words, and {needed} are needed", counters.len())
        }
        (
            Refusal::NotElement {
                argument: "ledgers",
                place,
            },
            Some(ledgers),
        ) => {
            let (word, place, kind) = large(place, &ledgers.words);
            let register = ledgers.register;
            format!("LEDGERS, word {place} (register {register}, {kind}): {word} is not below p")
        }
        (Refusal::NotElement { place, .. }, _) => {
            let (word, at, kind) = large(place, counters);
            let row = at / NUM_LOOKUP_TYPES;
            format!("COUNTERS, word {at} (row {row}, {kind}): {word} is not below p")
        }
        (other, _) => operations.words(other, path),
    };
    Failure::Told(refusal, words)
}

/// A word that is none, its place and its kind.
fn large(place: u64, words: &[u64]) -> (u64, usize, &'static str) {
    let at = place as usize;
    (words[at], at, BitwiseOperationType::ALL[at % NUM_LOOKUP_TYPES].name())
}

/// A file that is to be changed, locked until the first of these is dropped. It must be none of the others. A change of it that was cut short is
/// ended first.
pub fn to_be_changed<'a>(
    name: &str,
    path: &'a Path,
    others: &[(&str, File)],
    streams: &mut Streams,
) -> Result<(File, Target<'a>), Failure> {
    loop {
        let file = File::options().read(true).write(true).open(path);
        let file = file.map_err(Failure::file(path))?;
        for (other, with) in others {
            files::are_two((other, with), (name, &file))?;
        }
        match file.lock() {
            Err(error) if error.kind() != io::ErrorKind::Unsupported => return Err(Failure::file(path)(error)),
            _ => {}
        }
        let target = Target::of(path)?;
        let Some(full) = target.full().filter(|_| target.is_a_file()) else {
            let error = io::Error::other("it is no file, so it can't be changed all at once");
            return Err(Failure::file(path)(error));
        };
        if target.is_printed_to()? {
            let message = format!("{name} can't be standard output or standard error, where this program prints");
            return Err(Failure::Usage(message));
        }
        settle(&[full.to_path_buf()], streams.errors).map_err(Failure::file(path))?;
        // Another file has the name where a charge was made while this one waited.
        if Target::of(path)?.is_file(&file)? {
            return Ok((file, target));
        }
    }
}

/// The charged counters and the words past them, beside the file and on the disk.
fn written(target: &Target, counters: &[u64], past: &[u64]) -> Result<WordFile, Failure> {
    let mut file = WordFile::beside(target)?;
    let mut progress = Progress::new("counters written", (counters.len() + past.len()) as u64);
    for words in counters.chunks(PIECE_WORDS).chain(past.chunks(PIECE_WORDS)) {
        file.put(words)?;
        progress.add(words.len() as u64);
    }
    file.sync()?;
    Ok(file)
}
