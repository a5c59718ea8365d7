//! The command-line program: what `keccak-tables` and `judge` run.

#![deny(unsafe_code)]
#![warn(missing_docs)]

mod attack;
pub mod balance;
mod charge;
mod charged;
#[allow(unsafe_code)]
pub mod closed;
mod commit;
mod demo;
mod explain;
pub mod failures;
mod files;
mod help;
mod job;
mod judge;
mod ledgers;
mod list;
mod message;
mod month;
mod numbers;
mod options;
mod picture;
mod progress;
mod records;
mod same;
#[path = "../../build/sha256.rs"]
mod sha256;
#[allow(unsafe_code)]
mod system;
mod tally;
#[cfg(test)]
mod tests;
mod unaligned;
mod write;
mod write_all;

use std::ffi::OsString;
use std::io::{self, IsTerminal, Read, Write};
use std::path::{Path, PathBuf};
use std::process::ExitCode;

use keccak_tables::Refusal;

pub use system::Memory;

const HINT: &str = "`keccak-tables help` tells the commands";
const JUDGE_HINT: &str = "`judge --help` tells more";

/// The streams of a run.
pub struct Streams<'a> {
    /// Standard input.
    pub input: &'a mut dyn Read,
    /// Standard output.
    pub output: &'a mut dyn Write,
    /// Standard error.
    pub errors: &'a mut dyn Write,
    /// Whether standard output is a terminal, for which something may be drawn.
    pub terminal: bool,
    /// Whether the run is all that its process does: then it ends the process where files have taken their names.
    pub process: bool,
}

/// How a command ended, where it could do its work.
#[derive(Debug, Clone, Copy, PartialEq, Eq)]
enum Outcome {
    Fine,
    DoesNotHold,
}

impl Outcome {
    const fn of(fine: bool) -> Self {
        if fine { Self::Fine } else { Self::DoesNotHold }
    }
}

/// Why a command could not do its work.
#[derive(Debug)]
enum Failure {
    Usage(String),
    Refused(Refusal),
    /// A refusal, in words of its own.
    Told(Refusal, String),
    File(PathBuf, io::Error),
    Stream(io::Error),
    Memory,
}

impl Failure {
    fn file(path: &Path) -> impl Fn(io::Error) -> Self {
        move |error| Self::File(path.to_path_buf(), error)
    }
}

/// Failures of standard input and output.
impl From<io::Error> for Failure {
    fn from(error: io::Error) -> Self {
        Self::Stream(error)
    }
}

/// Runs `keccak-tables` on its arguments and answers its exit status.
pub fn run(arguments: &[OsString], streams: &mut Streams) -> u8 {
    let outcome = command(arguments, streams);
    status(outcome, HINT, streams)
}

/// Runs `judge` on its arguments and answers its exit status.
pub fn run_judge(arguments: &[OsString], streams: &mut Streams) -> u8 {
    let outcome = named("judge", arguments, streams);
    status(outcome, JUDGE_HINT, streams)
}

/// Gives a run the arguments and streams of this process. Without a standard output nothing is begun.
pub fn main(run: fn(&[OsString], &mut Streams) -> u8) -> ExitCode {
    let arguments: Vec<OsString> = std::env::args_os().skip(1).collect();
    if closed::output() {
        let _ = writeln!(io::stderr(), "standard output is closed");
        return ExitCode::from(2);
    }
    let (mut input, mut none) = (io::stdin().lock(), NoInput);
    let mut streams = Streams {
        input: if closed::input() { &mut none } else { &mut input },
        output: &mut io::stdout().lock(),
        errors: &mut io::stderr(),
        terminal: io::stdout().is_terminal(),
        process: true,
    };
    ExitCode::from(run(&arguments, &mut streams))
}

/// A standard input that was closed.
struct NoInput;

impl Read for NoInput {
    fn read(&mut self, _: &mut [u8]) -> io::Result<usize> {
        Err(io::Error::other("standard input is closed"))
    }
}

fn command(arguments: &[OsString], streams: &mut Streams) -> Result<Outcome, Failure> {
    let Some((name, rest)) = arguments.split_first() else {
        return Err(Failure::Usage("a command is missing".into()));
    };
    match name.to_str() {
        Some("help" | "--help" | "-h") => help::help(rest, streams),
        Some("--version" | "-V") => help::version(rest, streams),
        Some(name) if help::COMMANDS.iter().any(|command| command.name == name) => named(name, rest, streams),
        _ => Err(Failure::Usage(format!("there is no command {}", name.display()))),
    }
}

/// Runs the command of a name, or prints its help.
fn named(name: &str, rest: &[OsString], streams: &mut Streams) -> Result<Outcome, Failure> {
    if let [option] = rest
        && ["--help", "-h"].iter().any(|help| option == help)
    {
        return help::help(&[name.into()], streams);
    }
    match name {
        "demo" => demo::demo(rest, streams),
        "write" => write::write(rest, streams),
        "judge" => judge::judge(rest, streams),
        "job" => job::job(rest, streams),
        "balance" => balance::balance(rest, streams),
        "same" => same::same(rest, streams),
        "tally" => tally::tally(rest, streams),
        "look" => charge::look(rest, streams),
        "charge" => charge::charge(rest, streams),
        "month" => month::month(rest, streams),
        "message" => message::message(rest, streams),
        "attack" => attack::attack(rest, streams),
        "is-message" => message::is_message(rest, streams),
        _ => explain::explain(rest, streams),
    }
}

/// The exit status. What can't be told on standard error is lost: there is nobody else to tell.
fn status(outcome: Result<Outcome, Failure>, hint: &str, streams: &mut Streams) -> u8 {
    let flushed = streams.output.flush().map_err(Failure::from);
    let message = match outcome.and_then(|outcome| flushed.map(|()| outcome)) {
        Ok(Outcome::Fine) => return 0,
        Ok(Outcome::DoesNotHold) => return 1,
        Err(Failure::Usage(message)) => format!("{message}\n{hint}\n"),
        Err(Failure::Refused(refusal)) => {
            return status(Err(Failure::Told(refusal, refusal.to_string())), hint, streams);
        }
        Err(Failure::Told(refusal, words)) => return status(refused(refusal, &words, streams), hint, streams),
        Err(Failure::Memory) => "there is not enough memory\n".into(),
        Err(Failure::File(path, error)) => format!("{}: {error}\n", path.display()),
        // Whoever reads the output has seen enough.
        Err(Failure::Stream(error)) if error.kind() == io::ErrorKind::BrokenPipe => return 2,
        Err(Failure::Stream(error)) => format!("standard input or output: {error}\n"),
    };
    let _ = streams.errors.write_all(message.as_bytes());
    2
}

/// Prints a refusal: its line on standard output, its words on standard error.
fn refused(refusal: Refusal, words: &str, streams: &mut Streams) -> Result<Outcome, Failure> {
    writeln!(streams.output, "{}", refused_line(refusal))?;
    let _ = writeln!(streams.errors, "{words}");
    Ok(Outcome::DoesNotHold)
}

fn refused_line(refusal: Refusal) -> String {
    format!("refused {} {}", refusal.number(), refusal.detail())
}
