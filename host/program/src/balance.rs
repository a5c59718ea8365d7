//! `balance DIR`: whether on every bus between a segment's tables each tuple is as often sent as received, mod p;
//! `balance --challenge SEED DIR`: the one sum of fractions that a prover adds up in its place.
//!
//! Plain Rust over the proved tuples. The tables are read some rows at a time.

pub mod field;
pub mod fractions;
pub mod sums;
pub mod tables;

use std::ffi::OsString;
use std::fs::File;
use std::io;
use std::path::Path;

use super::files::{self, MOST_BYTES, no_end, zeros};
use super::options::Options;
use super::progress::Progress;
use super::{Failure, Outcome, Streams, help};
use field::{Cubic, Field};
use fractions::{Challenges, Fractions};
use keccak_tables::{Bus, Parameters};
use sums::{Sums, is_outside};
use tables::{Adder, Adding, Table};

/// How many bytes of a table are held at once, about.
const PIECE_BYTES: usize = 1 << 24;

pub(crate) fn balance(arguments: &[OsString], streams: &mut Streams) -> Result<Outcome, Failure> {
    let (options, files) = Options::read("balance", &["--rounds", "--challenge"], arguments)?;
    let [folder] = files else {
        return Err(help::wrong("balance", files));
    };
    let (parameters, folder) = (options.parameters()?, Path::new(folder));
    match options.number("--challenge") {
        None => {
            let sums = added(folder, Adding::new(parameters, Sums::default))?;
            told(&sums, streams)
        }
        Some(seed) => at_challenges(seed, parameters, folder, streams),
    }
}

/// Adds up every table of a folder.
fn added<A: Adder>(folder: &Path, mut adding: Adding<A>) -> Result<A, Failure> {
    for table in Table::ALL {
        let path = folder.join(table.name());
        match File::open(&path) {
            // Of no operations these are not written.
            Err(error) if error.kind() == io::ErrorKind::NotFound && table.height().is_none() && folder.is_dir() => {}
            file => {
                let mut room = zeros(PIECE_BYTES / 8 / table.width() * table.width() * 8)?;
                let read = file.and_then(|file| read(file, table, &mut room, &mut adding));
                read.map_err(Failure::file(&path))?;
            }
        }
    }
    Ok(adding.finish())
}

/// Adds up the rows of a file, which are read into the room.
fn read<A: Adder>(mut file: File, table: Table, room: &mut [u8], adding: &mut Adding<A>) -> io::Result<()> {
    let (about, row_bytes) = (file.metadata()?, 8 * table.width());
    let (mut rows, mut words) = (0, Vec::new());
    files::reserve(&mut words, room.len() / 8)?;
    let mut progress = Progress::new("rows added up", about.len() / row_bytes as u64);
    loop {
        let got = files::fill(&mut file, room)?;
        if got % row_bytes != 0 {
            let bytes = rows * row_bytes as u64 + got as u64;
            return Err(io::Error::other(format!(
                "{bytes} bytes are no whole rows of {row_bytes}"
            )));
        }
        if rows * row_bytes as u64 > MOST_BYTES && !about.is_file() {
            return Err(no_end());
        }
        words.clear();
        words.extend(room[..got].as_chunks().0.iter().map(|&word| u64::from_le_bytes(word)));
        adding.rows(table, rows, &words).map_err(io::Error::other)?;
        rows += (got / row_bytes) as u64;
        progress.add((got / row_bytes) as u64);
        if got < room.len() {
            break;
        }
    }
    match table.height() {
        Some(height) if rows != height as u64 => {
            Err(io::Error::other(format!("{rows} rows, and the table has {height}")))
        }
        _ => Ok(()),
    }
}

/// A line for each bus, and what they come to.
fn told(sums: &Sums, streams: &mut Streams) -> Result<Outcome, Failure> {
    for bus in Bus::ALL {
        let of = sums.of(bus);
        let found = match (is_outside(bus), of.differ()) {
            (true, _) => "outside".into(),
            (false, 0) => "agree".into(),
            (false, differ) => format!("differ {differ}"),
        };
        let (tuples, sent, received) = (of.tuples(), of.sent, of.received);
        writeln!(
            streams.output,
            "{bus:?} tuples {tuples} sent {sent} received {received} {found}"
        )?;
    }
    match sums.first() {
        None => writeln!(streams.output, "balance agrees")?,
        Some((bus, values, sum)) => {
            let place = sum.first;
            write!(
                streams.output,
                "balance {} row {} tuple {} {bus:?}",
                place.table.name(),
                place.row,
                place.index
            )?;
            values.iter().try_for_each(|value| write!(streams.output, " {value}"))?;
            writeln!(streams.output, " sent {} received {}", sum.sent, sum.received)?;
        }
    }
    Ok(Outcome::of(sums.first().is_none()))
}

fn at_challenges(seed: u64, parameters: Parameters, folder: &Path, streams: &mut Streams) -> Result<Outcome, Failure> {
    let challenges = Challenges::drawn(seed);
    let adding = Adding::new(parameters, || Fractions::new(challenges.clone()));
    let fractions = added(folder, adding)?;
    let element = |Cubic([a, b, c]): Cubic| format!("{a} {b} {c}");
    writeln!(streams.output, "field a + b w + c w^2, words below p, w^3 = 2")?;
    writeln!(streams.output, "alpha {}", element(challenges.alpha))?;
    writeln!(streams.output, "z {}", element(challenges.z))?;
    writeln!(streams.output, "fractions {}", fractions.count)?;
    writeln!(
        streams.output,
        "mirrored {}, those of Memw and Ecall, added as the outside tables'",
        fractions.mirrored
    )?;
    match fractions.sum() {
        Some(sum) => {
            writeln!(streams.output, "sum {}", element(sum))?;
            Ok(Outcome::of(sum == Cubic::NONE))
        }
        None => {
            writeln!(streams.output, "z is the fingerprint of a tuple: there is no sum")?;
            Ok(Outcome::DoesNotHold)
        }
    }
}
