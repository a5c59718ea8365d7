//! The tally of an operation file, the archive's reader against a plain Rust one.
//!
//! Three files, of a gigabyte each unless another size is given: of records under 4B 4F alone, under 4B 50 alone, and of both as they are drawn.
//! Each is a list of drawn operations over and over. It has lost its name
//! in the temporary folder before anything is written to it, so that nothing is left of it however the run ends; it was
//! written just before, so that it is read from memory and not from the disk. Timed is a reading from beginning to end by
//! reads of 64 KiB: ours feeds each piece to [`Tally`] as it came; the Rust's takes each record out of a `BufReader`, checks
//! mark and address, and counts, with the least and the greatest segment number. What the reads take alone is printed beside them. `ratio tally-program` is the built
//! program with the file as its standard input, its start included, against the same Rust; it is left out where the
//! program was not built. The memory is the most that this process held, the making of the file included, the program not.

use compare::say;
use std::fs::{self, File};
use std::hint::black_box;
use std::io::{self, BufRead, BufReader, Read, Seek, Write};
use std::process::{self, Command};

use compare::inputs::Words;
use keccak_tables::keccak::LAST_ADDRESS;
use keccak_tables::operation_file::{RECORD_BYTES, SEGMENT_RECORD_BYTES, Tally, file_bytes, write_operations};
use keccak_tables::{OP_WORDS, SEGMENT_WORD};

use crate::timing::{best, both, line, ratio, time};

/// The bytes of a file where none are given; it has as many whole records as go into them, and at least one.
pub const BYTES: usize = 1_000_000_000;

/// The operations that are drawn.
const DRAWN: usize = 100;
/// What is read at once.
const BUFFER: usize = 64 << 10;
const RUNS: usize = 5;

/// The program, where `rt run` left it.
const PROGRAM: &str = concat!(env!("CARGO_MANIFEST_DIR"), "/../../crates/tally/out/tally");

/// Whether the next of a file's operations is of segment 0.
type IsPlain = fn(&mut Words) -> bool;

/// The files, by the name of their lines.
const FILES: [(&str, IsPlain); 3] = [
    ("tally", |_| true),
    ("tally-numbered", |_| false),
    ("tally-mixed", |words| words.below(2) == 0),
];

pub fn run(bytes: usize) {
    for (name, is_plain) in FILES {
        let (file, records) = &made(bytes, is_plain).expect("there is room for the file in the temporary folder");
        one(name, file, *records);
    }
    if let Some(memory) = peak_memory() {
        say!("peak memory {memory}");
    }
}

fn one(name: &str, file: &File, records: usize) {
    say!("{name}, {records} records: time of a record");
    let [ours, rust, reads] = best(
        RUNS,
        [
            Box::new(|| time(|| counted(ours(file), records))),
            Box::new(|| time(|| counted(rust(file), records))),
            Box::new(|| time(|| reads(file, |piece| _ = black_box(piece)).expect("the file can be read"))),
        ],
    );
    line("ours", ours, records);
    line("the Rust", rust, records);
    line("the reads alone", reads, records);
    ratio(name, ours, rust);
    if fs::exists(PROGRAM).unwrap_or(false) {
        tally_program(name, file, records);
    }
}

fn tally_program(name: &str, file: &File, records: usize) {
    say!("{name}-program, the same file: time of a record");
    let ours = || counted(program(file), records);
    let rust = || counted(rust(file), records);
    both(
        &format!("{name}-program"),
        RUNS,
        records,
        ("the program", ours),
        ("the Rust", rust),
    );
}

/// A file of so many bytes or a few less, without a name, and its records, at least one.
fn made(bytes: usize, is_plain: fn(&mut Words) -> bool) -> io::Result<(File, usize)> {
    let path = std::env::temp_dir().join(format!("keccak-tables-bench-{}", process::id()));
    let mut file = File::options().read(true).write(true).create_new(true).open(&path)?;
    fs::remove_file(&path)?;
    let mut words = Words::new(7);
    let mut ops = words.operations(DRAWN);
    for operation in ops.chunks_exact_mut(OP_WORDS) {
        operation[SEGMENT_WORD] = if is_plain(&mut words) {
            0
        } else {
            1 + words.below(1 << 31)
        };
    }
    let mut drawn = vec![0; file_bytes(&ops)];
    write_operations(&ops, &mut drawn).expect("drawn operations are accepted");
    let times = bytes / drawn.len();
    for _ in 0..times {
        file.write_all(&drawn)?;
    }
    let some = if times == 0 { 1 } else { 0 };
    file.write_all(&drawn[..some * file_bytes(&ops[..OP_WORDS])])?;
    Ok((file, times * DRAWN + some))
}

/// A reading that did not see every record is no reading.
fn counted(seen: io::Result<u64>, records: usize) {
    assert_eq!(seen.expect("the file can be read"), records as u64);
}

/// The pieces of the file from its beginning, one after the other.
fn reads(mut file: &File, mut feed: impl FnMut(&[u8])) -> io::Result<()> {
    file.rewind()?;
    let mut buffer = vec![0; BUFFER];
    loop {
        match file.read(&mut buffer)? {
            0 => return Ok(()),
            n => feed(&buffer[..n]),
        }
    }
}

fn ours(file: &File) -> io::Result<u64> {
    let mut tally = Tally::new();
    reads(file, |piece| tally.feed(piece))?;
    Ok(tally.finish().expect("drawn operations are accepted").ops)
}

fn rust(mut file: &File) -> io::Result<u64> {
    file.rewind()?;
    let mut reader = BufReader::with_capacity(BUFFER, file);
    let mut record = [0; SEGMENT_RECORD_BYTES];
    let (mut records, mut unaligned) = (0, 0);
    let (mut told, mut least, mut greatest) = (false, u32::MAX, 0);
    while !reader.fill_buf()?.is_empty() {
        reader.read_exact(&mut record[..RECORD_BYTES])?;
        let address = u64::from_le_bytes(record[10..18].try_into().expect("eight bytes"));
        let numbered = match record {
            [b'K', b'O', ..] => false,
            [b'K', b'P', ..] => true,
            _ => panic!("a wrong mark"),
        };
        let mut segment = 0;
        if numbered {
            reader.read_exact(&mut record[RECORD_BYTES..])?;
            segment = u32::from_le_bytes(record[RECORD_BYTES..].try_into().expect("four bytes"));
        }
        assert!(address <= LAST_ADDRESS);
        match address % 8 {
            0 => {
                records += 1;
                told |= numbered;
                (least, greatest) = (segment.min(least), segment.max(greatest));
            }
            _ => unaligned += 1,
        }
    }
    assert_eq!(unaligned, 0, "drawn operations are on the eight");
    _ = black_box((told, least, greatest));
    Ok(records)
}

/// The number that the program writes in its first line, `ops N`.
fn program(mut file: &File) -> io::Result<u64> {
    file.rewind()?;
    let output = Command::new(PROGRAM).stdin(file.try_clone()?).output()?;
    let text = String::from_utf8_lossy(&output.stdout);
    let number = text
        .lines()
        .next()
        .and_then(|line| line.strip_prefix("ops ")?.parse().ok());
    number.ok_or_else(|| io::Error::other(format!("the program says {text}")))
}

/// The most memory that this process held, as the system tells it.
fn peak_memory() -> Option<String> {
    let status = fs::read_to_string("/proc/self/status").ok()?;
    let memory = status.lines().find_map(|line| line.strip_prefix("VmHWM:"))?;
    Some(memory.trim().into())
}
