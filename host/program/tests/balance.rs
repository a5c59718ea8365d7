//! `balance` on the files that `write --all` makes, as they are and with a word changed.

use std::ffi::OsString;
use std::fs::{self, File};
use std::io::{Seek, SeekFrom, Write};
use std::path::PathBuf;

use keccak_tables::message::Digest;
use keccak_tables::operation_file::{file_bytes, write_operations};
use keccak_tables::{OP_WORDS, P, Parameters, bitwise, is_wh, keccak, keccak_rc, keccak_rnd, transposed};
use program::{Streams, run};

/// A folder with the tables of a segment.
struct Segment(PathBuf);

/// The operations of a message.
fn message(bytes: &[u8]) -> Vec<u64> {
    Digest::new(bytes, 4096, 5).unwrap().list().to_vec()
}

/// The same operations with the outputs of fewer rounds, which the last round row of each sends on.
fn by_rounds(parameters: Parameters, rounds: usize, mut ops: Vec<u64>) -> Vec<u64> {
    let table = keccak_rnd::keccak_rnd_table_with(parameters, &ops).unwrap();
    for (call, operation) in ops.chunks_exact_mut(OP_WORDS).enumerate() {
        let last = &table[(rounds * (call + 1) - 1) * keccak_rnd::NUM_COLUMNS..][..keccak_rnd::NUM_COLUMNS];
        let mut values = [0; keccak_rnd::MAX_TUPLE_LENGTH];
        keccak_rnd::bus_interaction(last, 1, &mut values).unwrap();
        let state = transposed(values[3..].first_chunk().unwrap());
        for (lane, bytes) in operation[27..52].iter_mut().zip(state.chunks_exact(8)) {
            *lane = bytes.iter().rev().fold(0, |lane, byte| lane << 8 | byte);
        }
    }
    ops
}

impl Segment {
    fn new(name: &str, ops: &[u64], options: &[&str]) -> Self {
        let folder = std::env::temp_dir().join(format!("keccak-tables-balance-{name}-{}", std::process::id()));
        fs::create_dir_all(&folder).unwrap();
        let segment = Self(folder);
        let mut file = vec![0; file_bytes(ops)];
        write_operations(ops, &mut file).unwrap();
        fs::write(segment.0.join("ops"), file).unwrap();
        let (tables, ops) = (segment.tables(), segment.0.join("ops").display().to_string());
        let (status, _, errors) = ran(&[&["write", "--all"], options, &[&tables, &ops]].concat());
        assert_eq!((status, errors.as_str()), (0, ""));
        segment
    }

    fn tables(&self) -> String {
        self.0.join("tables").display().to_string()
    }

    /// Status and last line of a balance.
    fn balance(&self, options: &[&str]) -> (u8, String) {
        let (status, output, errors) = ran(&[&["balance"], options, &[&self.tables()]].concat());
        let last = output.lines().last().unwrap_or_default();
        (status, [last, errors.lines().next().unwrap_or_default()].concat())
    }

    /// Sets a word, and answers what was there.
    fn set(&self, table: &str, at: usize, word: u64) -> u64 {
        let path = self.0.join("tables").join(table);
        let was = fs::read(&path).unwrap()[8 * at..][..8].try_into().unwrap();
        let mut file = File::options().write(true).open(path).unwrap();
        file.seek(SeekFrom::Start(8 * at as u64)).unwrap();
        file.write_all(&word.to_le_bytes()).unwrap();
        u64::from_le_bytes(was)
    }

    /// Does something with one more in a word, and undoes it.
    fn with_one_more(&self, table: &str, at: usize, then: impl Fn(&Self)) {
        let was = self.set(table, at, 0);
        self.set(table, at, was + 1);
        then(self);
        self.set(table, at, was);
    }
}

impl Drop for Segment {
    fn drop(&mut self) {
        let _ = fs::remove_dir_all(&self.0);
    }
}

fn ran(arguments: &[&str]) -> (u8, String, String) {
    let arguments: Vec<OsString> = arguments.iter().map(OsString::from).collect();
    let (mut output, mut errors) = (Vec::new(), Vec::new());
    let mut streams = Streams {
        input: &mut &[][..],
        output: &mut output,
        errors: &mut errors,
        terminal: false,
        process: false,
    };
    let status = run(&arguments, &mut streams);
    let text = |bytes| String::from_utf8(bytes).unwrap();
    (status, text(output), text(errors))
}

#[test]
fn what_is_written_adds_up_and_what_is_changed_does_not() {
    let segment = Segment::new("changed", &message(&[0xA3; 300]), &[]);
    let tables = segment.tables();
    let (status, lines, errors) = ran(&["balance", &tables]);
    assert_eq!((status, errors.as_str()), (0, ""));
    assert!(
        lines.contains("\nKeccak tuples 75 sent 75 received 75 agree\n"),
        "{lines}"
    );
    assert!(
        lines.contains("\nMemw tuples 78 sent 78 received 0 outside\n"),
        "{lines}"
    );
    assert!(
        lines.contains("\nEcall tuples 3 sent 0 received 3 outside\n"),
        "{lines}"
    );
    assert!(lines.ends_with("\nbalance agrees\n"));
    let (status, lines, _) = ran(&["balance", "--challenge", "1", &tables]);
    assert!(status == 0 && lines.ends_with("\nsum 0 0 0\n"), "{lines}");
    assert!(lines.contains("\nmirrored 81, "), "{lines}");
    is_named(&segment);
    assert_eq!(segment.balance(&[]), (0, "balance agrees".into()));
}

/// One more in a word of each table: the first tuple that differs is named, and the sum at challenges is not 0.
fn is_named(segment: &Segment) {
    for (table, at, first) in [
        (
            "core",
            keccak::cols::OUTPUT_STATE,
            "balance core row 0 tuple 3 Keccak 5 0 24 ",
        ),
        (
            "round",
            keccak_rnd::NUM_COLUMNS * 30,
            "balance round row 29 tuple 1 Keccak 6 0 6 ",
        ),
        // The one pair is on every line of the 75 pointers, and the table sends its multiplicity on IsB20.
        ("is_wh", is_wh::NUM_COLUMNS - 1, "balance core row 0 tuple 4 IsWh 0 0 "),
        (
            "bitwise",
            bitwise::NUM_COLUMNS - 1,
            "balance round row 0 tuple 59 ByteAlu 2 0 0 0 sent 24 received 25",
        ),
        (
            "constants",
            keccak_rc::NUM_COLUMNS * 23 - 1,
            "balance round row 22 tuple 2 KeccakRc 22 ",
        ),
    ] {
        segment.with_one_more(table, at, |segment| {
            let (status, line) = segment.balance(&[]);
            assert!(status == 1 && line.starts_with(first), "{table}: {line}");
            let (status, line) = segment.balance(&["--challenge", "1"]);
            assert!(
                status == 1 && line.starts_with("sum ") && line != "sum 0 0 0",
                "{table}: {line}"
            );
        });
    }
}

#[test]
fn files_that_are_no_tables_have_status_2() {
    let segment = Segment::new("files", &message(&[7; 100]), &[]);
    segment.with_one_more("bitwise", 21 * 7 + 3, |segment| {
        let (status, line) = segment.balance(&[]);
        assert_eq!(status, 2);
        assert!(
            line.ends_with("bitwise: row 7, column 3: 1, and this column is fixed to 0"),
            "{line}"
        );
    });
    let was = segment.set("round", 1480 * 5 + 9, P);
    let (status, line) = segment.balance(&["--challenge", "5"]);
    assert_eq!(status, 2);
    assert!(
        line.ends_with(&format!("round: row 5, column 9: {P} is not below p")),
        "{line}"
    );
    segment.set("round", 1480 * 5 + 9, was);
}

/// Files that are cut or missing: the tables of no operations may be, but then nothing answers what others send.
#[test]
fn files_that_are_cut_or_missing() {
    let segment = Segment::new("cut", &message(&[7; 100]), &[]);
    let path = |table: &str| segment.0.join("tables").join(table);
    File::options()
        .write(true)
        .open(path("core"))
        .unwrap()
        .set_len(486 * 8 * 4 - 8)
        .unwrap();
    assert_eq!(segment.balance(&[]).0, 2);
    fs::remove_file(path("core")).unwrap();
    let (status, line) = segment.balance(&[]);
    assert!(
        status == 1 && line.starts_with("balance round row 0 tuple 0 Keccak "),
        "{line}"
    );
    File::options()
        .write(true)
        .open(path("constants"))
        .unwrap()
        .set_len(31 * 80)
        .unwrap();
    let (status, line) = segment.balance(&[]);
    assert!(
        status == 2 && line.ends_with("constants: 31 rows, and the table has 32"),
        "{line}"
    );
    fs::remove_file(path("constants")).unwrap();
    assert_eq!(segment.balance(&[]).0, 2);
    assert_eq!(ran(&["balance", &segment.0.join("none").display().to_string()]).0, 2);
    for wrong in [
        &["balance"][..],
        &["balance", "--challenge", "a", "b"],
        &["balance", "a", "b"],
        &["balance", "--all", "a"],
    ] {
        assert_eq!(ran(wrong).0, 2, "{wrong:?}");
    }
}

/// No operations, shipped or not; and fewer rounds, by which alone the tables add up.
#[test]
fn tables_of_other_parameters_add_up() {
    for options in [&[][..], &["--shipped"], &["--shipped", "--floor", "64"]] {
        let segment = Segment::new(&format!("none-{}", options.len()), &[], options);
        assert_eq!(segment.balance(&[]), (0, "balance agrees".into()));
        assert_eq!(segment.balance(&["--challenge", "3"]), (0, "sum 0 0 0".into()));
    }
    let five = by_rounds(Parameters::default().rounds(5), 5, message(&[9; 200]));
    let segment = Segment::new("fewer", &five, &["--rounds", "5"]);
    assert_eq!(segment.balance(&["--rounds", "5"]), (0, "balance agrees".into()));
    assert_eq!(
        segment.balance(&["--rounds", "5", "--challenge", "9"]),
        (0, "sum 0 0 0".into())
    );
    let (status, line) = segment.balance(&[]);
    assert!(
        status == 1 && line.starts_with("balance core row 0 tuple 2 Keccak 5 0 0 "),
        "{line}"
    );
    let (status, line) = segment.balance(&["--rounds", "25"]);
    assert!(status == 1 && line.starts_with("refused 8 25"), "{line}");
}
