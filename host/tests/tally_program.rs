//! The program `tally` that the kit compiles: how it meets files that can't be read or written, one of several reads, and
//! arguments.
//! What it prints of files that can is compared by the gate.

use std::fs::File;
use std::io::{self, ErrorKind, Write};
use std::path::{Path, PathBuf};
use std::process::{Command, Output, Stdio};
use std::sync::LazyLock;
use std::thread;

use keccak_tables::operation_file::{RECORD_BYTES, write_operations};
use keccak_tables::{OP_WORDS, Operation};

/// The program, proved and compiled from the crate as it stands; none where the kit is not there.
static PROGRAM: LazyLock<Option<PathBuf>> = LazyLock::new(|| {
    let root = Path::new(env!("CARGO_MANIFEST_DIR")).parent().expect("the repository");
    let tally = root.join("crates/tally");
    // It is run too, on no input.
    let mut run = Command::new("rt");
    run.arg("run").stdin(Stdio::null()).current_dir(&tally);
    match run.output() {
        Err(error) if error.kind() == ErrorKind::NotFound => None,
        proved => {
            let proved = proved.expect("rt can be run");
            assert!(proved.status.success(), "{}", String::from_utf8_lossy(&proved.stderr));
            Some(tally.join("out/tally"))
        }
    }
});

/// Whether the program is there. Where it is not, a line names the test that shows nothing, also where cargo captures what tests print.
fn is_there() -> bool {
    let there = PROGRAM.is_some();
    if !there {
        let test = thread::current();
        let name = test.name().unwrap_or("a test");
        let _ = writeln!(io::stderr(), "there is no program rt on the PATH: {name} is not tried");
    }
    there
}

fn ran(input: impl Into<Stdio>, output: impl Into<Stdio>) -> Output {
    ran_with(&[], input, output)
}

fn ran_with(arguments: &[&str], input: impl Into<Stdio>, output: impl Into<Stdio>) -> Output {
    let program = Command::new(PROGRAM.as_ref().expect("it is there"))
        .args(arguments)
        .stdin(input)
        .stdout(output)
        .stderr(Stdio::piped())
        .spawn();
    program
        .expect("rt run leaves out/tally")
        .wait_with_output()
        .expect("it ends")
}

/// A file of so many records, to be read from its beginning.
fn records(name: &str, count: u64) -> File {
    file(name, &record_bytes(count))
}

fn record_bytes(count: u64) -> Vec<u8> {
    let operation = |at| Operation {
        timestamp: at,
        address: 4096,
        input: [at; 25],
        output: [0; 25],
        segment: 0,
    };
    let ops: Vec<u64> = (0..count).flat_map(|at| operation(at).words()).collect();
    let mut bytes = vec![0; ops.len() / OP_WORDS * RECORD_BYTES];
    write_operations(&ops, &mut bytes).expect("the operations are accepted");
    bytes
}

/// A file of these bytes, likewise.
fn file(name: &str, bytes: &[u8]) -> File {
    let path = std::env::temp_dir().join(format!("keccak-tables-{name}-{}", std::process::id()));
    File::create(&path)
        .and_then(|mut file| file.write_all(bytes))
        .expect("the file can be written");
    let file = File::open(&path).expect("the file can be read");
    std::fs::remove_file(&path).expect("the file can be removed");
    file
}

/// What the program says on standard error: one line, which names the stream and why it failed.
fn said(stderr: Vec<u8>, stream: &str) {
    let said = String::from_utf8(stderr).expect("text");
    let line = said.strip_suffix('\n').and_then(|line| line.strip_prefix(stream));
    let why = line.and_then(|line| line.strip_prefix(": ")).unwrap_or_default();
    assert!(!why.is_empty() && !why.contains('\n'), "{said}");
}

/// A failed read prints no count of what was read before it.
#[test]
fn a_failed_read_is_told_on_standard_error_alone() {
    if !is_there() {
        return;
    }
    let folder = File::open(env!("CARGO_MANIFEST_DIR")).expect("a folder can be opened");
    let Output { stdout, stderr, .. } = ran(folder, Stdio::piped());
    assert!(stdout.is_empty());
    said(stderr, "standard input");
}

#[test]
fn a_failed_write_is_told_on_standard_error() {
    if !is_there() {
        return;
    }
    let full = File::options()
        .write(true)
        .open("/dev/full")
        .expect("/dev/full can be opened");
    let Output { status, stderr, .. } = ran(records("full", 1), full);
    assert!(status.code().is_some());
    said(stderr, "standard output");
}

/// 250,800 bytes, which are more than one read takes. The sums are the scope's multiples of 600; 1,984 of the round rows are
/// padding, whose 220 AreBytes each are sent too.
#[test]
fn a_file_of_several_reads_is_read_whole() {
    if !is_there() {
        return;
    }
    let Output { stdout, stderr, .. } = ran(records("long", 600), Stdio::piped());
    let lines = "ops 600\ncore-rows 1024\nround-rows 16384\nByteAlu 11635800\nAreBytes 3606880\nKeccakRc 14400\nIsHalfword 15000\n\
                 IsWh 15000\nMemw 15600\nEcall 600\n";
    assert_eq!(
        (String::from_utf8(stdout).expect("text").as_str(), stderr.len()),
        (lines, 0)
    );
}

/// Records under both marks, the bytes of a segment number split by a read of 64 KiB: the least and the greatest are told.
#[test]
fn segment_numbers_have_a_line() {
    if !is_there() {
        return;
    }
    let plain = record_bytes(200);
    let mut bytes = plain.clone();
    for segment in [9u32, 7, u32::MAX] {
        bytes.extend([0x4B, 0x50]);
        bytes.extend(&plain[2..RECORD_BYTES]);
        bytes.extend(segment.to_le_bytes());
    }
    let lines = "ops 203\ncore-rows 256\nround-rows 8192\nByteAlu 3936779\nAreBytes 1803052\nKeccakRc 4872\nIsHalfword 5075\nIsWh 5075\n\
                 Memw 5278\nEcall 203\n";
    for (from, segments) in [(0, "segments 0 4294967295\n"), (plain.len(), "segments 7 4294967295\n")] {
        let Output { stdout, stderr, .. } = ran(file("numbered", &bytes[from..]), Stdio::piped());
        let said = String::from_utf8(stdout).expect("text");
        assert!(said.ends_with(segments) && stderr.is_empty(), "{said}");
        if from == 0 {
            assert_eq!(said, lines.to_string() + segments);
        }
    }
}

/// Records off the eight are left out and counted in a last line; a high one is refused all the same.
#[test]
fn records_off_the_eight_have_a_last_line() {
    if !is_there() {
        return;
    }
    let mut bytes = record_bytes(4);
    let set = |bytes: &mut [u8], record: usize, address: u64| {
        bytes[record * RECORD_BYTES + 10..][..8].copy_from_slice(&address.to_le_bytes());
    };
    set(&mut bytes, 0, 4100);
    set(&mut bytes, 2, 18_446_744_073_709_551_423);
    set(&mut bytes, 3, 18_446_744_073_709_551_416);
    for (shipped, name) in [(&[][..], "off"), (&["shipped"], "off-shipped")] {
        let Output { stdout, stderr, .. } = ran_with(shipped, file(name, &bytes), Stdio::piped());
        let lines = "ops 2\ncore-rows 4\nround-rows 64\nByteAlu 38786\nAreBytes 14088\nKeccakRc 48\nIsHalfword 50\nIsWh 50\nMemw 52\n\
                     Ecall 2\nunaligned 2\n";
        assert_eq!(
            (String::from_utf8(stdout).expect("text").as_str(), stderr.len()),
            (lines, 0)
        );
    }
    set(&mut bytes, 3, 18_446_744_073_709_551_424);
    let Output { stdout, .. } = ran(file("off-high", &bytes), Stdio::piped());
    assert_eq!(
        String::from_utf8(stdout).expect("text"),
        "refused 4 18446744073709551424\n"
    );
}

/// Of an empty file; a word may stand twice, `shipped` before or behind a floor, of which the last counts, and zeros before its digits.
#[test]
fn the_arguments_are_the_mode_and_the_floor() {
    if !is_there() {
        return;
    }
    for (arguments, rows, bytes) in [
        (&[][..], 4, 0),
        (&["shipped"], 4, 880),
        (&["shipped", "shipped"], 4, 880),
        (&["4"], 4, 0),
        (&["8"], 8, 0),
        (&["shipped", "00064"], 64, 14_080),
        (&["65536", "shipped"], 65_536, 14_417_920),
        (&["x", "16", "shipped", "8"], 8, 1760),
    ] {
        let Output { stdout, stderr, .. } = ran_with(arguments, records("none", 0), Stdio::piped());
        let lines = format!(
            "ops 0\ncore-rows {rows}\nround-rows {rows}\nByteAlu 0\nAreBytes {bytes}\nKeccakRc 0\nIsHalfword 0\nIsWh 0\nMemw 0\nEcall 0\n"
        );
        assert_eq!(
            (String::from_utf8(stdout).expect("text"), stderr.len()),
            (lines, 0),
            "{arguments:?}"
        );
    }
}

/// Whatever the file is: it is not read, as a folder shows, which can't be. What is neither `shipped` nor a decimal below 2^64 is floor 0.
#[test]
fn another_floor_is_refused_before_anything_is_read() {
    if !is_there() {
        return;
    }
    for (arguments, floor) in [
        (&[""][..], "0"),
        (&["ship"], "0"),
        (&["shipped "], "0"),
        (&["Shipped"], "0"),
        (&["--shipped"], "0"),
        (&["8", "x"], "0"),
        (&["8", "", "shipped"], "0"),
        (&["18446744073709551616"], "0"),
        (&["18446744073709551624"], "0"),
        (&["18446744073709551615"], "18446744073709551615"),
        (&["shipped", "002"], "2"),
        (&["131072", "shipped"], "131072"),
        (&["4", "6"], "6"),
    ] {
        let folder = File::open(env!("CARGO_MANIFEST_DIR")).expect("a folder can be opened");
        let Output { stdout, stderr, .. } = ran_with(arguments, folder, Stdio::piped());
        assert_eq!(
            (String::from_utf8(stdout).expect("text"), stderr.len()),
            (format!("refused 9 {floor}\n"), 0),
            "{arguments:?}"
        );
    }
}
