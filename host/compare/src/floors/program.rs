//! The kit's program `tally` with argument words, drawn and damaged, against a plain reading of the request: "`tally` takes it as a decimal
//! argument (digits only, zeros may lead), 4 when absent; it may stand before or after `shipped`, the last floor counts, and an argument
//! that is neither, or a decimal above 2^64 − 1, is floor 0."

use std::ffi::OsStr;
use std::fs::{self, File};
use std::io::{ErrorKind, Seek, Write};
use std::os::unix::ffi::OsStrExt;
use std::path::{Path, PathBuf};
use std::process::{Command, Output, Stdio};

use keccak_tables::{OP_WORDS, Parameters};

use crate::by_floor::{self, FLOORS, REFUSED};
use crate::comparison::Comparison;
use crate::inputs::Words;
use crate::plain_file::{file_of, first_fault};
use crate::say;
use crate::tally::expected;

/// The longest argument that Linux takes, without the zero behind it.
const LONGEST: usize = 131_071;

/// Words to begin with: no argument, zeros in front, the empty word, `shipped` before, behind and between floors, several floors, and
/// decimals about 2^64, which would be a floor if they were taken mod 2^64.
const NAMED: &[&[&str]] = &[
    &[],
    &["shipped"],
    &["shipped", "shipped"],
    &["4"],
    &["8"],
    &["65536"],
    &["131072"],
    &["0"],
    &["2"],
    &["008"],
    &["00000000000000000000000000000000000016"],
    &["000"],
    &[""],
    &["", "8"],
    &["8", ""],
    &["shipped", "64"],
    &["64", "shipped"],
    &["shipped", "64", "shipped"],
    &["64", "shipped", "32"],
    &["8", "16"],
    &["16", "8"],
    &["5", "8"],
    &["8", "5"],
    &["x", "8"],
    &["8", "x"],
    &["18446744073709551615"],
    &["18446744073709551616"],
    &["18446744073709551624"],
    &["00018446744073709551615"],
    &["36893488147419103240"],
    &["340282366920938463463374607431768211464"],
    &["99999999999999999999999999999999999999999999999999999999999999999999"],
    &["18446744073709551624", "8"],
    &["8", "18446744073709551624"],
    &["+8"],
    &["-8"],
    &["8 "],
    &[" 8"],
    &["8\n"],
    &["0x8"],
    &["1e1"],
    &["8.0"],
    &["8,192"],
    &["1_024"],
    &["٨"],
    &["8/"],
    &["8:"],
    &["Shipped"],
    &["shipped "],
    &["shippe"],
    &["shippedd"],
    &["--shipped"],
    &["--floor", "8"],
    &["8shipped"],
    &["shipped", "x", "shipped", "16"],
];

/// The named words and `n` drawn ones, on files that are drawn.
pub fn compare(comparison: &mut Comparison, words: &mut Words, n: usize) {
    let Some(program) = program() else {
        return;
    };
    let run = |comparison: &mut Comparison, words: &mut Words, arguments: &[Vec<u8>]| {
        let file = file(words);
        one(comparison, &program, arguments, &file);
    };
    for arguments in NAMED {
        let arguments: Vec<Vec<u8>> = arguments.iter().map(|word| word.as_bytes().to_vec()).collect();
        run(comparison, words, &arguments);
    }
    for last in ["", "8", "9", "x"] {
        // As long as a word can be: zeros, and then something or nothing.
        let long = [vec![b'0'; LONGEST - last.len()], last.into()].concat();
        run(comparison, words, std::slice::from_ref(&long));
        run(comparison, words, &[long, b"16".to_vec()]);
    }
    run(comparison, words, &[vec![b'8'; LONGEST]]);
    for _ in 0..n {
        let arguments: Vec<Vec<u8>> = (0..words.below(5)).map(|_| drawn(words)).collect();
        run(comparison, words, &arguments);
    }
}

/// The program, proved and compiled from the crate as it stands; none where the kit is not there, which is told.
fn program() -> Option<PathBuf> {
    let root = Path::new(env!("CARGO_MANIFEST_DIR")).ancestors().nth(2);
    let root = root.expect("this package stands in the host's folder");
    let tally = root.join("crates/tally");
    // It is run too, on no input.
    let mut run = Command::new("rt");
    run.arg("run").stdin(Stdio::null()).current_dir(&tally);
    match run.output() {
        Err(error) if error.kind() == ErrorKind::NotFound => {
            say!("there is no program rt on the PATH: the kit's tally is not tried");
            None
        }
        proved => {
            let proved = proved.expect("rt can be run");
            assert!(proved.status.success(), "{}", String::from_utf8_lossy(&proved.stderr));
            Some(tally.join("out/tally"))
        }
    }
}

/// The request's sentence again: what the words say, one after the other.
fn reading(arguments: &[Vec<u8>]) -> Parameters {
    let mut with = Parameters::default();
    for word in arguments {
        with = match word.as_slice() {
            b"shipped" => with.shipped(),
            word => with.floor(decimal(word).unwrap_or(0)),
        };
    }
    with
}

/// A decimal of digits only, where it is one and below 2^64.
fn decimal(word: &[u8]) -> Option<u64> {
    if word.is_empty() || !word.iter().all(u8::is_ascii_digit) {
        return None;
    }
    let significant = &word[word.iter().take_while(|&&byte| byte == b'0').count()..];
    // 2^64 has 20 digits.
    if significant.len() > 20 {
        return None;
    }
    let value = significant
        .iter()
        .fold(0u128, |value, byte| 10 * value + u128::from(byte - b'0'));
    u64::try_from(value).ok()
}

/// What the program is to print of a file: a floor that is refused before anything that is wrong with the file.
fn printed(with: Parameters, file: &[u8]) -> String {
    if let Some((number, detail)) = by_floor::refusal(with.floor).or_else(|| first_fault(file)) {
        return format!("refused {number} {detail}\n");
    }
    let numbers = expected(with, file);
    let names = oracle::tally(&[]).map(|(name, _)| name);
    let mut lines: String = names
        .iter()
        .zip(&numbers)
        .map(|(name, number)| format!("{name} {number}\n"))
        .collect();
    if numbers[11] > 0 {
        lines += &format!("segments {} {}\n", numbers[12], numbers[13]);
    }
    if numbers[10] > 0 {
        lines += &format!("unaligned {}\n", numbers[10]);
    }
    lines
}

/// One run. Where the floor is refused nothing of the file is read.
fn one(comparison: &mut Comparison, program: &Path, arguments: &[Vec<u8>], bytes: &[u8]) {
    let with = reading(arguments);
    let mut input = file_with(bytes);
    let shared = input.try_clone().expect("a file can be shared");
    let Output { status, stdout, stderr } = Command::new(program)
        .args(arguments.iter().map(|word| OsStr::from_bytes(word)))
        .stdin(shared)
        .stdout(Stdio::piped())
        .stderr(Stdio::piped())
        .output()
        .expect("rt run leaves out/tally");
    let read = input.stream_position().expect("a file has a place");
    let words: Vec<_> = arguments.iter().map(|word| shown(word)).collect();
    let what = || format!("tally with {words:?}, {with:?}, on {} bytes", bytes.len());
    comparison.called();
    let text = |bytes: &[u8]| bytes.iter().map(|&byte| u64::from(byte)).collect::<Vec<u64>>();
    let printed = printed(with, bytes);
    let found = String::from_utf8_lossy(&stdout);
    comparison.equal(
        |_| format!("{}: {found:?}, and not {printed:?}", what()),
        &text(&stdout),
        &text(printed.as_bytes()),
    );
    comparison.equal(|_| format!("standard error of {}", what()), &text(&stderr), &[]);
    let ended = u64::from(status.code().is_some());
    comparison.equal(|_| format!("the end of {}", what()), &[ended], &[1]);
    if by_floor::refusal(with.floor).is_some() {
        comparison.equal(|_| format!("bytes read by {}", what()), &[read], &[0]);
    }
}

/// A word, or the ends of a long one.
fn shown(word: &[u8]) -> String {
    let text = String::from_utf8_lossy(word);
    match word.len() {
        0..100 => text.into_owned(),
        length => format!("{} .. ({length} bytes)", text.chars().take(30).collect::<String>()),
    }
}

/// A file of these bytes without a name, to be read from its beginning.
fn file_with(bytes: &[u8]) -> File {
    let path = std::env::temp_dir().join(format!("keccak-tables-floors-{}", std::process::id()));
    let file = File::options()
        .read(true)
        .write(true)
        .create(true)
        .truncate(true)
        .open(&path);
    let mut file = file.expect("the file can be written");
    fs::remove_file(&path).expect("the file can be removed");
    file.write_all(bytes)
        .and_then(|()| file.rewind())
        .expect("the file can be written");
    file
}

/// A file: empty, of a few records, some of them off the eight, or with a fault.
fn file(words: &mut Words) -> Vec<u8> {
    let n = [0, 0, 1, 2, 5][words.below(5) as usize];
    let mut ops = words.operations(n);
    for operation in ops.chunks_exact_mut(OP_WORDS) {
        if words.below(6) == 0 {
            operation[1] = words.unaligned_address();
        }
    }
    let mut file = file_of(&ops);
    if words.below(6) == 0 {
        file.push(words.word() as u8);
    }
    file
}

/// A drawn word: `shipped`, floors and others as decimals, with zeros in front, and these damaged.
fn drawn(words: &mut Words) -> Vec<u8> {
    let choice = |words: &mut Words, numbers: &[u64]| numbers[words.below(numbers.len() as u64) as usize];
    let floor = choice(words, &FLOORS).to_string().into_bytes();
    match words.below(12) {
        0 | 1 => b"shipped".to_vec(),
        2 | 3 => floor,
        4 => with_zeros(words, 40, &floor),
        5 => choice(words, &REFUSED).to_string().into_bytes(),
        6 => {
            // About multiples of 2^64, which a reading mod 2^64 would take for a floor.
            let beyond = u128::from(words.below(4)) << 64;
            let near = beyond + u128::from(choice(words, &FLOORS)) - u128::from(words.below(2) * 4);
            with_zeros(words, 3, near.to_string().as_bytes())
        }
        7 => with_zeros(words, 30_000, &floor),
        8 => {
            let length = 1 + words.below(25);
            (0..length).map(|_| b'0' + words.below(10) as u8).collect()
        }
        9 => (0..words.below(12)).map(|_| byte(words)).collect(),
        10 => damaged(words, b"shipped"),
        _ => damaged(words, &floor),
    }
}

/// Up to so many zeros, and then these digits.
fn with_zeros(words: &mut Words, most: u64, digits: &[u8]) -> Vec<u8> {
    [&vec![b'0'; words.below(most + 1) as usize], digits].concat()
}

/// A byte that an argument can have.
fn byte(words: &mut Words) -> u8 {
    1 + words.below(255) as u8
}

/// A word with a byte put in, changed or left out.
fn damaged(words: &mut Words, word: &[u8]) -> Vec<u8> {
    let mut word = word.to_vec();
    let at = words.below(word.len() as u64) as usize;
    match words.below(4) {
        0 => word.insert(at, byte(words)),
        1 => word[at] = byte(words),
        2 => word.push(byte(words)),
        _ => drop(word.remove(at)),
    }
    word
}

#[cfg(test)]
mod tests {
    use super::*;

    #[test]
    fn words_are_read_as_the_request_says() {
        let read = |words: &[&str]| {
            let words: Vec<Vec<u8>> = words.iter().map(|word| word.as_bytes().to_vec()).collect();
            let with = reading(&words);
            (with.floor, with.shipped)
        };
        assert_eq!(read(&[]), (4, false));
        assert_eq!(read(&["shipped"]), (4, true));
        assert_eq!(read(&["0008", "shipped"]), (8, true));
        assert_eq!(read(&["shipped", "8", "16"]), (16, true));
        assert_eq!(read(&["x", "8"]), (8, false));
        assert_eq!(read(&["8", "x"]), (0, false));
        assert_eq!(read(&["8", ""]), (0, false));
        assert_eq!(read(&["18446744073709551615"]), (u64::MAX, false));
        assert_eq!(read(&["18446744073709551616"]), (0, false));
        assert_eq!(read(&["18446744073709551624"]), (0, false));
        assert_eq!(read(&["000000000000000000018446744073709551615"]), (u64::MAX, false));
        assert_eq!(read(&["٨"]), (0, false));
    }
}
