//! Prints the oracle's answers as decimal numbers, one item a line, numbers separated by single spaces.

use std::io::{self, BufWriter, Read, Write};
use std::process::ExitCode;

use oracle::{Lookup, OPERATION_WORDS, Tuple, sample};

const USAGE: &str = "\
usage: oracle row bitwise INDEX | row keccak_rc ROUND | table keccak_rc N | padding_are_bytes N
       oracle table core | table round | keys | tally            (operations of 53 words on standard input)
       oracle counts                                             (lookups on standard input: kind, x, y, z)
       oracle values core | values round                         (rows on standard input)
       oracle tuples bitwise | tuples keccak_rc | tuples is_wh | tuples core SYSCALL | tuples round
                                                                 (rows on standard input)
       oracle operations SEED N
       oracle sample tables | sample core | sample round | sample rows | sample lookups | sample evaluations
Words on standard input are decimal, separated by white space.";

/// One line of numbers.
type Line = Vec<u64>;

fn main() -> ExitCode {
    let arguments: Vec<String> = std::env::args().skip(1).collect();
    let arguments: Vec<&str> = arguments.iter().map(String::as_str).collect();
    let printed = match arguments.as_slice() {
        ["tally"] => words_given().and_then(|operations| print_tally(&operations)),
        other => answer(other).and_then(|lines| print(&lines)),
    };
    match printed {
        Ok(()) => ExitCode::SUCCESS,
        Err(message) => {
            eprintln!("{message}");
            ExitCode::FAILURE
        }
    }
}

fn answer(arguments: &[&str]) -> Result<Vec<Line>, String> {
    Ok(match arguments {
        ["row", "bitwise", index] => vec![oracle::bitwise_row(number(index)? as usize).to_vec()],
        ["row", "keccak_rc", round] => vec![oracle::keccak_rc_row(number(round)? as usize).to_vec()],
        ["table", "keccak_rc", n] => lines(&oracle::keccak_rc_table(number(n)? as usize), oracle::KECCAK_RC_COLUMNS)?,
        ["padding_are_bytes", n] => vec![vec![oracle::padding_are_bytes(number(n)? as usize)]],
        ["table", "core"] => lines(&oracle::core_table(&words_given()?), oracle::CORE_COLUMNS)?,
        ["table", "round"] => lines(&oracle::round_table(&words_given()?), oracle::ROUND_COLUMNS)?,
        ["keys"] => lines(&oracle::is_wh_keys(&words_given()?), 2)?,
        ["counts"] => counts_given()?,
        ["values", "core"] => rows_given(oracle::CORE_COLUMNS, |row| vec![oracle::core_values(row)])?,
        ["values", "round"] => rows_given(oracle::ROUND_COLUMNS, |row| vec![oracle::round_values(row)])?,
        ["tuples", "bitwise"] => tuples_given(oracle::BITWISE_COLUMNS, oracle::bitwise_tuples)?,
        ["tuples", "keccak_rc"] => tuples_given(oracle::KECCAK_RC_COLUMNS, oracle::keccak_rc_tuples)?,
        ["tuples", "is_wh"] => tuples_given(oracle::IS_WH_COLUMNS, oracle::is_wh_tuples)?,
        ["tuples", "core", syscall] => {
            let syscall = number(syscall)?;
            tuples_given(oracle::CORE_COLUMNS, |row| oracle::core_tuples(row, syscall))?
        }
        ["tuples", "round"] => tuples_given(oracle::ROUND_COLUMNS, oracle::round_tuples)?,
        ["operations", seed, n] => lines(&sample::operations(number(seed)?, number(n)? as usize), OPERATION_WORDS)?,
        ["sample", "tables"] => sample::tables(),
        ["sample", "core"] => sample::core(),
        ["sample", "round"] => sample::round(),
        ["sample", "rows"] => sample::rows(),
        ["sample", "lookups"] => sample::lookups(),
        ["sample", "evaluations"] => sample::evaluations(),
        _ => return Err(USAGE.into()),
    })
}

fn number(text: &str) -> Result<u64, String> {
    text.parse().map_err(|_| format!("{text} is no number below 2^64"))
}

/// The words on standard input.
fn words_given() -> Result<Vec<u64>, String> {
    let mut text = String::new();
    io::stdin()
        .read_to_string(&mut text)
        .map_err(|error| error.to_string())?;
    text.split_whitespace().map(number).collect()
}

/// Words as rows, one a line.
fn lines(words: &[u64], width: usize) -> Result<Vec<Line>, String> {
    if !words.len().is_multiple_of(width) {
        return Err(format!("{} words are no whole rows of {width}", words.len()));
    }
    Ok(words.chunks_exact(width).map(<[u64]>::to_vec).collect())
}

/// What `answer` says of each row on standard input.
fn rows_given(width: usize, answer: impl Fn(&[u64]) -> Vec<Line>) -> Result<Vec<Line>, String> {
    Ok(lines(&words_given()?, width)?
        .iter()
        .flat_map(|row| answer(row))
        .collect())
}

/// The counters that are not 0 after the lookups on standard input: place, count.
fn counts_given() -> Result<Vec<Line>, String> {
    let byte = |word: u64| u8::try_from(word).map_err(|_| format!("{word} is no byte"));
    let lookup = |words: &Line| -> Result<Lookup, String> {
        let [kind, x, y, z] = words[..] else {
            unreachable!("lookups are lines of four")
        };
        Ok(Lookup {
            kind: kind as usize,
            x: byte(x)?,
            y: byte(y)?,
            z: byte(z)?,
        })
    };
    let lookups: Result<Vec<Lookup>, String> = lines(&words_given()?, 4)?.iter().map(lookup).collect();
    Ok(oracle::bitwise_counts(&lookups?)
        .into_iter()
        .map(|(place, count)| vec![place as u64, count])
        .collect())
}

/// The tuples of each row on standard input: bus, side, multiplicity, length, values.
fn tuples_given(width: usize, tuples: impl Fn(&[u64]) -> Vec<Tuple>) -> Result<Vec<Line>, String> {
    rows_given(width, |row| tuples(row).iter().map(sample::tuple_numbers).collect())
}

fn print(lines: &[Line]) -> Result<(), String> {
    let mut out = BufWriter::new(io::stdout().lock());
    lines
        .iter()
        .try_for_each(|line| {
            let numbers: Vec<String> = line.iter().map(u64::to_string).collect();
            writeln!(out, "{}", numbers.join(" "))
        })
        .and_then(|()| out.flush())
        .map_err(|error| error.to_string())
}

fn print_tally(operations: &[u64]) -> Result<(), String> {
    let mut out = io::stdout().lock();
    oracle::tally(operations)
        .iter()
        .try_for_each(|(name, count)| writeln!(out, "{name} {count}"))
        .map_err(|error| error.to_string())
}
