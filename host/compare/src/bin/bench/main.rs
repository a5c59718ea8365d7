//! Times the proved calls against the published Rust's on the same inputs: `bench rows`, `bench lookups`, `bench looked_up`,
//! `bench values`, `bench tuples`, `bench verdict`; and what has no counterpart there: `bench charge`, `bench job`, `bench same`, `bench cores`,
//! `bench tally`, `bench orders`, `bench shuffled`, `bench descending`.
//! `bench all` runs each in turn, but for `same`, `orders`, `shuffled` and `descending`, which can take minutes, and ends with a table of the ratios.
//! It prints for each call the best of several runs, ours and theirs in turn, and lines `ratio NAME X.XX`: our time over
//! theirs. The comment at the top of each area's file says what is timed.

mod charge;
mod cores;
mod descending;
mod job;
mod looked_up;
mod lookups;
mod orders;
mod rows;
mod same;
mod shuffled;
mod tally;
mod timing;
mod tuples;
mod values;
mod verdict;

use std::process::ExitCode;

const USAGE: &str = "\
usage: bench all | bench rows | bench lookups | bench looked_up | bench charge | bench values | bench tuples | bench verdict | bench job
       bench same | bench cores
       bench tally [BYTES]      (of the operation file; 1000000000 where none are given)
       bench orders [CALLS]     (100, 1000 and 2730 in turn where none are given, and then two tables of rows of one kind)
       bench shuffled [CALLS]   (100 where none are given)
       bench descending [CALLS] (1000 where none are given)
BYTES and CALLS are 1 or more.";

fn main() -> ExitCode {
    compare::say::begin();
    let arguments: Vec<String> = std::env::args().skip(1).collect();
    let arguments: Vec<&str> = arguments.iter().map(String::as_str).collect();
    let (area, number) = match arguments[..] {
        [area] => (area, None),
        [area, number] => match number.parse() {
            Ok(number) if number > 0 => (area, Some(number)),
            _ => return usage(),
        },
        _ => return usage(),
    };
    match (area, number) {
        ("rows", None) => rows::run(),
        ("lookups", None) => lookups::run(),
        ("looked_up", None) => looked_up::run(),
        ("charge", None) => charge::run(),
        ("values", None) => values::run(),
        ("tuples", None) => tuples::run(),
        ("verdict", None) => verdict::run(),
        ("job", None) => job::run(),
        ("same", None) => same::run(),
        ("cores", None) => cores::run(),
        ("tally", bytes) => tally::run(bytes.unwrap_or(tally::BYTES)),
        ("orders", calls) => orders::run(calls),
        ("shuffled", calls) => shuffled::run(calls.unwrap_or(shuffled::CALLS)),
        ("descending", calls) => descending::run(calls.unwrap_or(descending::CALLS)),
        ("all", None) => {
            for run in [
                rows::run,
                cores::run,
                lookups::run,
                looked_up::run,
                charge::run,
                values::run,
                tuples::run,
                verdict::run,
                job::run,
            ] {
                run();
            }
            tally::run(tally::BYTES);
            timing::table();
        }
        _ => return usage(),
    }
    ExitCode::SUCCESS
}

fn usage() -> ExitCode {
    eprintln!("{USAGE}");
    ExitCode::from(2)
}
