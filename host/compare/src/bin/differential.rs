//! The proved tables against the published Rust, area by area. The first line has the seed, from which everything is drawn;
//! the last line reads `compared W words, 0 differences`. The first difference names its input and ends the run with exit
//! status 1. `all` runs every area of `AREAS` in turn, with one sum at the end.

use std::process::ExitCode;

use compare::comparison::Comparison;
use compare::{
    charge, floors, jobs, limit, lines, looked_up, message, month, permutation, refusals, registers, rounds, rows,
    same, say, tally, tuples, values, verdicts,
};

/// An area: it compares with a seed and a number of drawn inputs.
type Area = fn(&mut Comparison, u64, usize);

/// The areas, in the order in which `all` runs them.
const AREAS: [(&str, Area); 18] = [
    ("rows", rows::compare),
    ("looked_up", looked_up::compare),
    ("charge", charge::compare),
    ("registers", registers::compare),
    ("values", values::compare),
    ("tuples", tuples::compare),
    ("tally", tally::compare),
    ("verdict", verdicts::compare),
    ("line", lines::compare),
    ("job", jobs::compare),
    ("rounds", rounds::compare),
    ("floors", floors::compare),
    ("month", month::compare),
    ("permutation", permutation::compare),
    ("message", message::compare),
    ("same", same::compare),
    ("refusals", refusals::compare),
    ("limit", limit::compare),
];

const USAGE: &str = "\
usage: differential all [SEED [N]]       (each of these in turn)
       differential rows [SEED [N]]      (N drawn operations)
       differential looked_up [SEED [N]] (N drawn lists of keys)
       differential charge [SEED [N]]    (N / 20 lists of 0 to 90 operations)
       differential registers [SEED [N]] (7 and N / 50 histories of registers, each with another)
       differential values [SEED [N]]    (N drawn rows of each kind)
       differential tuples [SEED [N]]    (N drawn rows of each kind)
       differential verdict [SEED [N]]   (N changes of words, N of rows, N / 10 tables of many calls)
       differential line [SEED [N]]      (N changes of words, N of rows)
       differential job [SEED [N]]       (N / 10 drawn jobs of 0 to 12 segments, each in eight forms)
       differential rounds [SEED [N]]    (every number of rounds; N changes of words, N of rows, N / 20 pairs of tables of many calls)
       differential floors [SEED [N]]    (every floor; 4 N runs of the kit's program tally with drawn arguments)
       differential month [SEED [N]]     (every number of rounds and floor; N drawn months)
       differential permutation [SEED [N]] (N drawn states of each number of rounds)
       differential message [SEED [N]]   (every length to 420; N / 20 long messages, N / 10 lists of eight lengths)
       differential same [SEED [N]]      (written and named tables and files; 8 N drawn ones, N / 10 long ones)
       differential tally [SEED [N]]     (N drawn files)
       differential refusals [SEED [N]]  (N / 20 times the drawn lists)
       differential limit [SEED]         (files of 37 GB; N has no part in it)
Seed 1 and 300 where none is given.";

fn main() -> ExitCode {
    say::begin();
    let arguments: Vec<String> = std::env::args().skip(1).collect();
    let arguments: Vec<&str> = arguments.iter().map(String::as_str).collect();
    let (area, numbers) = match arguments.split_first() {
        Some((&area, numbers)) if numbers.len() <= 2 => (area, numbers),
        _ => return usage(),
    };
    let Ok(numbers) = numbers.iter().map(|text| text.parse()).collect::<Result<Vec<u64>, _>>() else {
        return usage();
    };
    let seed = numbers.first().copied().unwrap_or(1);
    let n = numbers.get(1).map_or(300, |&n| n as usize);

    let chosen: Vec<(&str, Area)> = AREAS
        .into_iter()
        .filter(|(name, _)| [name, "all"].contains(&area))
        .collect();
    if chosen.is_empty() {
        return usage();
    }
    say!("differential {area} {seed} {n}");
    let mut comparison = Comparison::to_the_first_difference();
    for (_, compare) in chosen {
        compare(&mut comparison, seed, n);
    }
    comparison.finish()
}

fn usage() -> ExitCode {
    eprintln!("{USAGE}");
    ExitCode::from(2)
}
