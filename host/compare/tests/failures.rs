//! The list of all failures against the verdict, which names the first, and against rules that are broken by hand.

use compare::dishonest::{Tables, pairs};
use compare::inputs::Words;
use compare::rounds::pairs::NAMED;
use keccak_tables::Parameters;
use keccak_tables::verdict::verdict_with;
use program::failures::failures;

fn by(rounds: u64) -> Parameters {
    Parameters::default().rounds(rounds)
}

fn lines(rounds: u64, tables: &Tables) -> Vec<String> {
    let found = failures(by(rounds), &tables.core, &tables.round, &mut |_| ());
    let found = found.expect("tables of whole rows and elements");
    found.iter().map(ToString::to_string).collect()
}

/// On every named pair, honest or not: no failure where it holds, and else the verdict's first; none twice.
#[test]
fn the_first_failure_is_the_verdict() {
    for seed in 1..4 {
        for pair in pairs(seed) {
            is_first(&format!("{} of seed {seed}", pair.name), 24, &pair.tables);
        }
    }
}

/// The same by every number of rounds, of tables of that number and of 24.
#[test]
fn the_first_failure_is_the_verdict_of_any_number_of_rounds() {
    let mut words = Words::new(1);
    for rounds in 1..=24 {
        for (name, make) in NAMED {
            let (tables, _) = make(rounds, &mut words);
            is_first(&format!("{name} of {rounds} rounds"), rounds, &tables);
        }
        let tables = Tables::written(1, &mut words);
        is_first(&format!("24 rounds by {rounds}"), rounds, &tables);
    }
}

fn is_first(name: &str, rounds: u64, tables: &Tables) {
    let Ok(answer) = verdict_with(by(rounds), &tables.core, &tables.round) else {
        return;
    };
    let found = lines(rounds, tables);
    let first = found.first().map(String::as_str);
    let expected = answer.to_string();
    assert_eq!(first, (!answer.holds()).then_some(expected.as_str()), "{name}");
    let mut once = found.clone();
    once.sort();
    once.dedup();
    assert_eq!(once.len(), found.len(), "{name}");
}

/// Failures of several kinds, in the verdict's order, and what each brings with it: a false low carry a false high one, a word of THETA
/// its lookup, another timestamp both ends of a chain.
#[test]
fn every_failure_is_named_in_order() {
    let mut tables = Tables::written(4, &mut Words::new(7));
    tables.core_row(0)[410] += 8;
    let stamp: Vec<u64> = tables.core_row(1)[..2].to_vec();
    tables.core_row(2)[..2].copy_from_slice(&stamp);
    tables.round_row(30)[463] ^= 1;
    tables.core_row(3)[210] ^= 1;
    let found = lines(24, &tables);
    let expected = [
        "core row 0 value 0",
        "core row 0 value 1",
        "core row 2 timestamp 0",
        "round row 30 value 40",
        "round row 30 lookup 223",
        "core row 2 balance 2",
        "core row 2 balance 3",
        "core row 3 balance 3",
        "round row 48 balance 0",
        "round row 71 balance 1",
        "round row 95 balance 1",
    ];
    assert_eq!(found, expected);
}
