//! Every number of rounds: round tables against the published Rust's rows of the same rounds and against plain lanes, heights, padding
//! lookups, the constants' multiplicities, core tuples, verdicts and their lines, charges; and refusals.

pub mod pairs;
pub mod refusals;

use keccak_tables::{OP_WORDS, Parameters, keccak, keccak_rc, keccak_rnd};
use oracle::lanes::State;

use crate::by_rounds::{self, ALL};
use crate::charge;
use crate::comparison::Comparison;
use crate::dishonest::{Tables, pairs as pairs_of_all_rounds};
use crate::evaluated::{CORE, lend};
use crate::inputs::{Words, number, states};
use crate::lent::Lent;
use crate::lines::line_of;
use crate::rows::tables::{heights_by, round_tables_by};
use crate::tally::drawn_mode;
use crate::tuple_list::{at_once, tuples};
use crate::verdicts::{changed, judged, many_calls, moved_and_changed};

/// The whole area: every number of rounds in turn, and `n` changes of words and of rows, of tables of drawn numbers of rounds.
pub fn compare(comparison: &mut Comparison, seed: u64, n: usize) {
    let mut words = Words::new(seed);
    comparison.group("round tables of 1 to 24 rounds, of 0 to 3 and of drawn numbers of operations");
    for nr in 1..=ALL {
        for n in [0, 1, 2, 3, 4 + words.below(20) as usize] {
            let ops = words.operations(n);
            round_tables_by(comparison, &mut words, Parameters::default().rounds(nr), &ops);
        }
    }
    comparison.group("states of 1 to 24 rounds, against plain lanes");
    for nr in 1..=ALL {
        states_by(comparison, &mut words, nr);
    }
    comparison.group("heights and padding lookups of 1 to 24 rounds");
    (1..=ALL).for_each(|nr| heights_by(comparison, Parameters::default().rounds(nr)));
    comparison.group("multiplicities of constants of 1 to 24 rounds");
    (1..=ALL).for_each(|nr| multiplicities(comparison, &mut words, nr));
    comparison.group("tuples of core rows of 1 to 24 rounds");
    (1..=ALL).for_each(|nr| core_tuples(comparison, &mut words, nr));
    judge_all(comparison, &mut words, seed, n);
    comparison.group("charges and looks of 1 to 24 rounds");
    for nr in 1..=ALL {
        let ops = words.below(9) as usize;
        let (ops, with) = (words.operations(ops), drawn_mode(&mut words).rounds(nr));
        charge::once(comparison, &mut words, with, &ops);
    }
    refusals::compare(comparison, &mut words);
}

/// The lanes of a state's 200 bytes.
fn lanes(bytes: &[u64]) -> State {
    std::array::from_fn(|lane| number(&bytes[8 * lane..][..8]))
}

/// START of each row, and what the last row of each operation hands on, which is Keccak-p of its input: of drawn states and those at an edge.
fn states_by(comparison: &mut Comparison, words: &mut Words, nr: u64) {
    let edges = states();
    let mut ops = words.operations(8);
    for operation in ops.chunks_exact_mut(OP_WORDS).take(6) {
        let edge = edges[words.below(edges.len() as u64) as usize];
        operation[2..27].copy_from_slice(&edge);
    }
    ops[2..27].fill(0);
    let input = || format!("the states of {nr} rounds of {ops:?}");
    let with = Parameters::default().rounds(nr);
    let Some(table) = comparison.done(input, keccak_rnd::keccak_rnd_table_with(with, &ops)) else {
        return;
    };
    let calls = table.chunks_exact(keccak_rnd::NUM_COLUMNS * nr as usize);
    for (rows, operation) in calls.zip(ops.chunks_exact(OP_WORDS)) {
        let expected = by_rounds::states(nr, operation[2..27].try_into().expect("25 lanes"));
        let rows = rows.chunks_exact(keccak_rnd::NUM_COLUMNS);
        let starts = rows.clone().map(|row| lanes(&row[keccak_rnd::cols::START..]));
        let ours: Vec<State> = starts.chain(rows.last().map(sent_on)).collect();
        comparison.equal(|_| input(), ours.as_flattened(), expected.as_flattened());
    }
}

/// The state that a round row sends.
fn sent_on(row: &[u64]) -> State {
    let mut state = lanes(&row[keccak_rnd::cols::CHI..]);
    state[0] = number(&row[keccak_rnd::cols::IOTA..][..8]);
    state
}

/// The multiplicities, in a table as it is written and in one of drawn words, of which all others stay.
fn multiplicities(comparison: &mut Comparison, words: &mut Words, nr: u64) {
    let with = Parameters::default().rounds(nr);
    for n in [0, 1, 7, 65_536, keccak_tables::MAX_OPS as u64] {
        let drawn = words.take(keccak_rc::TABLE_WORDS);
        for before in [oracle::keccak_rc_table(3), drawn] {
            let mut expected = before.clone();
            for (round, row) in (0..ALL).zip(expected.chunks_exact_mut(keccak_rc::NUM_COLUMNS)) {
                row[9] = if round < by_rounds::first_round(nr) { 0 } else { n };
            }
            let mut table = Lent::new(&[before, words.take(words_past(nr))].concat(), words);
            let input = || format!("the multiplicities of {n} operations of {nr} rounds");
            comparison.done(input, keccak_rc::update_multiplicities_with(with, table.slice(), n));
            table.holds(comparison, |_| input(), &expected);
        }
    }
}

/// A slice may be lent longer than it has to be.
fn words_past(nr: u64) -> usize {
    nr as usize % 3
}

/// All tuples of written, padding and drawn core rows, by index and at once.
fn core_tuples(comparison: &mut Comparison, words: &mut Words, nr: u64) {
    let with = Parameters::default().rounds(nr);
    let written = keccak::keccak_table(&words.operations(3)).expect("drawn operations are accepted");
    let mut rows: Vec<Vec<u64>> = written.chunks_exact(CORE.columns).map(<[u64]>::to_vec).collect();
    rows.extend((0..4).map(|_| (0..CORE.columns).map(|_| words.element()).collect::<Vec<u64>>()));
    for row in rows {
        let syscall = words.word();
        let what = format!("a core row of {nr} rounds, system call {syscall}");
        lend(
            comparison,
            words,
            &what,
            &row,
            &mut |comparison: &mut Comparison, words: &mut Words, what: &str, row: &[u64]| {
                let expected = by_rounds::core_tuples(nr, &row[..CORE.columns], syscall);
                let one = |row: &[u64], index: usize, out: &mut [u64]| {
                    keccak::bus_interaction_with(with, row, index, syscall, out)
                };
                tuples(comparison, words, || what.into(), row, one, &expected);
                let all = |row: &[u64], out: &mut [u64]| keccak::bus_interactions_with(with, row, syscall, out);
                at_once(comparison, words, || what.into(), row, all, &expected);
            },
        );
    }
}

/// Verdicts and lines.
fn judge_all(comparison: &mut Comparison, words: &mut Words, seed: u64, n: usize) {
    comparison.group("tables of 1 to 24 rounds, judged by every number from 0 to 25");
    for nr in 1..=ALL {
        let tables = Tables::written_by(nr, 1, words);
        for by in (0..=ALL + 1).chain([u64::MAX]) {
            let input = |_| format!("a table of {nr} rounds by {by}, seed {seed}");
            let theirs = judged(comparison, words, &input, by, &tables);
            comparison.equal(input, &theirs.words(), &pairs::by_another(nr, by).words());
            line_of(comparison, words, &|| input(0), (by, &tables), theirs);
        }
    }
    comparison.group("named pairs of tables of 1 to 24 rounds, against the judge and against thought, and their lines");
    for nr in 1..=ALL {
        for (name, make) in pairs::NAMED {
            let (tables, expected) = make(nr, words);
            let input = |_| format!("the pair '{name}' of {nr} rounds of seed {seed}");
            let theirs = judged(comparison, words, &input, nr, &tables);
            comparison.equal(input, &theirs.words(), &expected.words());
            line_of(comparison, words, &|| input(0), (nr, &tables), theirs);
        }
    }
    comparison.group("the named pairs of tables of 24 rounds, by another number");
    for pair in pairs_of_all_rounds(seed) {
        let nr = words.rounds();
        let input = |_| format!("the pair '{}' of seed {seed} by {nr} rounds", pair.name);
        judged(comparison, words, &input, nr, &pair.tables);
    }
    comparison.group("tables of drawn numbers of rounds with words changed, rows exchanged, copied, dropped or shuffled, and their lines");
    for change in 0..2 * n {
        drawn_change(comparison, words, seed, change);
    }
    comparison.group("tables of 30 calls of drawn numbers of rounds in a drawn order, with up to two rows moved");
    for _ in 0..n.div_ceil(20) {
        let nr = words.rounds();
        many_calls(comparison, words, nr, seed, 2);
    }
}

/// Changes of words, or of rows, judged by the tables' own number or now and then by another.
fn drawn_change(comparison: &mut Comparison, words: &mut Words, seed: u64, change: usize) {
    let (nr, calls) = (words.rounds(), words.below(5) as usize);
    let by = if words.below(4) == 0 { words.any_rounds() } else { nr };
    let mut tables = Tables::written_by(nr, calls, words);
    let changes = if change.is_multiple_of(2) {
        changed(&mut tables, words)
    } else {
        moved_and_changed(&mut tables, words)
    };
    let input = |_| format!("change {change} of seed {seed} of {calls} calls of {nr} rounds by {by}:{changes}");
    let theirs = judged(comparison, words, &input, by, &tables);
    line_of(comparison, words, &|| input(0), (by, &tables), theirs);
}
