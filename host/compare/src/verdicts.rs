//! The proved verdict against the independent judge's, in memory that is lent and without any: on every named pair of tables, on those of
//! `verdict_cases`, on the same calls in several orders, and on written tables of which one or two words were changed or rows exchanged,
//! copied, dropped and shuffled.

use keccak_tables::verdict::{
    Table, Verdict, verdict, verdict_alone, verdict_alone_with, verdict_with, verdict_within, verdict_within_with,
};
use keccak_tables::{P, Parameters, Refusal, keccak, keccak_rnd};

use crate::by_rounds::ALL;
use crate::comparison::Comparison;
use crate::dishonest::{Tables, exchange, pairs, shuffle};
use crate::inputs::Words;
use crate::orders::{self, ORDERS};
use crate::scratch::Scratch;
use crate::{cases, judge};

/// The calls of the tables of many calls.
const CALLS: usize = 30;

/// The whole area: the named pairs, `n` drawn changes of words, as many of rows, and a tenth as many tables of many calls.
pub fn compare(comparison: &mut Comparison, seed: u64, n: usize) {
    let mut words = Words::new(seed);
    comparison.group("named pairs of tables, against the judge and against thought");
    for pair in pairs(seed) {
        let input = |_| format!("the pair '{}' of seed {seed}", pair.name);
        let theirs = judged(comparison, &mut words, &input, ALL, &pair.tables);
        comparison.equal(input, &theirs.words(), &pair.expected.words());
    }
    small_and_ordered(comparison, &mut words, seed);

    let written: Vec<Tables> = (0..5).map(|calls| Tables::written(calls, &mut words)).collect();
    comparison.group("written tables with one or two words changed");
    for change in 0..n {
        let mut tables = written[words.below(5) as usize].clone();
        let mut changes = String::new();
        for _ in 0..=words.below(2) {
            changes += &changed(&mut tables, &mut words);
        }
        let input = |_| format!("change {change} of seed {seed}:{changes}");
        judged(comparison, &mut words, &input, ALL, &tables);
    }
    comparison
        .group("written tables with rows exchanged, copied, dropped or shuffled, and now and then a word changed");
    for change in 0..n {
        let mut tables = written[words.below(5) as usize].clone();
        let changes = moved_and_changed(&mut tables, &mut words);
        let input = |_| format!("move {change} of seed {seed}:{changes}");
        judged(comparison, &mut words, &input, ALL, &tables);
    }
    comparison.group("tables of 30 calls in a drawn order, of rows or of calls, with up to two rows moved");
    many_calls(comparison, &mut words, ALL, seed, n.div_ceil(10));
}

/// The tables of `verdict_cases`, and tables of 0 to 3 and of many calls in every order.
fn small_and_ordered(comparison: &mut Comparison, words: &mut Words, seed: u64) {
    comparison.group("the tables of verdict_cases, and tables of the same calls in every order");
    for (name, tables) in cases::tables() {
        judged(comparison, words, &|_| format!("the case '{name}'"), ALL, &tables);
    }
    for calls in [1, 2, 3, CALLS] {
        let written = orders::written(calls, words);
        for (name, order) in ORDERS {
            let mut tables = written.clone();
            order(&mut tables, calls, words);
            let input = |_| format!("{calls} calls of seed {seed} in the order '{name}'");
            judged(comparison, words, &input, ALL, &tables);
        }
    }
}

/// Moves rows, one to four times, and now and then changes a word; says what was done.
pub(crate) fn moved_and_changed(tables: &mut Tables, words: &mut Words) -> String {
    let mut changes = String::new();
    for _ in 0..=words.below(4) {
        changes += &moved(tables, words);
    }
    if words.below(3) == 0 {
        changes += &changed(tables, words);
    }
    changes
}

/// Tables of many calls whose round rows are in a drawn order, or with whole calls in a drawn order, and up to two rows moved: what the
/// search for chains and the counts go through.
pub(crate) fn many_calls(comparison: &mut Comparison, words: &mut Words, nr: u64, seed: u64, n: usize) {
    let written = Tables::written_by(nr, CALLS, words);
    let call = nr as usize * keccak_rnd::NUM_COLUMNS;
    for table in 0..n {
        let mut tables = written.clone();
        let width = [call, keccak_rnd::NUM_COLUMNS][table % 2];
        shuffle(&mut tables.round[..CALLS * call], width, words);
        let mut changes = String::new();
        for _ in 0..words.below(3) {
            changes += &moved(&mut tables, words);
        }
        let input = |_| format!("table {table} of many calls of {nr} rounds of seed {seed}:{changes}");
        judged(comparison, words, &input, nr, &tables);
    }
}

/// The judge's verdict on two tables by nr rounds, against which ours is held: with memory of its own, without, and in every scratch. Where
/// the rounds are all 24, by the calls that take no parameters.
pub(crate) fn judged(
    comparison: &mut Comparison,
    words: &mut Words,
    input: &dyn Fn(usize) -> String,
    nr: u64,
    tables: &Tables,
) -> judge::Verdict {
    let Tables { core, round } = tables;
    let with = Parameters::default().rounds(nr);
    let theirs = judge::verdict_by(nr, core, round);
    let [own, alone] = match nr {
        ALL => [verdict(core, round), verdict_alone(core, round)],
        _ => [verdict_with(with, core, round), verdict_alone_with(with, core, round)],
    };
    answered(comparison, "verdict_within", input, own, theirs);
    answered(comparison, "verdict", input, alone, theirs);
    for mut scratch in Scratch::each(core, round, words) {
        let ours = match nr {
            ALL => verdict_within(core, round, scratch.slice()),
            _ => verdict_within_with(with, core, round, scratch.slice()),
        };
        let theirs = scratch.verdict(theirs);
        answered(comparison, "verdict_within", input, ours, theirs);
        let was_used = !matches!(theirs, judge::Verdict::Refused(..));
        scratch.left(comparison, || input(0), was_used);
    }
    theirs
}

/// Our answer is to be this verdict; the number is noted by the archive's call.
fn answered(
    comparison: &mut Comparison,
    call: &'static str,
    input: &dyn Fn(usize) -> String,
    ours: Result<Verdict, Refusal>,
    theirs: judge::Verdict,
) {
    let refusal = match theirs {
        judge::Verdict::Refused(number, detail) => Some((number, detail)),
        _ => None,
    };
    comparison.answered(call, || input(0), ours, refusal);
    comparison.equal(input, &words(ours), &theirs.words());
}

/// A verdict's four words.
pub fn words(answer: Result<Verdict, Refusal>) -> [u64; 4] {
    let theirs = |table| match table {
        Table::Core => judge::Table::Core,
        Table::Round => judge::Table::Round,
    };
    match answer {
        Ok(Verdict::Holds { active }) => judge::Verdict::Holds(active),
        Ok(Verdict::Value { table, row, index }) => judge::Verdict::Value(theirs(table), row, index),
        Ok(Verdict::Lookup { table, row, index }) => judge::Verdict::Lookup(theirs(table), row, index),
        Ok(Verdict::Repeated { row }) => judge::Verdict::Timestamp(row),
        Ok(Verdict::Unbalanced { table, row, index }) => judge::Verdict::Balance(theirs(table), row, index),
        Ok(other) => unreachable!("the scope has no verdict {other}"),
        Err(refusal) => judge::Verdict::Refused(refusal.number(), refusal.detail()),
    }
    .words()
}

/// One of the two tables, with its name and width; the round table more often.
fn one_of<'a>(tables: &'a mut Tables, words: &mut Words) -> (&'static str, &'a mut Vec<u64>, usize) {
    if words.below(3) == 0 {
        ("core", &mut tables.core, keccak::NUM_COLUMNS)
    } else {
        ("round", &mut tables.round, keccak_rnd::NUM_COLUMNS)
    }
}

/// So many rows, from the first, that most often all of them are active as written.
fn rows_to_change(table: &[u64], width: usize, words: &mut Words) -> usize {
    let active = table.chunks_exact(width).filter(|row| row[width - 1] == 1).count();
    if active > 0 && words.below(4) > 0 {
        active
    } else {
        table.len() / width
    }
}

/// Moves rows of a table, and says which.
fn moved(tables: &mut Tables, words: &mut Words) -> String {
    let (name, table, width) = one_of(tables, words);
    if table.is_empty() {
        return String::new();
    }
    let rows = rows_to_change(table, width, words) as u64;
    let [a, b] = [(); 2].map(|()| words.below(rows) as usize);
    let all = a * width..(a + 1) * width;
    match words.below(8) {
        0 => {
            table.copy_within(all, b * width);
            format!(" {name} row {a} copied over row {b};")
        }
        1 => {
            table.drain(all);
            format!(" {name} row {a} dropped;")
        }
        2 => {
            table.extend_from_within(all);
            format!(" {name} row {a} doubled at the end;")
        }
        3 => {
            shuffle(table, width, words);
            format!(" {name} shuffled;")
        }
        4 => {
            // The timestamp alone: a row of one call filed under another.
            for word in 0..2 {
                table[b * width + word] = table[a * width + word];
            }
            format!(" {name} row {b} with the timestamp of row {a};")
        }
        _ => {
            exchange(table, width, a, b);
            format!(" {name} rows {a} and {b} exchanged;")
        }
    }
}

/// Changes a word, most often one of an active row, and says which.
pub(crate) fn changed(tables: &mut Tables, words: &mut Words) -> String {
    let (name, table, width) = one_of(tables, words);
    if table.is_empty() {
        return String::new();
    }
    let rows = rows_to_change(table, width, words);
    let row = words.below(rows as u64) as usize;
    // The two timestamp words, ROUND and MU are few among the columns.
    let column = match words.below(8) {
        0 => words.below(3) as usize,
        1 => width - 1,
        _ => words.below(width as u64) as usize,
    };
    let was = table[row * width + column];
    let word = match words.below(12) {
        0 => words.below(2),
        1 => 256,
        2 => P - 1,
        3 => P + words.below(2),
        4 => words.element(),
        5 => table[words.below(rows as u64) as usize * width + column],
        6 => was + 1,
        7 => was.wrapping_sub(1).min(P - 1),
        _ => was ^ 1 << words.below(8),
    };
    table[row * width + column] = word;
    format!(" {name} row {row} column {column} is {word}, was {was};")
}
