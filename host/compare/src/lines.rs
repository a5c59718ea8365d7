//! The line of a verdict against one made in plain Rust, from the independent judge's verdict and the published tuples: on every named
//! pair of tables and on drawn ones, in memory that is lent and without any; and lent slices that are too short for it.

use std::collections::HashSet;

use keccak_tables::verdict::{
    LINE_MOST, verdict_line, verdict_line_alone, verdict_line_alone_with, verdict_line_with, verdict_line_within,
    verdict_line_within_with, verdict_text, verdict_text_with,
};
use keccak_tables::{Parameters, Refusal};
use oracle::{CORE_COLUMNS, ROUND_COLUMNS};

use crate::by_rounds::{self, ALL};
use crate::comparison::Comparison;
use crate::dishonest::{Tables, pairs};
use crate::inputs::Words;
use crate::judge::{self, Table, Verdict};
use crate::lent::LentBytes;
use crate::scratch::Scratch;
use crate::verdicts::{changed, moved_and_changed};

/// The whole area: the named pairs, `n` drawn changes of words and as many of rows, and every short slice of a few lines.
pub fn compare(comparison: &mut Comparison, seed: u64, n: usize) {
    let mut words = Words::new(seed);
    comparison.group("lines of named pairs of tables");
    for pair in pairs(seed) {
        let input = || format!("the line of the pair '{}' of seed {seed}", pair.name);
        one_line(comparison, &mut words, &input, ALL, &pair.tables);
    }
    let written: Vec<Tables> = (0..5).map(|calls| Tables::written(calls, &mut words)).collect();
    comparison.group("lines of written tables with words changed, or rows exchanged, copied, dropped or shuffled");
    for change in 0..2 * n {
        let mut tables = written[words.below(5) as usize].clone();
        let changes = if change % 2 == 0 {
            changed(&mut tables, &mut words)
        } else {
            moved_and_changed(&mut tables, &mut words)
        };
        let input = || format!("the line of change {change} of seed {seed}:{changes}");
        one_line(comparison, &mut words, &input, ALL, &tables);
    }
    comparison.group("lines: every slice that is too short for one of each kind");
    let mut kinds = HashSet::new();
    for pair in pairs(seed) {
        let Tables { core, round } = &pair.tables;
        if let Some(line) = line(ALL, core, round, judge::verdict(core, round))
            && kinds.insert(kind(&line))
        {
            let input = |room| format!("{room} bytes for the line of the pair '{}' of seed {seed}", pair.name);
            for room in 0..line.len() {
                let input = || input(room);
                every_call(comparison, &mut words, &input, (ALL, &pair.tables), room, Ok(&line));
            }
        }
    }
}

/// Table and rule, by the line's words.
fn kind(line: &str) -> (String, String) {
    let mut words = line.split(' ').map(str::to_string);
    let mut word = |at| words.nth(at).unwrap_or_default();
    (word(0), word(2))
}

/// The line in plain Rust of a verdict by nr rounds; one that is a refusal has none.
pub fn line(nr: u64, core: &[u64], round: &[u64], verdict: Verdict) -> Option<String> {
    let shown = match verdict {
        Verdict::Refused(..) => return None,
        Verdict::Lookup(table, row, index) | Verdict::Balance(table, row, index) => {
            let (row, index) = (row as usize, index as usize);
            let mut tuples = match table {
                Table::Core => by_rounds::core_tuples(nr, &core[row * CORE_COLUMNS..][..CORE_COLUMNS], 0),
                Table::Round => oracle::round_tuples(&round[row * ROUND_COLUMNS..][..ROUND_COLUMNS]),
            };
            let tuple = tuples.swap_remove(index);
            let values = tuple.values.iter().map(|value| format!(" {value}"));
            format!(" {:?}{}", tuple.bus, values.collect::<String>())
        }
        _ => String::new(),
    };
    Some(format!("{verdict}{shown}"))
}

/// Our line on two tables: into as many bytes as it needs and a few more, into the most, and into too few.
fn one_line(comparison: &mut Comparison, words: &mut Words, input: &dyn Fn() -> String, nr: u64, tables: &Tables) {
    let answer = judge::verdict_by(nr, &tables.core, &tables.round);
    line_of(comparison, words, input, (nr, tables), answer);
}

/// The same where the judge's verdict is known.
pub(crate) fn line_of(
    comparison: &mut Comparison,
    words: &mut Words,
    input: &dyn Fn() -> String,
    (nr, tables): (u64, &Tables),
    answer: Verdict,
) {
    let Tables { core, round } = tables;
    let Some(line) = line(nr, core, round, answer) else {
        let Verdict::Refused(number, detail) = answer else {
            unreachable!("every other verdict has a line")
        };
        let room = words.below(60) as usize;
        every_call(comparison, words, input, (nr, tables), room, Err((number, detail)));
        return;
    };
    let needed = line.len();
    comparison.equal(
        |_| format!("longer than any, {}", input()),
        &[u64::from(needed <= LINE_MOST)],
        &[1],
    );
    let room = needed + words.below(3) as usize;
    every_call(comparison, words, input, (nr, tables), room, Ok(&line));
    let text = match nr {
        ALL => verdict_text(core, round),
        nr => verdict_text_with(Parameters::default().rounds(nr), core, round),
    };
    let text = comparison.done(input, text).unwrap_or_default();
    comparison.equal(|_| input(), &bytes(&text), &bytes(&line));
    for room in [needed - 1, words.below(needed as u64) as usize] {
        every_call(comparison, words, input, (nr, tables), room, Ok(&line));
    }
}

/// Every call that writes a line, into `room` bytes: with memory of its own, without, and in every scratch, there also into as many as any
/// line may need, and one fewer. Where the rounds are all 24, by the calls that take no parameters. `judged` is the line, or the refusal of
/// the tables.
fn every_call(
    comparison: &mut Comparison,
    words: &mut Words,
    input: &dyn Fn() -> String,
    (nr, Tables { core, round }): (u64, &Tables),
    room: usize,
    judged: Result<&str, (u64, u64)>,
) {
    let with = Parameters::default().rounds(nr);
    let expected = match judged {
        Ok(line) if room < line.len() => Err((3, line.len() as u64)),
        _ => judged,
    };
    let mut lent = LentBytes::drawn(room, words);
    let own = match nr {
        ALL => verdict_line(core, round, lent.slice()),
        _ => verdict_line_with(with, core, round, lent.slice()),
    };
    one_call(comparison, "verdict_line_within", input, &lent, own, expected);
    let mut lent = LentBytes::drawn(room, words);
    let alone = match nr {
        ALL => verdict_line_alone(core, round, lent.slice()),
        _ => verdict_line_alone_with(with, core, round, lent.slice()),
    };
    one_call(comparison, "verdict_line", input, &lent, alone, expected);
    for mut scratch in Scratch::each(core, round, words) {
        let most = LINE_MOST + words.below(3) as usize;
        let room = [room, LINE_MOST - 1, most, most][words.below(4) as usize];
        let mut lent = LentBytes::drawn(room, words);
        let ours = match nr {
            ALL => verdict_line_within(core, round, lent.slice(), scratch.slice()),
            _ => verdict_line_within_with(with, core, round, lent.slice(), scratch.slice()),
        };
        let expected = scratch.line_refusal(room, judged.err()).map_or(judged, Err);
        one_call(comparison, "verdict_line_within", input, &lent, ours, expected);
        scratch.left(comparison, input, expected.is_ok());
    }
}

/// One answer, and what the slice of the line holds.
fn one_call(
    comparison: &mut Comparison,
    call: &'static str,
    input: &dyn Fn() -> String,
    lent: &LentBytes,
    ours: Result<usize, Refusal>,
    expected: Result<&str, (u64, u64)>,
) {
    comparison.answered(call, input, ours, expected.err());
    let line = expected.unwrap_or_default();
    comparison.equal(|_| input(), &[ours.unwrap_or(0) as u64], &[line.len() as u64]);
    lent.holds(comparison, input, line.as_bytes());
}

fn bytes(text: &str) -> Vec<u64> {
    text.bytes().map(u64::from).collect()
}
