//! The month against a second reading of it: exact fractions over whole numbers of 128 bits, maps of heights, and no running best.

use std::cmp::Ordering;
use std::collections::BTreeMap;

use keccak_tables::month::{Fill, MAX_FILES, MONTH_WORDS, Month, month, month_with};
use keccak_tables::{MAX_OPS, Parameters};

use crate::by_floor::{FLOORS, REFUSED};
use crate::comparison::Comparison;
use crate::inputs::Words;
use crate::lent::Lent;

/// The most operations of a file, and one more.
const MOST: u64 = MAX_OPS as u64;

/// The whole area: every number of rounds and every floor, and `n` drawn months.
pub fn compare(comparison: &mut Comparison, seed: u64, n: usize) {
    let mut words = Words::new(seed);
    comparison.group("months of no file, one, ties and the most, with every number of rounds and every floor");
    for rounds in 1..=24 {
        for floor in FLOORS {
            let with = Parameters::default().rounds(rounds).floor(floor);
            every(comparison, &mut words, with);
        }
    }
    comparison.group("months of drawn files");
    for _ in 0..n {
        let counts = drawn(&mut words);
        let with = accepted(&mut words);
        once(comparison, &mut words, with, &counts);
        in_another_order(comparison, &mut words, with, &counts);
    }
    comparison.group("months of 4,095 and 4,096 files");
    for files in [MAX_FILES - 1, MAX_FILES] {
        let counts: Vec<u64> = (0..files).map(|_| count(&mut words)).collect();
        let with = accepted(&mut words);
        once(comparison, &mut words, with, &counts);
        in_another_order(comparison, &mut words, with, &counts);
        once(comparison, &mut words, with, &vec![MOST; files]);
    }
    refusals(comparison, &mut words, n);
}

/// The refusals of the call: every set of conditions, about each limit.
pub fn refusals(comparison: &mut Comparison, words: &mut Words, n: usize) {
    comparison.group("refusals: months, every set of conditions");
    let rounds = [24, 1, 0, 25, u64::MAX];
    let floors = [4, 65_536, 6, REFUSED[0]];
    for rounds in rounds {
        for floor in floors {
            for files in [0, 1, MAX_FILES, MAX_FILES + 1, 2 * MAX_FILES] {
                for past in [None, Some(MOST), Some(MOST + 1), Some(u64::MAX)] {
                    for room in [0, MONTH_WORDS - 1, MONTH_WORDS, MONTH_WORDS + 1] {
                        let mut counts = words.take(files);
                        counts.iter_mut().for_each(|count| *count %= MOST + 1);
                        if let (Some(past), false) = (past, counts.is_empty()) {
                            let at = words.below(files as u64) as usize;
                            counts[at] = past;
                        }
                        let with = Parameters::default().rounds(rounds).floor(floor);
                        refused(comparison, words, with, &counts, room);
                    }
                }
            }
        }
    }
    comparison.group("refusals: months of drawn conditions");
    for _ in 0..n {
        let with = words.any_parameters();
        let files = [0, 3, MAX_FILES, MAX_FILES + 1][words.below(4) as usize];
        let mut counts: Vec<u64> = (0..files).map(|_| count(words)).collect();
        for _ in 0..words.below(3).min(files as u64) {
            let at = words.below(files as u64) as usize;
            counts[at] = MOST + words.below(3);
        }
        let room = MONTH_WORDS - 2 + words.below(4) as usize;
        refused(comparison, words, with, &counts, room);
    }
}

/// Rounds and a floor that are accepted; shipped or not, which has no part in it.
fn accepted(words: &mut Words) -> Parameters {
    let (rounds, floor) = (words.rounds(), words.floor());
    let with = Parameters::default().rounds(rounds).floor(floor);
    if words.below(2) == 0 { with } else { with.shipped() }
}

/// A count: none, few, one that fills a table, one more, any, and the most.
fn count(words: &mut Words) -> u64 {
    let (filled, bits) = ((1 << words.below(32)) / words.rounds(), words.below(28));
    let count = match words.below(8) {
        0 => 0,
        1 => words.below(8),
        2 => filled,
        3 => filled + 1,
        4 => MOST - words.below(2),
        _ => words.below(1 << bits),
    };
    count.min(MOST)
}

/// Some counts, among them some that stand twice or are doubled, so that tables of one or of several sizes are equally full.
fn drawn(words: &mut Words) -> Vec<u64> {
    let mut counts = Vec::new();
    for _ in 0..words.below(40) {
        let first = count(words);
        counts.push(first);
        for _ in 0..words.below(3) {
            counts.push((first << words.below(4)).min(MOST));
        }
    }
    counts
}

/// Months at the edges, by these parameters.
fn every(comparison: &mut Comparison, words: &mut Words, with: Parameters) {
    let filled = with.floor / with.rounds;
    for counts in [
        &[][..],
        &[0],
        &[0, 0, 0],
        &[1],
        &[filled, filled + 1],
        &[MOST],
        &[MOST, 0, MOST],
        &[1 << 20, 1 << 10, 1 << 24, 1 << 10, 3],
        &[3, 6, 12, 24, 48, 0, 96, 192, 1, 2],
        &[MOST - 1, MOST, 1 << 26],
    ] {
        once(comparison, words, with, counts);
        in_another_order(comparison, words, with, counts);
    }
}

/// One call, and the month by its names, against the second reading.
fn once(comparison: &mut Comparison, words: &mut Words, with: Parameters, counts: &[u64]) {
    let expected = words_of(with, counts);
    let mut lent = Lent::new(counts, words);
    let mut out = Lent::drawn(MONTH_WORDS + words.below(3) as usize, words);
    let default = with.rounds == 24 && with.floor == 4;
    let answer = match default && words.below(2) == 0 {
        true => month(lent.slice(), out.slice()),
        false => month_with(with, lent.slice(), out.slice()),
    };
    let what = || format!("{with:?}, the counts {counts:?}");
    comparison.answered("month", what, answer, None);
    out.holds(comparison, |_| what(), &expected);
    lent.kept(comparison, |_| format!("the counts, which are only read: {}", what()));

    let named = match default {
        true => Month::new(counts),
        false => Month::with(with, counts),
    };
    if let Some(named) = comparison.done(what, named) {
        comparison.equal(
            |_| format!("a month by its names, {}", what()),
            &again(&named),
            &expected,
        );
    }
}

/// The words of a month that is told by its names.
fn again(month: &Month) -> Vec<u64> {
    let shown = |fill: Option<Fill>| fill.map_or([0, 0], |fill| [fill.used, fill.total]);
    let mut words = vec![month.files, month.operations, month.used_rows, month.padding_rows];
    words.extend(shown(month.fullest));
    words.extend(shown(month.emptiest));
    words.extend(month.heights().map(|(_, files)| files));
    words.push(u64::from(month.fullest.is_some()));
    words
}

/// Another order changes nothing but which of the tied files is shown.
fn in_another_order(comparison: &mut Comparison, words: &mut Words, with: Parameters, counts: &[u64]) {
    let mut turned = counts.to_vec();
    for at in (1..turned.len()).rev() {
        turned.swap(at, words.below(at as u64 + 1) as usize);
    }
    let what = || format!("another order of {counts:?}, {with:?}");
    let mut both = [[0; MONTH_WORDS]; 2];
    for (out, counts) in both.iter_mut().zip([counts, &turned]) {
        let answer = month_with(with, counts, out);
        comparison.answered("month", what, answer, None);
    }
    let [one, other] = both;
    let same = |words: &[u64; MONTH_WORDS]| [&words[..4], &words[8..]].concat();
    comparison.equal(|_| what(), &same(&one), &same(&other));
    for at in [4, 6] {
        let product = |a: u64, b: u64| {
            let product = u128::from(a) * u128::from(b);
            [product as u64, (product >> 64) as u64]
        };
        let (left, right) = (product(one[at], other[at + 1]), product(other[at], one[at + 1]));
        comparison.equal(|_| format!("fullness, {}", what()), &left, &right);
    }
}

/// One call that may be refused: its number and detail, and that nothing is written then.
fn refused(comparison: &mut Comparison, words: &mut Words, with: Parameters, counts: &[u64], room: usize) {
    let expected = first_refusal(with, counts, room);
    let mut lent = Lent::new(counts, words);
    let mut out = Lent::drawn(room, words);
    let answer = month_with(with, lent.slice(), out.slice());
    let what = || {
        let most = counts.iter().max();
        format!("{with:?}, {} counts, the highest {most:?}, {room} words", counts.len())
    };
    comparison.answered("month", what, answer, expected);
    match expected {
        Some(_) => out.kept(comparison, |_| what()),
        None => out.holds(comparison, |_| what(), &words_of(with, counts)),
    }
    lent.kept(comparison, |_| what());
}

/// The checks in their order: 8, 9, 14, 1, 3.
fn first_refusal(with: Parameters, counts: &[u64], room: usize) -> Option<(u64, u64)> {
    if !(1..=24).contains(&with.rounds) {
        return Some((8, with.rounds));
    }
    if !FLOORS.contains(&with.floor) {
        return Some((9, with.floor));
    }
    if counts.len() > 4096 {
        return Some((14, counts.len() as u64));
    }
    if counts.iter().any(|&count| count > 89_478_485) {
        return Some((1, 89_478_486));
    }
    (room < 39).then_some((3, 39))
}

/// A round table: its used rows, and all its rows.
#[derive(Clone, Copy)]
struct Table {
    used: u128,
    total: u128,
}

impl Table {
    fn of(with: Parameters, count: u64) -> Self {
        let used = u128::from(count) * u128::from(with.rounds);
        let total = used.next_power_of_two().max(u128::from(with.floor));
        Self { used, total }
    }

    /// As fractions of whole numbers.
    fn against(self, other: Self) -> Ordering {
        (self.used * other.total).cmp(&(other.used * self.total))
    }
}

/// The 39 words by the paper's sentences.
fn words_of(with: Parameters, counts: &[u64]) -> Vec<u64> {
    let tables: Vec<Table> = counts.iter().map(|&count| Table::of(with, count)).collect();
    let sum = |of: fn(&Table) -> u128| tables.iter().map(of).sum::<u128>();
    let operations = counts.iter().map(|&count| u128::from(count)).sum();
    let mut words = vec![
        tables.len() as u128,
        operations,
        sum(|table| table.used),
        sum(|table| table.total - table.used),
    ];
    // The first that no table is ahead of: a stable sort keeps the order of those that tie.
    for order in [
        |a: &Table, b: &Table| b.against(*a),
        |a: &Table, b: &Table| a.against(*b),
    ] {
        let mut sorted = tables.clone();
        sorted.sort_by(order);
        words.extend(sorted.first().map_or([0, 0], |table| [table.used, table.total]));
    }
    let mut files: BTreeMap<u128, u128> = BTreeMap::new();
    for table in &tables {
        *files.entry(table.total).or_default() += 1;
    }
    words.extend((2..32).map(|power| files.remove(&(1 << power)).unwrap_or(0)));
    assert!(files.is_empty(), "every height is among the thirty");
    words.push(u128::from(!tables.is_empty()));
    words.into_iter().map(|word| word.try_into().expect("a word")).collect()
}

#[cfg(test)]
mod tests {
    use super::*;

    #[test]
    fn the_second_reading_on_a_few_files() {
        let usual = Parameters::default();
        let words = words_of(usual, &[0, 1, 2, 4]);
        assert_eq!(words[..8], [4, 7, 168, 60, 24, 32, 0, 4]);
        assert_eq!(words[8..14], [1, 0, 0, 1, 1, 1]);
        assert_eq!((words[38], words.len()), (1, 39));
        assert_eq!(words_of(usual, &[4, 2, 1, 0])[4..8], [96, 128, 0, 4]);
        assert_eq!(words_of(usual, &[]), [0; 39]);
        assert_eq!(
            words_of(usual.rounds(12).floor(64), &[0, 1])[..8],
            [2, 1, 12, 116, 12, 64, 0, 64]
        );
    }

    #[test]
    fn the_checks_have_their_order() {
        let usual = Parameters::default();
        let many = vec![89_478_486; 4097];
        assert_eq!(first_refusal(usual.rounds(0).floor(3), &many, 0), Some((8, 0)));
        assert_eq!(first_refusal(usual.floor(3), &many, 0), Some((9, 3)));
        assert_eq!(first_refusal(usual, &many, 0), Some((14, 4097)));
        assert_eq!(first_refusal(usual, &many[1..], 0), Some((1, 89_478_486)));
        assert_eq!(first_refusal(usual, &[], 38), Some((3, 39)));
        assert_eq!(first_refusal(usual, &[89_478_485], 39), None);
    }
}
