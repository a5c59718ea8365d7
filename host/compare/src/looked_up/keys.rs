//! The IS_WH table: the rows of lists of keys, heights, tables of rows, and what they look up.

use std::collections::BTreeMap;

use keccak_tables::bitwise;
use keccak_tables::is_wh::{self, IS_WH_MU_MAX, IsWhRows, MAX_KEYS, NUM_COLUMNS, ROW_WORDS};
use oracle::{Bus, Counters, Lookup, Side};

use super::{at_counter, charged, counters, longer, wild};
use crate::comparison::Comparison;
use crate::inputs::Words;
use crate::lent::Lent;

/// The most that a row counts.
const FULL: usize = IS_WH_MU_MAX as usize;

pub fn compare(comparison: &mut Comparison, words: &mut Words, n: usize) {
    comparison.group("rows of keys: lists of 0 to 40, drawn");
    for length in 0..=40 {
        let keys = drawn(words, length);
        rows(comparison, words, "drawn keys", &keys);
    }
    comparison.group("rows of keys: in order, reversed, all equal, few different, the extremes");
    for length in [41, 1000, 65_535, 65_536, 65_537] {
        shapes(comparison, words, length);
    }
    comparison.group("rows of keys: those of drawn operations");
    for _ in 0..n {
        let operations = 1 + words.below(30) as usize;
        let keys = oracle::is_wh_keys(&words.operations(operations));
        rows(comparison, words, "keys of operations", &keys);
    }
    comparison.group("rows of keys: one that is sent about 2^20 - 1 times and about twice as often");
    for times in [FULL - 1, FULL, FULL + 1, 2 * FULL - 1, 2 * FULL, 2 * FULL + 1] {
        many(comparison, words, times);
    }
    comparison.group("heights of tables of keys");
    heights(comparison);
    comparison.group("tables of rows of keys");
    for length in (0..=40).chain([63, 64, 65, 1000, 4097]) {
        let rows = drawn_rows(words, length);
        table(comparison, words, &rows);
    }
    comparison.group("what tables of keys look up");
    for length in [0, 1, 2, 3, 4, 5, 33, 10_000] {
        let rows = drawn_rows(words, length);
        lookups(comparison, words, &rows);
    }
    comparison.group("rows of keys in memory of their own");
    for length in [0, 1, 7, 40] {
        own_memory(comparison, words, length);
    }
}

/// A key; some are at an edge.
fn key(words: &mut Words) -> [u64; 2] {
    let mut part = |bits: u32| match words.below(4) {
        0 => [
            0,
            1,
            (1 << bits) - 2,
            (1 << bits) - 1,
            1 << (bits - 1),
            (1 << (bits - 1)) - 1,
        ][words.below(6) as usize],
        1 => words.below(3),
        _ => words.below(1 << bits),
    };
    [part(32), part(16)]
}

/// A list of keys, some of which come several times.
fn drawn(words: &mut Words, length: usize) -> Vec<u64> {
    let mut keys: Vec<[u64; 2]> = Vec::new();
    for _ in 0..length {
        let again = keys.get(words.below(2 * keys.len() as u64 + 1) as usize).copied();
        keys.push(again.unwrap_or_else(|| key(words)));
    }
    keys.concat()
}

/// Pairs, sorted by their word and then by their half.
fn sorted(keys: &[u64]) -> Vec<[u64; 2]> {
    let mut pairs: Vec<[u64; 2]> = keys.as_chunks().0.to_vec();
    pairs.sort_unstable();
    pairs
}

/// Lists of one length in every order that a sort may take for granted.
fn shapes(comparison: &mut Comparison, words: &mut Words, length: usize) {
    let keys = drawn(words, length);
    let in_order = sorted(&keys);
    let reversed: Vec<[u64; 2]> = in_order.iter().rev().copied().collect();
    // By the half first: an order that is not the wanted one.
    let mut by_half = in_order.clone();
    by_half.sort_by_key(|&[word, half]| (half, word));
    let one = key(words);
    let few: [[u64; 2]; 3] = [(); 3].map(|()| key(words));
    let top = u64::from(u32::MAX);
    let ends = [[top, 65_535], [0, 0], [top, 0], [0, 65_535]];
    let lists = [
        ("drawn", keys),
        ("in order", in_order.concat()),
        ("reversed", reversed.concat()),
        ("by half", by_half.concat()),
        ("all equal", vec![one; length].concat()),
        (
            "of three keys",
            (0..length).flat_map(|_| few[words.below(3) as usize]).collect(),
        ),
        ("in turn", (0..length).flat_map(|i| few[i % 3]).collect()),
        ("at the ends", (0..length).flat_map(|i| ends[i % 4]).collect()),
        (
            "all different",
            (0..length as u64)
                .rev()
                .flat_map(|i| [i, 65_535 - i % 65_536])
                .collect(),
        ),
        (
            "different halves",
            (0..length as u64)
                .map(|i| i * 40_503 % 65_536)
                .flat_map(|half| [7, half])
                .collect(),
        ),
    ];
    for (what, keys) in lists {
        rows(comparison, words, what, &keys);
    }
}

/// One key so many times: alone, and between others, before, after and among it.
fn many(comparison: &mut Comparison, words: &mut Words, times: usize) {
    let [word, half] = [1 + words.below(1 << 31), 1 + words.below(1 << 15)];
    rows(comparison, words, "one key", &[word, half].repeat(times));
    let others = [[word, half - 1], [word, half + 1], [word - 1, 65_535], [word + 1, 0]];
    let among = |i: usize| match i % 1000 {
        999 => others[i / 1000 % 4],
        _ => [word, half],
    };
    // As many of it, and others now and then.
    let length = times + times.div_ceil(999) - 1;
    let keys: Vec<u64> = (0..length).flat_map(among).collect();
    assert_eq!(
        keys.as_chunks().0.iter().filter(|key| **key == [word, half]).count(),
        times
    );
    rows(comparison, words, "one key among others", &keys);
    let alternating: Vec<u64> = (0..2 * times).flat_map(|i| [[word, half], others[1]][i % 2]).collect();
    rows(comparison, words, "two keys in turn", &alternating);
}

/// The rows of a list of keys, against the Rust's; what is worked in is written too, as its definition says.
fn rows(comparison: &mut Comparison, words: &mut Words, what: &str, keys: &[u64]) {
    let expected = oracle::is_wh_rows(keys);
    let n = keys.len() / 2;
    let mut room = |length: usize| Lent::drawn(length + words.below(4) as usize, words);
    let (mut codes, mut spare, mut rows) = (room(n), room(n), room(ROW_WORDS * n));
    let mut keys = Lent::new(keys, words);
    let answer = is_wh::dedup_is_wh_rows(keys.slice(), codes.slice(), spare.slice(), rows.slice());
    let input = || format!("{n} keys, {what}");
    if let Some(count) = comparison.done(input, answer) {
        comparison.equal(|_| input(), &[count as u64], &[(expected.len() / ROW_WORDS) as u64]);
    }
    rows.holds(
        comparison,
        |place| format!("{}: row {}, word {}", input(), place / ROW_WORDS, place % ROW_WORDS),
        &expected,
    );
    let worked = loads(keys.slice());
    codes.holds(comparison, |_| format!("codes, {}", input()), &worked);
    spare.holds(comparison, |_| format!("spare, {}", input()), &worked);
    keys.kept(comparison, |_| input());
}

/// What stands in the two slices that are worked in: the keys as numbers of 48 bits, of neighbours that are equal up to 65,536 in
/// one word, whose lowest 16 bits say how many more than one; all in order.
fn loads(keys: &[u64]) -> Vec<u64> {
    let mut loads: Vec<u64> = Vec::new();
    for [word, half] in keys.as_chunks().0 {
        let code = word << 16 | half;
        match loads.last_mut() {
            Some(last) if *last >> 16 == code && *last as u16 != u16::MAX => *last += 1,
            _ => loads.push(code << 16),
        }
    }
    loads.sort_unstable();
    loads
}

/// Rows: any keys in any order, any counts.
fn drawn_rows(words: &mut Words, length: usize) -> Vec<u64> {
    let row = |words: &mut Words| {
        let [word, half] = key(words);
        let count = match words.below(3) {
            0 => [0, 1, 255, 256, 65_535, 65_536, IS_WH_MU_MAX - 1, IS_WH_MU_MAX][words.below(8) as usize],
            _ => words.below(IS_WH_MU_MAX + 1),
        };
        [word, half, count]
    };
    (0..length).flat_map(|_| row(words)).collect()
}

/// Heights: of small tables the Rust's, beyond them its expression.
fn heights(comparison: &mut Comparison) {
    let mut numbers: Vec<usize> = (0..=70).collect();
    for power in 2..=31 {
        numbers.extend((1usize << power) - 2..=(1 << power) + 2);
    }
    numbers.extend(MAX_KEYS - 2..=MAX_KEYS);
    numbers.retain(|&n| n <= MAX_KEYS);
    for n in numbers {
        let expected = if n <= 70 {
            oracle::is_wh_table(&vec![0; n * ROW_WORDS]).len() / NUM_COLUMNS
        } else {
            n.next_power_of_two().max(4)
        };
        let input = || format!("the height of the table of {n} rows");
        if let Some(height) = comparison.done(input, is_wh::is_wh_height(n)) {
            comparison.equal(|_| input(), &[height as u64], &[expected as u64]);
        }
    }
}

fn table(comparison: &mut Comparison, words: &mut Words, rows: &[u64]) {
    let expected = oracle::is_wh_table(rows);
    let mut lent = Lent::new(rows, words);
    let mut table = Lent::drawn(expected.len() + words.below(9) as usize, words);
    let answer = is_wh::generate_is_wh_trace(lent.slice(), table.slice());
    let input = || format!("the table of {} rows {rows:?}", rows.len() / ROW_WORDS);
    comparison.done(input, answer);
    table.holds(
        comparison,
        |place| {
            format!(
                "row {}, column {}, {}",
                place / NUM_COLUMNS,
                place % NUM_COLUMNS,
                input()
            )
        },
        &expected,
    );
    lent.kept(comparison, |_| input());
}

/// What is charged to counters of zeros, to counters about p, and to ones that are no elements where they are not charged: the Rust's counts, and the sums over the tuples of its table.
fn lookups(comparison: &mut Comparison, words: &mut Words, rows: &[u64]) {
    let mut counts = Counters::new();
    counts.collect_is_wh(rows);
    let counts = counts.words();
    let what = format!("{} rows", rows.len() / ROW_WORDS);
    if !rows.is_empty() {
        let sent = sent(rows);
        let expected: Vec<u64> = counts.iter().filter(|count| **count != 0).copied().collect();
        let sums: Vec<u64> = sent.values().copied().collect();
        comparison.equal(|_| format!("what the tuples of {what} send"), &sums, &expected);
        assert!(
            sent.iter().all(|(&place, &sum)| counts[place] == sum),
            "the Rust charges what its rows send"
        );
    }
    let mut list = Lent::new(rows, words);
    for before in [vec![0; bitwise::NUM_COUNTERS], counters(words), wild(words, &counts)] {
        let expected = charged(&before, &counts);
        let mut lent = Lent::new(&longer(words, before), words);
        let answer = is_wh::collect_bitwise_from_is_wh(list.slice(), lent.slice());
        comparison.done(|| what.clone(), answer);
        lent.holds(comparison, |place| at_counter(&what, place), &expected);
    }
    list.kept(comparison, |_| what.clone());
}

/// By the place of its counter, how often the rows of the Rust's table send each lookup.
fn sent(rows: &[u64]) -> BTreeMap<usize, u64> {
    let mut sums = BTreeMap::new();
    for tuple in oracle::is_wh_table(rows)
        .chunks_exact(NUM_COLUMNS)
        .flat_map(oracle::is_wh_tuples)
    {
        let kind = match (tuple.bus, tuple.side) {
            (Bus::IsHalfword, Side::Sender) => 4,
            (Bus::IsB20, Side::Sender) => 5,
            _ => continue,
        };
        let value = tuple.values[0];
        let lookup = Lookup {
            kind,
            x: value as u8,
            y: (value >> 8) as u8,
            z: (value >> 16) as u8,
        };
        if tuple.multiplicity > 0 {
            *sums.entry(lookup.counter()).or_default() += tuple.multiplicity;
        }
    }
    sums
}

fn own_memory(comparison: &mut Comparison, words: &mut Words, operations: usize) {
    let ops = words.operations(operations);
    let keys = oracle::is_wh_keys(&ops);
    let expected = oracle::is_wh_rows(&keys);
    let input = |what: &'static str| move || format!("{what} of {operations} operations");
    let of_keys = comparison.done(input("rows of keys"), IsWhRows::of_keys(&keys));
    let of_operations = comparison.done(input("rows"), IsWhRows::of_operations(&ops));
    for rows in [of_keys, of_operations].into_iter().flatten() {
        comparison.equal(|_| input("rows")(), rows.words(), &expected);
        if let Some(table) = comparison.done(input("the table"), rows.table()) {
            comparison.equal(|_| input("the table")(), &table, &oracle::is_wh_table(&expected));
        }
        let mut counts = Counters::new();
        counts.collect_is_wh(&expected);
        let mut counters = vec![0; bitwise::NUM_COUNTERS];
        comparison.done(input("the lookups"), rows.charge(&mut counters));
        comparison.equal(|place| at_counter("the lookups", place), &counters, &counts.words());
    }
}
