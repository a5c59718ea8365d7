//! The bitwise table, its multiplicities from counters and from lookups, and counters: several lookups at once, lists of lookups,
//! counters added to counters.

use keccak_tables::bitwise::{LOOKUP_WORDS, NUM_COLUMNS, NUM_COUNTERS, NUM_PRECOMPUTED_COLS, TABLE_WORDS};
use keccak_tables::{P, bitwise};
use oracle::tables::bitwise::BitwiseOperation;
use oracle::{BitwiseTable, Counters, Lookup};

use super::{added, at_counter, charged, counters, elements, longer, wild};
use crate::comparison::Comparison;
use crate::inputs::Words;
use crate::lent::Lent;

pub fn compare(comparison: &mut Comparison, words: &mut Words) {
    comparison.group("the bitwise table, whole");
    table(comparison, words);
    comparison.group("multiplicities from counters: any, few and none that are not 0");
    fills(comparison, words);
    comparison.group("counters after n lookups at once, from 0");
    many_at_once(comparison, words);
    comparison.group("counters after n lookups at once, n and counters about p");
    about_p(comparison, words);
    comparison.group("counters added to counters");
    merges(comparison, words);
    comparison.group("lists of lookups on counters and on multiplicities");
    for length in [0, 1, 2, 1000, 30_000] {
        lists(comparison, words, length);
    }
}

/// A lookup; half of them fall on a few rows.
fn lookup(words: &mut Words) -> Lookup {
    let few = words.below(2) == 0;
    let byte = |words: &mut Words| match few {
        true => [0, 1, 255][words.below(3) as usize],
        false => words.word() as u8,
    };
    Lookup {
        kind: words.below(10) as usize,
        x: byte(words),
        y: byte(words),
        z: words.below(16) as u8,
    }
}

/// The lookup whose counter is at a place.
fn lookup_at(place: usize) -> Lookup {
    let row = place / 10;
    Lookup {
        kind: place % 10,
        x: row as u8,
        y: (row >> 8) as u8,
        z: (row >> 16) as u8,
    }
}

/// The Rust's counters that hold these words.
fn counters_of(words: &[u64]) -> Counters {
    let mut counters = Counters::new();
    for (place, &count) in words.iter().enumerate().filter(|(_, count)| **count != 0) {
        counters.bump_n(lookup_at(place), count);
    }
    counters
}

fn at_cell(what: &str, place: usize) -> String {
    format!("{what}: row {}, column {}", place / NUM_COLUMNS, place % NUM_COLUMNS)
}

fn table(comparison: &mut Comparison, words: &mut Words) {
    let mut table = Lent::drawn(TABLE_WORDS + words.below(9) as usize, words);
    let what = "the bitwise table";
    comparison.done(|| what.into(), bitwise::generate_bitwise_trace(table.slice()));
    table.holds(
        comparison,
        |place| at_cell(what, place),
        &BitwiseTable::generate().words(),
    );
}

fn fills(comparison: &mut Comparison, words: &mut Words) {
    let all = counters(words);
    fill(comparison, words, "counters of any words below p", all);
    let mut few = vec![0; NUM_COUNTERS];
    for _ in 0..2000 {
        few[words.below(NUM_COUNTERS as u64) as usize] = words.element();
    }
    few[0] = P - 1;
    few[NUM_COUNTERS - 1] = P - 1;
    fill(comparison, words, "counters of which few are not 0", few);
    fill(comparison, words, "counters that are 0", vec![0; NUM_COUNTERS]);
}

/// The Rust leaves a multiplicity where its counter is 0, so its table has zeros there before. Ours has drawn words; those of the
/// fixed columns, which are not read, are seldom elements.
fn fill(comparison: &mut Comparison, words: &mut Words, what: &str, counters: Vec<u64>) {
    let mut theirs = BitwiseTable::generate();
    counters_of(&counters).fill_multiplicities(&mut theirs);
    let before = words.take(TABLE_WORDS);
    let theirs = theirs.words();
    let rows = before.chunks_exact(NUM_COLUMNS).zip(theirs.chunks_exact(NUM_COLUMNS));
    let expected: Vec<u64> = rows
        .flat_map(|(ours, theirs)| [&ours[..NUM_PRECOMPUTED_COLS], &theirs[NUM_PRECOMPUTED_COLS..]].concat())
        .collect();
    let mut counters = Lent::new(&longer(words, counters), words);
    let mut table = Lent::new(&longer(words, before), words);
    let answer = bitwise::fill_multiplicities(counters.slice(), table.slice());
    comparison.done(|| what.into(), answer);
    table.holds(comparison, |place| at_cell(what, place), &expected);
    counters.kept(comparison, |place| at_counter(what, place));
}

fn many_at_once(comparison: &mut Comparison, words: &mut Words) {
    let mut theirs = Counters::new();
    let mut counters = Lent::new(&longer(words, vec![0; NUM_COUNTERS]), words);
    for _ in 0..30_000 {
        let lookup = lookup(words);
        let n = words.below(1 << 48) >> words.below(48);
        theirs.bump_n(lookup, n);
        let Lookup { kind, x, y, z } = lookup;
        let answer = bitwise::bump_n_numbered(counters.slice(), kind, x, y, z, n);
        comparison.done(|| format!("{n} lookups of kind {kind} at {x}, {y}, {z}"), answer);
    }
    counters.holds(comparison, |place| at_counter("n at once", place), &theirs.words());
}

fn about_p(comparison: &mut Comparison, words: &mut Words) {
    let mut expected = counters(words);
    let mut lent = Lent::new(&longer(words, expected.clone()), words);
    let edges = [0, 1, 2, P - 2, P - 1, P, P + 1, P + 2, u64::MAX - 1, u64::MAX];
    for round in 0..20_000 {
        let lookup = lookup(words);
        let n = *edges.get(round % 12).unwrap_or(&words.word());
        let place = lookup.counter();
        expected[place] = added(expected[place], n % P);
        let Lookup { kind, x, y, z } = lookup;
        let answer = bitwise::bump_n_numbered(lent.slice(), kind, x, y, z, n);
        comparison.done(|| format!("{n} lookups of kind {kind} at {x}, {y}, {z}"), answer);
    }
    lent.holds(comparison, |place| at_counter("n at once about p", place), &expected);
}

fn merges(comparison: &mut Comparison, words: &mut Words) {
    // Far from 2^64, the Rust's sums are whole numbers.
    let [ours, other] = [(); 2].map(|()| -> Vec<u64> {
        let word = |_| words.word() >> 2 >> words.below(60);
        (0..NUM_COUNTERS).map(word).collect()
    });
    let mut theirs = counters_of(&ours);
    theirs.merge(&counters_of(&other));
    merge(comparison, words, "counters below 2^62", ours, other, &theirs.words());

    let [ours, other] = [(); 2].map(|()| counters(words));
    let expected = charged(&ours, &other);
    merge(comparison, words, "counters about p", ours, other, &expected);
}

fn merge(
    comparison: &mut Comparison,
    words: &mut Words,
    what: &str,
    ours: Vec<u64>,
    other: Vec<u64>,
    expected: &[u64],
) {
    let mut lent = Lent::new(&longer(words, ours), words);
    let mut other = Lent::new(&longer(words, other), words);
    comparison.done(|| what.into(), bitwise::merge(lent.slice(), other.slice()));
    lent.holds(comparison, |place| at_counter(what, place), expected);
    other.kept(comparison, |place| at_counter("the other counters", place));
}

/// A list of lookups on counters of zeros, on counters about p, on ones that are no elements where they are not charged, and on a table
/// likewise, whose fixed columns are none.
fn lists(comparison: &mut Comparison, words: &mut Words, length: usize) {
    let lookups: Vec<Lookup> = (0..length).map(|_| lookup(words)).collect();
    let theirs: Vec<BitwiseOperation> = lookups.iter().map(|lookup| lookup.operation()).collect();
    let flat = |lookup: &Lookup| [lookup.kind as u64, lookup.x.into(), lookup.y.into(), lookup.z.into()];
    let list: Vec<u64> = lookups.iter().flat_map(flat).collect();
    assert_eq!(list.len(), length * LOOKUP_WORDS);
    let mut counts = Counters::new();
    counts.add_ops(&theirs);
    let counts = counts.words();
    let what = format!("a list of {length} lookups");
    let input = |place| at_counter(&what, place);
    let mut ops = Lent::new(&list, words);
    for before in [vec![0; NUM_COUNTERS], counters(words), wild(words, &counts)] {
        let expected = charged(&before, &counts);
        let mut lent = Lent::new(&longer(words, before), words);
        comparison.done(|| what.clone(), bitwise::add_ops(lent.slice(), ops.slice()));
        lent.holds(comparison, input, &expected);
    }
    let mut before = elements(words, TABLE_WORDS);
    let mut table = BitwiseTable::of_words(&before);
    table.update_multiplicities(&theirs);
    let mut expected = table.words();
    // The fixed columns are not read.
    for row in 0..bitwise::NUM_ROWS {
        let cells = row * NUM_COLUMNS..row * NUM_COLUMNS + NUM_PRECOMPUTED_COLS;
        before[cells.clone()].fill(u64::MAX);
        expected[cells].fill(u64::MAX);
    }
    // Nor is a multiplicity that is not charged.
    for place in (0..NUM_COUNTERS).step_by(2).filter(|place| counts[*place] == 0) {
        let cell = place / 10 * NUM_COLUMNS + NUM_PRECOMPUTED_COLS + place % 10;
        before[cell] = u64::MAX;
        expected[cell] = u64::MAX;
    }
    let mut lent = Lent::new(&longer(words, before), words);
    comparison.done(
        || what.clone(),
        bitwise::update_multiplicities(lent.slice(), ops.slice()),
    );
    lent.holds(comparison, |place| at_cell(&what, place), &expected);
    ops.kept(comparison, |_| what.clone());
}
