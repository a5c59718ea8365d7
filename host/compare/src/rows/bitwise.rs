//! The bitwise table: every row, every index, counters, tuples.

use keccak_tables::{P, bitwise};
use oracle::Lookup;

use crate::comparison::Comparison;
use crate::inputs::Words;
use crate::lent::Lent;
use crate::tuple_list::tuples;

pub fn compare(comparison: &mut Comparison, words: &mut Words) {
    comparison.group("bitwise rows, all 2^20, by both of the Rust's writers");
    rows(comparison);
    comparison.group("bitwise rows into longer slices, with guards");
    longer_rows(comparison, words);
    comparison.group("indexes of bitwise rows, every X, Y and Z");
    indexes(comparison);
    comparison.group("bitwise counters after 30,000 drawn lookups, all 10,485,760");
    many_counts(comparison, words);
    comparison.group("one lookup on a counter that holds 0, 1, a drawn word, p - 2, p - 1");
    single_counts(comparison, words);
    comparison.group("tuples of bitwise rows");
    for k in 0..400 {
        let row = drawn_row(words, k % 2 == 0);
        let (call, expected) = (bitwise::bus_interaction, oracle::bitwise_tuples(&row));
        tuples(comparison, words, || "a bitwise row".into(), &row, call, &expected);
    }
}

fn rows(comparison: &mut Comparison) {
    let mut row = [0; bitwise::NUM_PRECOMPUTED_COLS];
    for index in 0..bitwise::NUM_ROWS {
        let input = || format!("bitwise row {index}");
        comparison.done(input, bitwise::generate_bitwise_row(index, &mut row));
        comparison.equal(|_| input(), &row, &oracle::bitwise_row(index));
        let in_table = oracle::bitwise_table_row(index);
        comparison.equal(|_| input(), &row, &in_table[..bitwise::NUM_PRECOMPUTED_COLS]);
    }
}

fn longer_rows(comparison: &mut Comparison, words: &mut Words) {
    for _ in 0..2000 {
        let index = words.below(1 << 20) as usize;
        let mut row = Lent::drawn(bitwise::NUM_PRECOMPUTED_COLS + words.below(12) as usize, words);
        let input = || format!("bitwise row {index}");
        comparison.done(input, bitwise::generate_bitwise_row(index, row.slice()));
        row.holds(comparison, |_| input(), &oracle::bitwise_row(index));
    }
}

fn indexes(comparison: &mut Comparison) {
    for z in 0..16 {
        for (x, y) in (0..=255).flat_map(|x| (0..=255).map(move |y| (x, y))) {
            let input = || format!("row_index({x}, {y}, {z})");
            if let Some(index) = comparison.done(input, bitwise::row_index(x, y, z)) {
                let expected = oracle::bitwise_row_index(x, y, z);
                comparison.equal(|_| input(), &[index as u64], &[expected as u64]);
            }
        }
    }
}

/// A row of drawn elements; or a written one, whose multiplicities are drawn.
fn drawn_row(words: &mut Words, written: bool) -> Vec<u64> {
    let mut row = Vec::new();
    if written {
        row.extend(oracle::bitwise_row(words.below(1 << 20) as usize));
    }
    row.resize_with(bitwise::NUM_COLUMNS, || words.element());
    row
}

/// A lookup; half of them fall on a few rows, so that counters rise above 1.
fn lookup(words: &mut Words) -> Lookup {
    let few = words.below(2) == 0;
    let byte = |words: &mut Words| if few { words.below(3) as u8 } else { words.word() as u8 };
    Lookup {
        kind: words.below(10) as usize,
        x: byte(words),
        y: byte(words),
        z: words.below(16) as u8,
    }
}

fn many_counts(comparison: &mut Comparison, words: &mut Words) {
    let lookups: Vec<Lookup> = (0..30_000).map(|_| lookup(words)).collect();
    let mut counters = vec![0; bitwise::NUM_COUNTERS + 5];
    for &Lookup { kind, x, y, z } in &lookups {
        let answer = bitwise::bump_numbered(&mut counters, kind, x, y, z);
        comparison.done(|| format!("a lookup of kind {kind} at {x}, {y}, {z}"), answer);
    }
    let mut expected = vec![0; counters.len()];
    for (place, count) in oracle::bitwise_counts(&lookups) {
        expected[place] = count;
    }
    comparison.equal(
        |place| format!("the counter at {place}: row {}, kind {}", place / 10, place % 10),
        &counters,
        &expected,
    );
}

fn single_counts(comparison: &mut Comparison, words: &mut Words) {
    let old = words.take(bitwise::NUM_COUNTERS);
    let mut counters = old.clone();
    for before in [0, 1, words.below(P), P - 2, P - 1] {
        for _ in 0..4 {
            let lookup = lookup(words);
            let Lookup { kind, x, y, z } = lookup;
            let place = lookup.counter();
            counters[place] = before;
            let input = || format!("a lookup of kind {kind} at {x}, {y}, {z} on {before}");
            comparison.done(input, bitwise::bump_numbered(&mut counters, kind, x, y, z));
            comparison.equal(
                |_| input(),
                &[counters[place]],
                &[oracle::bitwise_count(before, lookup)],
            );
            counters[place] = old[place];
        }
    }
    comparison.equal(
        |place| format!("the counter at {place}, which nothing looked up"),
        &counters,
        &old,
    );
}
