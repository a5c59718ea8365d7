//! The two tables that are looked up, whole: the bitwise table with its counters and multiplicities; the rows of the IS_WH table, the
//! table, and what it looks up. Against the published Rust; where that adds to a `u64`, what it counts is added mod p here, by `u128`.

mod bitwise;
mod keys;
mod operations;
pub mod refusals;

use keccak_tables::P;
use keccak_tables::bitwise::NUM_COUNTERS;

use crate::comparison::Comparison;
use crate::inputs::Words;

/// The whole area: `n` drawn lists of keys, and everything that is not drawn.
pub fn compare(comparison: &mut Comparison, seed: u64, n: usize) {
    let mut words = Words::new(seed);
    bitwise::compare(comparison, &mut words);
    keys::compare(comparison, &mut words, n);
    refusals::compare(comparison, &mut words);
}

/// The sum mod p.
fn added(a: u64, b: u64) -> u64 {
    ((u128::from(a) + u128::from(b)) % u128::from(P)) as u64
}

/// What each word is when a count is added to it, mod p.
pub(crate) fn charged(before: &[u64], counts: &[u64]) -> Vec<u64> {
    before
        .iter()
        .zip(counts)
        .map(|(&a, &b)| if b == 0 { a } else { added(a, b) })
        .collect()
}

/// Counters about p; those that are not charged hold any word.
pub(crate) fn wild(words: &mut Words, counts: &[u64]) -> Vec<u64> {
    let mut before = counters(words);
    for (word, count) in before.iter_mut().zip(counts) {
        if *count == 0 {
            *word |= u64::MAX << 32;
        }
    }
    before
}

/// So many elements, half of them just below p.
fn elements(words: &mut Words, length: usize) -> Vec<u64> {
    let element = |words: &mut Words| match words.below(2) {
        0 => P - 1 - words.below(3),
        _ => words.element(),
    };
    (0..length).map(|_| element(words)).collect()
}

/// Every counter, drawn.
pub(crate) fn counters(words: &mut Words) -> Vec<u64> {
    elements(words, NUM_COUNTERS)
}

/// Names a counter by its place.
pub(crate) fn at_counter(what: &str, place: usize) -> String {
    format!(
        "{what}: the counter at {place}, row {}, kind {}",
        place / 10,
        place % 10
    )
}

/// Words, and then some more that are not to be read or written.
pub(crate) fn longer(words: &mut Words, mut list: Vec<u64>) -> Vec<u64> {
    let past = words.below(5);
    list.extend((0..past).map(|_| u64::MAX));
    list
}
