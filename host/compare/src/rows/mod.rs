//! Rows, tables, keys, counters and tuples of the tables that are looked up, against the published Rust; and refusals,
//! against the numbers that the interface lists.

mod bitwise;
mod constants;
mod keys;
pub mod refusals;
pub(crate) mod tables;

use crate::comparison::Comparison;
use crate::inputs::Words;

/// The whole area: `n` drawn operations, and everything that is not drawn.
pub fn compare(comparison: &mut Comparison, seed: u64, n: usize) {
    let mut words = Words::new(seed);
    tables::compare(comparison, &mut words, n);
    bitwise::compare(comparison, &mut words);
    constants::compare(comparison, &mut words);
    keys::compare(comparison, &mut words);
    refusals::compare(comparison, &mut words);
}
