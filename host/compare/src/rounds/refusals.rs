//! Core tuples by a number of rounds that is none: whatever else is wrong, that is told, and nothing is written. The other calls that take one
//! are tried where their further refusals are, with numbers that are drawn.

use keccak_tables::{Parameters, keccak};

use crate::by_rounds;
use crate::comparison::Comparison;
use crate::evaluated::CORE;
use crate::inputs::Words;
use crate::refused::{RowCall, row_calls};

/// The refusals of the tuples of core rows.
pub fn compare(comparison: &mut Comparison, words: &mut Words) {
    comparison.group("refusals: core tuples of a number of rounds that is none, and of others");
    for nr in [0, 1, 23, 25, u64::MAX] {
        let (with, syscall) = (Parameters::default().rounds(nr), words.word());
        let refusal = by_rounds::refusal(nr);
        for (index, needed) in [(0, 4), (2, 203), (3, 203), (83, 24), (84, 1), (usize::MAX, 1)] {
            let past_end = (index >= CORE.num_tuples).then_some((1, CORE.num_tuples as u64));
            let one = RowCall {
                call_name: CORE.tuple_name,
                name: format!("tuple {index} of a core row of {nr} rounds"),
                columns: CORE.columns,
                needed,
                earlier: refusal.or(past_end),
                call: &|row, out| keccak::bus_interaction_with(with, row, index, syscall, out).map(drop),
            };
            row_calls(comparison, words, &one);
        }
        let all = RowCall {
            call_name: CORE.tuples_name,
            name: format!("all tuples of a core row of {nr} rounds"),
            columns: CORE.columns,
            needed: CORE.tuple_words,
            earlier: refusal,
            call: &|row, out| keccak::bus_interactions_with(with, row, syscall, out),
        };
        row_calls(comparison, words, &all);
    }
}
