//! The tuples of core and round rows against the published Rust's `bus_interactions`; and the calls' refusals.

use crate::comparison::Comparison;
use crate::evaluated::{CORE, ROUND, Table};
use crate::inputs::Words;
use crate::refused::{RowCall, row_calls, tuple_calls};
use crate::tuple_list::{at_once, tuples, words_of};

/// The whole area: `n` drawn rows of each kind, and everything that is not drawn.
pub fn compare(comparison: &mut Comparison, seed: u64, n: usize) {
    let mut words = Words::new(seed);
    for table in [CORE, ROUND] {
        table.each_row(comparison, &mut words, n, |comparison, words, what, row| {
            for syscall in syscalls(&table, words) {
                all_tuples(comparison, words, &table, what, row, syscall);
            }
        });
        comparison.group(format!("refusals: tuples of {} rows", table.name));
        refusals(comparison, &mut words, &table);
    }
}

/// The system call numbers that are tried: in the tuples of a round row there is none.
fn syscalls(table: &Table, words: &mut Words) -> Vec<u64> {
    if table.name == ROUND.name {
        return vec![0];
    }
    vec![0, 1, (1 << 32) - 1, 1 << 32, u64::MAX, words.word()]
}

fn all_tuples(comparison: &mut Comparison, words: &mut Words, table: &Table, what: &str, row: &[u64], syscall: u64) {
    let expected = (table.rust_tuples)(&row[..table.columns], syscall);
    let what = &|| format!("{what}, system call {syscall}");
    comparison.equal(|_| what(), &[table.num_tuples as u64], &[expected.len() as u64]);
    let call = |row: &[u64], index: usize, out: &mut [u64]| (table.tuple)(row, index, syscall, out);
    tuples(comparison, words, what, row, call, &expected);
    let call = |row: &[u64], out: &mut [u64]| (table.tuples)(row, syscall, out);
    at_once(comparison, words, what, row, call, &expected);
    let length: usize = expected.iter().map(|tuple| words_of(tuple).len()).sum();
    comparison.equal(|_| what(), &[table.tuple_words as u64], &[length as u64]);
}

/// The refusals of the call for a tuple of a row.
pub fn refusals(comparison: &mut Comparison, words: &mut Words, table: &Table) {
    let lengths: Vec<usize> = (table.rust_tuples)(&vec![0; table.columns], 0)
        .iter()
        .map(|tuple| tuple.values.len())
        .collect();
    let syscall = words.word();
    let call = |row: &[u64], index: usize, out: &mut [u64]| (table.tuple)(row, index, syscall, out);
    let names = (table.tuple_name, table.name);
    tuple_calls(comparison, words, names, table.columns, &lengths, &call);
    let at_once = RowCall {
        call_name: table.tuples_name,
        name: format!("all tuples of a {} row", table.name),
        columns: table.columns,
        needed: table.tuple_words,
        earlier: None,
        call: &|row, out| (table.tuples)(row, syscall, out),
    };
    row_calls(comparison, words, &at_once);
    at_once.not_elements(comparison, words);
}
