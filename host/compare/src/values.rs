//! The constraint values of core and round rows against the published Rust's `eval`; and the calls' refusals.

use keccak_tables::P;

use crate::comparison::Comparison;
use crate::evaluated::{CORE, ROUND, Table, lend};
use crate::inputs::Words;
use crate::lent::Lent;
use crate::refused::{RowCall, row_calls};

/// The whole area: `n` drawn rows of each kind, and everything that is not drawn.
pub fn compare(comparison: &mut Comparison, seed: u64, n: usize) {
    let mut words = Words::new(seed);
    comparison.group("core rows whose carries are small numbers");
    carries(comparison, &mut words);
    for table in [CORE, ROUND] {
        table.each_row(comparison, &mut words, n, |comparison, words, what, row| {
            values(comparison, words, &table, what, row);
        });
        comparison.group(format!("values of written {} rows are 0", table.name));
        zeros(comparison, &mut words, &table);
        comparison.group(format!("refusals: values of {} rows", table.name));
        refusals(comparison, &mut words, &table);
    }
}

fn values(comparison: &mut Comparison, words: &mut Words, table: &Table, what: &str, row: &[u64]) {
    let expected = (table.rust_values)(&row[..table.columns]);
    let mut out = Lent::drawn(table.num_values + words.below(3) as usize, words);
    let input = || format!("the values of {what}: {row:?}");
    comparison.done(input, (table.values)(row, out.slice()));
    comparison.equal(|_| input(), &[table.num_values as u64], &[expected.len() as u64]);
    out.holds(comparison, |_| input(), &expected);
}

/// Core rows in which a pointer's limb 0 or limb 2 is less by c · 2^32, so that its low or high carry is c more than a bit.
fn carries(comparison: &mut Comparison, words: &mut Words) {
    let rows = (CORE.written)(&words.operations(4)).expect("drawn operations are accepted");
    for base in rows.chunks_exact(CORE.columns) {
        for limb in (0..25).flat_map(|lane| [410 + 3 * lane, 412 + 3 * lane]) {
            for carry in 0..=32 {
                let mut row = base.to_vec();
                row[limb] = ((u128::from(row[limb]) + u128::from(P) - (carry << 32)) % u128::from(P)) as u64;
                let what = format!("a core row with {carry} carried more out of column {limb}");
                lend(comparison, words, &what, &row, &mut |comparison, words, what, row| {
                    values(comparison, words, &CORE, what, row);
                });
            }
        }
    }
}

/// Rows that we wrote satisfy the Rust's constraints, whatever output the operation claims.
fn zeros(comparison: &mut Comparison, words: &mut Words, table: &Table) {
    for n in 0..6 {
        let ops = words.operations(n);
        let Some(rows) = comparison.done(|| format!("{} rows of {ops:?}", table.name), (table.written)(&ops)) else {
            continue;
        };
        for row in rows.chunks_exact(table.columns) {
            comparison.equal(
                |place| format!("value {place} of the {} row {row:?}", table.name),
                &(table.rust_values)(row),
                &vec![0; table.num_values],
            );
        }
    }
}

/// The refusals of the call for the values of a row.
pub fn refusals(comparison: &mut Comparison, words: &mut Words, table: &Table) {
    let call = RowCall {
        call_name: table.values_name,
        name: format!("the values of a {} row", table.name),
        columns: table.columns,
        needed: table.num_values,
        earlier: None,
        call: &|row, out| (table.values)(row, out),
    };
    row_calls(comparison, words, &call);
    call.not_elements(comparison, words);
}
