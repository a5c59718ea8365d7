//! Rows: words to field elements and back, and the published constraints evaluated on one row.

use math::field::goldilocks::GoldilocksField;
use stark::constraints::builder::{ConstraintBuilder, ConstraintSet};
use stark::trace::TraceTable;

use crate::tables::types::{FE, GoldilocksExtension};

/// The prime p = 2^64 - 2^32 + 1.
pub const P: u64 = GoldilocksField::P;

/// The element that a word below p stands for.
pub(crate) fn element(word: u64) -> FE {
    assert!(word < P, "the word {word} is not below p");
    FE::from(word)
}

/// A row's words, which must be below p, as elements.
pub(crate) fn elements(row: &[u64]) -> Vec<FE> {
    row.iter().copied().map(element).collect()
}

/// A table's words, row after row.
pub(crate) fn words(trace: &TraceTable<GoldilocksField, GoldilocksExtension>) -> Vec<u64> {
    trace.main_table.data.iter().map(FE::value).collect()
}

/// Panics unless a row has exactly `width` columns.
pub(crate) fn check_width(row: &[u64], width: usize) {
    assert_eq!(row.len(), width, "a row of this table has {width} columns");
}

/// The values of the constraints on a row, by index.
///
/// Every index from 0 on must be emitted exactly once.
pub(crate) fn values(constraints: &impl RowConstraints, row: &[u64]) -> Vec<u64> {
    let mut values: Vec<Option<FE>> = Vec::new();
    let emit = |index, value| {
        if values.len() <= index {
            values.resize(index + 1, None);
        }
        let before = values[index].replace(value);
        assert!(before.is_none(), "two constraints at index {index}");
    };
    let row = &elements(row);
    constraints.eval(&mut RowBuilder { row, emit });
    let value_at = |(index, value): (usize, Option<FE>)| match value {
        Some(value) => value.value(),
        None => panic!("no constraint at index {index}"),
    };
    values.into_iter().enumerate().map(value_at).collect()
}

/// Evaluates constraints on a row of elements: each value goes to its place in `out`. For a benchmark, which allocates
/// nothing for a row.
pub fn evaluate_constraints(constraints: &impl RowConstraints, row: &[FE], out: &mut [FE]) {
    let emit = |index, value| out[index] = value;
    constraints.eval(&mut RowBuilder { row, emit });
}

/// The constraints of one of the compiled tables.
pub trait RowConstraints: ConstraintSet<GoldilocksField, GoldilocksExtension> {}

impl<T: ConstraintSet<GoldilocksField, GoldilocksExtension>> RowConstraints for T {}

/// The constraint builder whose expressions are their values on one row, and which hands on each value with its index.
struct RowBuilder<'a, E> {
    row: &'a [FE],
    emit: E,
}

impl<E: FnMut(usize, FE)> ConstraintBuilder<GoldilocksField, GoldilocksExtension> for RowBuilder<'_, E> {
    type Expr = FE;

    fn main(&self, offset: usize, column: usize) -> FE {
        assert_eq!(offset, 0, "the Keccak tables' constraints read their own row only");
        self.row[column]
    }

    fn const_base(&self, number: u64) -> FE {
        FE::from(number)
    }

    fn const_signed(&self, number: i64) -> FE {
        FE::from_signed(number)
    }

    fn zero(&self) -> FE {
        FE::zero()
    }

    fn one(&self) -> FE {
        FE::one()
    }

    fn emit_base(&mut self, index: usize, root: FE) {
        (self.emit)(index, root);
    }
}
