//! Sums of columns and a constant.

/// A constant and columns, each with its factor.
#[derive(Debug, Clone, Default, PartialEq, Eq)]
pub struct Sum {
    /// The constant.
    pub constant: i64,
    /// Factors and columns.
    pub terms: Vec<(i64, usize)>,
}

impl Sum {
    pub(super) fn constant(constant: i64) -> Self {
        Self {
            constant,
            terms: Vec::new(),
        }
    }

    pub(super) fn column(column: usize) -> Self {
        Self {
            constant: 0,
            terms: vec![(1, column)],
        }
    }

    /// The number whose digits to base 256, lowest first, are `count` columns from `start`.
    pub(super) fn bytes(start: usize, count: usize) -> Self {
        Self {
            constant: 0,
            terms: (0..count).map(|byte| (1 << (8 * byte), start + byte)).collect(),
        }
    }

    pub(super) fn plus(mut self, other: Self) -> Self {
        self.constant += other.constant;
        self.terms.extend(other.terms);
        self
    }

    pub(super) fn minus(mut self, other: Self) -> Self {
        self.constant -= other.constant;
        self.terms
            .extend(other.terms.iter().map(|&(factor, column)| (-factor, column)));
        self
    }

    /// The column, where the sum is one column and nothing else.
    pub fn single(&self) -> Option<usize> {
        match (self.constant, self.terms.as_slice()) {
            (0, &[(1, column)]) => Some(column),
            _ => None,
        }
    }
}
