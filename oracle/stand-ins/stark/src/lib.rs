//! Stand-in for the crate `stark`: tables of words, bus interactions as data, and the constraint builder's interface.

/// Tables.
pub mod table {
    use math::field::element::{FieldElement, IsField};

    /// A table, row after row.
    ///
    /// Assumes: column `c` of row `r` is one cell, and setting a cell changes no other.
    pub struct Table<F: IsField> {
        /// The cells, row after row.
        pub data: Vec<FieldElement<F>>,
        /// The number of columns.
        pub width: usize,
    }

    impl<F: IsField> Table<F> {
        /// The cells of a row.
        pub fn get_row(&self, row: usize) -> &[FieldElement<F>] {
            &self.data[row * self.width..][..self.width]
        }

        /// Writes one cell.
        pub fn set_fe(&mut self, row: usize, column: usize, element: FieldElement<F>) {
            assert!(
                column < self.width,
                "column {column} of a table of width {}",
                self.width
            );
            self.data[row * self.width + column] = element;
        }
    }
}

/// Trace tables.
pub mod trace {
    use core::marker::PhantomData;

    use math::field::element::{FieldElement, IsField};

    use crate::table::Table;

    /// A trace with a main table and no auxiliary one.
    ///
    /// Assumes: auxiliary columns and the step size have no part in rows, values, tuples and counts.
    pub struct TraceTable<F: IsField, E: IsField> {
        /// The main table.
        pub main_table: Table<F>,
        extension: PhantomData<E>,
    }

    impl<F: IsField, E: IsField> TraceTable<F, E> {
        /// A trace over the given cells, row after row.
        pub fn new_main(data: Vec<FieldElement<F>>, width: usize, _step_size: usize) -> Self {
            assert!(
                data.len().is_multiple_of(width),
                "{} cells are no whole rows of {width}",
                data.len()
            );
            Self {
                main_table: Table { data, width },
                extension: PhantomData,
            }
        }
    }
}

/// Bus interactions.
pub mod lookup {
    /// How columns make a value. Assumes: `Direct` is the one column as it is; the compiled files use no other.
    #[derive(Debug, Clone, Copy)]
    pub enum Packing {
        /// The column itself.
        Direct,
    }

    /// A term of a linear combination. Assumes: signed numbers stand for themselves mod p.
    #[derive(Debug, Clone, Copy)]
    pub enum LinearTerm {
        /// `coefficient` times the column.
        Column {
            /// The coefficient.
            coefficient: i64,
            /// The column.
            column: usize,
        },
        /// The constant.
        Constant(i64),
    }

    /// One value of a tuple.
    #[derive(Debug, Clone)]
    pub enum BusValue {
        /// Columns from `start_column` on, packed.
        Packed {
            /// The first column.
            start_column: usize,
            /// How the columns make the value.
            packing: Packing,
        },
        /// The sum of the terms mod p.
        Linear(Vec<LinearTerm>),
        /// A constant mod p.
        Constant(u64),
    }

    impl BusValue {
        /// The sum of the terms mod p.
        pub fn linear(terms: Vec<LinearTerm>) -> Self {
            Self::Linear(terms)
        }

        /// A constant mod p.
        pub fn constant(number: u64) -> Self {
            Self::Constant(number)
        }
    }

    /// How often a row has a tuple.
    #[derive(Debug, Clone)]
    pub enum Multiplicity {
        /// Once.
        One,
        /// As often as the column says.
        Column(usize),
    }

    /// One bus interaction of every row of a table, as data.
    ///
    /// Assumes: an interaction is its bus, its side, its multiplicity and its values in order, and the sign that a
    /// receiver's multiplicity gets on the bus is said by the side.
    #[derive(Debug, Clone)]
    pub struct BusInteraction {
        /// The number of the bus.
        pub bus: u64,
        /// Whether the row sends the tuple; otherwise it receives it.
        pub is_sender: bool,
        /// How often.
        pub multiplicity: Multiplicity,
        /// The tuple's values.
        pub values: Vec<BusValue>,
    }

    impl BusInteraction {
        /// A tuple that the row sends.
        pub fn sender(bus: impl Into<u64>, multiplicity: Multiplicity, values: Vec<BusValue>) -> Self {
            Self {
                bus: bus.into(),
                is_sender: true,
                multiplicity,
                values,
            }
        }

        /// A tuple that the row receives.
        pub fn receiver(bus: impl Into<u64>, multiplicity: Multiplicity, values: Vec<BusValue>) -> Self {
            Self {
                is_sender: false,
                ..Self::sender(bus, multiplicity, values)
            }
        }
    }
}

/// Constraints.
pub mod constraints {
    /// The builder that constraint bodies are written against.
    pub mod builder {
        use core::ops::{Add, Mul, Sub};

        /// Takes the constraints' roots by index.
        ///
        /// Assumes: `main(0, c)` is column `c` of the row itself (the compiled files read no other row), constants are
        /// taken mod p, `+ - *` are those of the field, and `emit_base(i, e)` makes `e` the value at index `i`.
        pub trait ConstraintBuilder<F, E> {
            /// An expression.
            type Expr: Clone + Add<Output = Self::Expr> + Sub<Output = Self::Expr> + Mul<Output = Self::Expr>;

            /// A column of the row `offset` rows below.
            fn main(&self, offset: usize, column: usize) -> Self::Expr;
            /// A constant.
            fn const_base(&self, number: u64) -> Self::Expr;
            /// A signed constant.
            fn const_signed(&self, number: i64) -> Self::Expr;
            /// Zero.
            fn zero(&self) -> Self::Expr;
            /// One.
            fn one(&self) -> Self::Expr;
            /// Makes `root` the value at `index`.
            fn emit_base(&mut self, index: usize, root: Self::Expr);
        }

        /// The constraints of a table.
        pub trait ConstraintSet<F, E> {
            /// The largest degree of a constraint.
            fn max_degree(&self) -> usize;
            /// Emits every constraint.
            fn eval<B: ConstraintBuilder<F, E>>(&self, builder: &mut B);
        }
    }
}

/// Commitments, which are left out.
pub mod commitment {
    use math::field::element::{FieldElement, IsField};

    use crate::config::Commitment;

    /// Not used: commitments are left out.
    pub const ROWS_PER_LEAF: usize = 1;

    /// Not available: commitments are left out.
    pub fn commit_bit_reversed<F: IsField>(
        _columns: &[Vec<FieldElement<F>>],
        _rows_per_leaf: usize,
    ) -> Option<((), Commitment)> {
        unimplemented!("the oracle makes no commitments")
    }
}

/// Names of the configuration.
pub mod config {
    /// A commitment. Assumes: 32 bytes, as in the published constants.
    pub type Commitment = [u8; 32];
}

/// Proofs.
pub mod proof {
    /// Their options.
    pub mod options {
        /// What the commitments read of the options.
        pub struct ProofOptions {
            /// The blowup factor.
            pub blowup_factor: u8,
            /// The coset's offset.
            pub coset_offset: u64,
        }
    }
}

/// The prover, which is left out.
pub mod prover {
    use core::convert::Infallible;

    use math::field::element::{FieldElement, IsField};
    use math::polynomial::Polynomial;

    /// Not available: commitments are left out.
    pub fn evaluate_polynomial_on_lde_domain<F: IsField>(
        _polynomial: &Polynomial<FieldElement<F>>,
        _blowup_factor: usize,
        _domain_size: usize,
        _coset_offset: &FieldElement<F>,
    ) -> Result<Vec<FieldElement<F>>, Infallible> {
        unimplemented!("the oracle makes no commitments")
    }
}
