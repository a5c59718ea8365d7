//! The two tables whose rows are evaluated, core and round, and the rows on which their values and tuples are compared:
//! written ones, ones with a column replaced, drawn ones, and ones of words at a border.

use keccak_tables::{BusInteraction, P, Refusal, keccak, keccak_rnd};

use crate::comparison::Comparison;
use crate::inputs::Words;
use crate::lent::Lent;

/// A call for a tuple of a row by its index and the number of the system call.
type SyscallTuple = fn(&[u64], usize, u64, &mut [u64]) -> Result<BusInteraction, Refusal>;

/// A call for all tuples of a row by the number of the system call.
type AllTuples = fn(&[u64], u64, &mut [u64]) -> Result<(), Refusal>;

/// A table: our calls, and the Rust's answers. Only core tuples depend on the number of the system call.
pub struct Table {
    /// Its name.
    pub name: &'static str,
    /// The columns of a row.
    pub columns: usize,
    /// How many values a row has.
    pub num_values: usize,
    /// How many tuples a row has.
    pub num_tuples: usize,
    /// Writes the table of a list of operations.
    pub written: fn(&[u64]) -> Result<Vec<u64>, Refusal>,
    /// How many drawn operations are written.
    pub operations: usize,
    /// The archive's name of the call for values.
    pub values_name: &'static str,
    /// The archive's name of the call for a tuple.
    pub tuple_name: &'static str,
    /// The values of a row.
    pub values: fn(&[u64], &mut [u64]) -> Result<(), Refusal>,
    /// The same by the Rust.
    pub rust_values: fn(&[u64]) -> Vec<u64>,
    /// A tuple of a row.
    pub tuple: SyscallTuple,
    /// The archive's name of the call for all tuples.
    pub tuples_name: &'static str,
    /// The words of a row's tuples.
    pub tuple_words: usize,
    /// All tuples of a row, as words.
    pub tuples: AllTuples,
    /// All tuples of a row by the Rust.
    pub rust_tuples: fn(&[u64], u64) -> Vec<oracle::Tuple>,
}

/// The core table.
pub const CORE: Table = Table {
    name: "core",
    columns: keccak::NUM_COLUMNS,
    num_values: keccak::NUM_VALUES,
    num_tuples: keccak::NUM_TUPLES,
    written: keccak::keccak_table,
    operations: 50,
    values_name: "keccak_values",
    tuple_name: "keccak_bus_interaction",
    values: keccak::core_values,
    rust_values: oracle::core_values,
    tuple: keccak::bus_interaction,
    tuples_name: "keccak_bus_interactions",
    tuple_words: keccak::TUPLE_WORDS,
    tuples: keccak::bus_interactions,
    rust_tuples: oracle::core_tuples,
};

/// The round table.
pub const ROUND: Table = Table {
    name: "round",
    columns: keccak_rnd::NUM_COLUMNS,
    num_values: keccak_rnd::NUM_VALUES,
    num_tuples: keccak_rnd::NUM_TUPLES,
    written: keccak_rnd::keccak_rnd_table,
    operations: 3,
    values_name: "keccak_rnd_values",
    tuple_name: "keccak_rnd_bus_interaction",
    values: keccak_rnd::round_values,
    rust_values: oracle::round_values,
    tuple: |row, index, _, out| keccak_rnd::bus_interaction(row, index, out),
    tuples_name: "keccak_rnd_bus_interactions",
    tuple_words: keccak_rnd::TUPLE_WORDS,
    tuples: |row, _, out| keccak_rnd::bus_interactions(row, out),
    rust_tuples: |row, _| oracle::round_tuples(row),
};

/// Words at a border of the field, of bytes, of halfwords or of words of 32 bits.
const BORDERS: [u64; 15] = [
    P - 1,
    0,
    1,
    (1 << 16) - 1,
    1 << 16,
    (1 << 16) + 1,
    (1 << 32) - 1,
    1 << 32,
    (1 << 32) + 1,
    255,
    256,
    1 << 48,
    1 << 63,
    P - (1 << 16),
    P - (1 << 32),
];

/// What is compared of a row: it gets what the row is, and the row, which is lent with guards and may be longer than its
/// columns.
pub trait Check: FnMut(&mut Comparison, &mut Words, &str, &[u64]) {}

impl<T: FnMut(&mut Comparison, &mut Words, &str, &[u64])> Check for T {}

impl Table {
    /// Checks every kind of row in turn; `n` of the drawn ones.
    pub fn each_row(&self, comparison: &mut Comparison, words: &mut Words, n: usize, mut check: impl Check) {
        let name = self.name;
        let ops = words.operations(self.operations);
        let table = (self.written)(&ops).expect("drawn operations are accepted");
        let rows: Vec<&[u64]> = table.chunks_exact(self.columns).collect();

        comparison.group(format!("{name} rows as written, padding included"));
        for (row, columns) in rows.iter().enumerate() {
            let what = format!("{name} row {row} of the table of {ops:?}");
            lend(comparison, words, &what, columns, &mut check);
        }
        let drawn = self.drawn(words);
        comparison.group(format!("{name} rows with each column replaced in turn"));
        self.replaced_columns(comparison, words, [rows[1], &drawn], &mut check);
        comparison.group(format!("{name} rows whose MU is 0 to 32 or p - 16 to p - 1"));
        self.multiplicities(comparison, words, [rows[1], &drawn], &mut check);
        comparison.group(format!("{name} rows of drawn words"));
        for _ in 0..n {
            let row = self.drawn(words);
            lend(comparison, words, &format!("a drawn {name} row"), &row, &mut check);
        }
        comparison.group(format!("{name} rows of words at a border"));
        let what = format!("a {name} row of border words");
        for row in self.border_rows(words, n) {
            lend(comparison, words, &what, &row, &mut check);
        }
    }

    /// A row of drawn words.
    fn drawn(&self, words: &mut Words) -> Vec<u64> {
        (0..self.columns).map(|_| words.below(P)).collect()
    }

    /// Each column in turn holds another word than it did: in a written row an element, then a small number, and in a drawn row
    /// an element.
    fn replaced_columns(
        &self,
        comparison: &mut Comparison,
        words: &mut Words,
        [written, drawn]: [&[u64]; 2],
        check: &mut impl Check,
    ) {
        let element: fn(&mut Words) -> u64 = Words::element;
        for (base, word) in [(written, element), (written, |words| words.below(32)), (drawn, element)] {
            for column in 0..self.columns {
                let mut row = base.to_vec();
                while row[column] == base[column] {
                    row[column] = word(words);
                }
                let what = format!("a {} row whose column {column} was {}", self.name, base[column]);
                lend(comparison, words, &what, &row, check);
            }
        }
    }

    /// MU is each number about 0.
    fn multiplicities(
        &self,
        comparison: &mut Comparison,
        words: &mut Words,
        bases: [&[u64]; 2],
        check: &mut impl Check,
    ) {
        for base in bases {
            for mu in (0..=32).chain(P - 16..P) {
                let mut row = base.to_vec();
                row[self.columns - 1] = mu;
                let what = format!("a {} row with MU {mu}", self.name);
                lend(comparison, words, &what, &row, check);
            }
        }
    }

    /// Rows of one border word, rows that go through them from each on, and `n` rows of drawn ones.
    fn border_rows(&self, words: &mut Words, n: usize) -> Vec<Vec<u64>> {
        let count = BORDERS.len();
        let mut rows: Vec<Vec<u64>> = BORDERS.iter().map(|&word| vec![word; self.columns]).collect();
        rows.extend((0..count).map(|first| (0..self.columns).map(|c| BORDERS[(first + c) % count]).collect()));
        rows.extend((0..n).map(|_| {
            (0..self.columns)
                .map(|_| BORDERS[words.below(count as u64) as usize])
                .collect()
        }));
        rows
    }
}

/// Checks one row: lent with guards, and with up to two words past its columns that are no elements, because no call reads
/// them. Every word of it is to be as it was afterwards.
pub fn lend(comparison: &mut Comparison, words: &mut Words, what: &str, columns: &[u64], check: &mut impl Check) {
    let past = words.below(3) as usize;
    let row = [columns, &[P, u64::MAX][..past]].concat();
    let mut lent = Lent::new(&row, words);
    check(comparison, words, what, lent.slice());
    lent.kept(comparison, |_| format!("{what}, which is only read: {row:?}"));
}
