//! Answers of bitwise.rs.

use std::sync::{LazyLock, OnceLock};

use math::field::goldilocks::GoldilocksField;
use stark::lookup::BusInteraction;
use stark::trace::TraceTable;

use crate::answers::is_wh::rows_of;
use crate::row::{check_width, element, elements, words};
use crate::tables::bitwise::{
    BitwiseHistogram, BitwiseOperation, BitwiseOperationType, NUM_LOOKUP_TYPES, NUM_PRECOMPUTED_COLS, NUM_ROWS,
    bus_interactions, cols, generate_bitwise_row, generate_bitwise_trace, lookup_type_index, mu_column, row_index,
    update_multiplicities,
};
use crate::tables::is_wh::{IsWhKey, collect_bitwise_from_is_wh};
use crate::tables::types::{FE, GoldilocksExtension, zeroed_fe_vec};
use crate::tuple::{Tuple, tuples};

/// The columns of a bitwise row: 11 as precomputed, then a multiplicity for each of the ten kinds of lookup.
pub const BITWISE_COLUMNS: usize = cols::NUM_COLUMNS;

/// The number of counters, one for each row and kind.
pub const COUNTERS: usize = NUM_ROWS * NUM_LOOKUP_TYPES;

type Trace = TraceTable<GoldilocksField, GoldilocksExtension>;

/// The 11 precomputed words of a row (`generate_bitwise_row`).
pub fn bitwise_row(index: usize) -> [u64; NUM_PRECOMPUTED_COLS] {
    assert!(index < NUM_ROWS, "the bitwise table has {NUM_ROWS} rows");
    generate_bitwise_row(index)
}

/// The row of two bytes and a number below 16 (`row_index`).
pub fn bitwise_row_index(x: u8, y: u8, z: u8) -> usize {
    assert!(z < 16, "Z is below 16");
    row_index(x, y, z)
}

/// The 21 words of a row as the table's writer fills it (`generate_bitwise_trace`), multiplicities 0.
///
/// The first call writes all 2^20 rows, about 180 megabytes.
pub fn bitwise_table_row(index: usize) -> [u64; BITWISE_COLUMNS] {
    static TRACE: OnceLock<Trace> = OnceLock::new();
    let row = TRACE.get_or_init(generate_bitwise_trace).main_table.get_row(index);
    core::array::from_fn(|column| row[column].value())
}

/// The 10 tuples of a row of 21 words.
pub fn bitwise_tuples(row: &[u64]) -> Vec<Tuple> {
    static INTERACTIONS: LazyLock<Vec<BusInteraction>> = LazyLock::new(bus_interactions);
    check_width(row, BITWISE_COLUMNS);
    tuples(&INTERACTIONS, row)
}

/// One lookup on the bitwise table.
#[derive(Debug, Clone, Copy, PartialEq, Eq, PartialOrd, Ord, Hash)]
pub struct Lookup {
    /// Its kind, 0 to 9 as in `lookup_type_index`.
    pub kind: usize,
    /// The first byte.
    pub x: u8,
    /// The second byte.
    pub y: u8,
    /// The number below 16.
    pub z: u8,
}

impl Lookup {
    /// The place of its counter: row × 10 + kind.
    ///
    /// The Rust counts in `kind × 2^20 + row` of its histogram, and then in the multiplicity columns of the row.
    pub fn counter(self) -> usize {
        bitwise_row_index(self.x, self.y, self.z) * NUM_LOOKUP_TYPES + self.kind
    }

    /// The Rust's request for it (`BitwiseOperation::new`).
    pub fn operation(self) -> BitwiseOperation {
        BitwiseOperation::new(BitwiseOperationType::ALL[self.kind], self.x, self.y, self.z)
    }
}

impl From<BitwiseOperation> for Lookup {
    fn from(operation: BitwiseOperation) -> Self {
        Self {
            kind: lookup_type_index(operation.lookup_type),
            x: operation.x,
            y: operation.y,
            z: operation.z,
        }
    }
}

/// What a counter holds after one lookup, when it held `counter` (below p) before (`update_multiplicities`).
pub fn bitwise_count(counter: u64, lookup: Lookup) -> u64 {
    let mut trace = zero_trace();
    let operation = lookup.operation();
    let row = row_index(operation.x, operation.y, operation.z);
    let column = mu_column(operation.lookup_type);
    trace.main_table.set_fe(row, column, element(counter));
    update_multiplicities(&mut trace, &[operation]);
    trace.main_table.get_row(row)[column].value()
}

/// Every counter that is not 0 after the lookups, all starting from 0, as (place, count), lowest place first
/// (`BitwiseHistogram`). Places are as in [`Lookup::counter`].
pub fn bitwise_counts(lookups: &[Lookup]) -> Vec<(usize, u64)> {
    let mut counters = Counters::new();
    for &lookup in lookups {
        counters.bump(lookup);
    }
    let words = counters.words().into_iter().enumerate();
    words.filter(|&(_, count)| count != 0).collect()
}

/// The Rust's counters (`BitwiseHistogram`). A counter is a `u64` there, and wraps past 2^64 - 1 in a build without checks of
/// overflow.
pub struct Counters(BitwiseHistogram);

impl Counters {
    /// Counters that hold 0.
    #[allow(clippy::new_without_default)]
    pub fn new() -> Self {
        Self(BitwiseHistogram::new())
    }

    /// Adds one lookup.
    pub fn bump(&mut self, lookup: Lookup) {
        self.0.bump(lookup.operation());
    }

    /// Adds `n` lookups.
    pub fn bump_n(&mut self, lookup: Lookup, n: u64) {
        self.0.bump_n(lookup.operation(), n);
    }

    /// Adds a list of lookups.
    pub fn add_ops(&mut self, operations: &[BitwiseOperation]) {
        self.0.add_ops(operations);
    }

    /// Adds other counters.
    pub fn merge(&mut self, other: &Self) {
        self.0.merge(&other.0);
    }

    /// Adds what the rows of the IS_WH table look up, three words a row: word, half, count (`collect_bitwise_from_is_wh`).
    pub fn collect_is_wh(&mut self, rows: &[u64]) {
        self.collect_is_wh_rows(&rows_of(rows));
    }

    /// The same of rows as the Rust has them. For a benchmark.
    pub fn collect_is_wh_rows(&mut self, rows: &[(IsWhKey, u64)]) {
        collect_bitwise_from_is_wh(rows, &mut self.0);
    }

    /// Writes the multiplicities of a table (`fill_multiplicities`), which leaves them where a counter is 0.
    pub fn fill_multiplicities(&self, table: &mut BitwiseTable) {
        self.0.fill_multiplicities(&mut table.0);
    }

    /// Every counter mod p, at row × 10 + kind, read through the multiplicities of a table.
    pub fn words(&self) -> Vec<u64> {
        let mut table = BitwiseTable(zero_trace());
        self.fill_multiplicities(&mut table);
        let counters = |cells: &[FE]| BitwiseOperationType::ALL.map(|kind| cells[mu_column(kind)].value());
        table
            .0
            .main_table
            .data
            .chunks_exact(BITWISE_COLUMNS)
            .flat_map(counters)
            .collect()
    }
}

/// The Rust's bitwise table.
pub struct BitwiseTable(Trace);

impl BitwiseTable {
    /// The table as its writer makes it (`generate_bitwise_trace`).
    pub fn generate() -> Self {
        Self(generate_bitwise_trace())
    }

    /// A table of these words, 21 a row, all below p.
    pub fn of_words(table: &[u64]) -> Self {
        Self(TraceTable::new_main(elements(table), BITWISE_COLUMNS, 1))
    }

    /// Counts lookups in its multiplicities (`update_multiplicities`).
    pub fn update_multiplicities(&mut self, operations: &[BitwiseOperation]) {
        update_multiplicities(&mut self.0, operations);
    }

    /// Its words, row after row.
    pub fn words(&self) -> Vec<u64> {
        words(&self.0)
    }
}

/// A bitwise table of zeros: counting reads no other column than the one it adds to.
fn zero_trace() -> Trace {
    TraceTable::new_main(zeroed_fe_vec(NUM_ROWS * BITWISE_COLUMNS), BITWISE_COLUMNS, 1)
}
