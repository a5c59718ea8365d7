//! The tuples of a segment's five tables, row by row.

use std::thread;

use keccak_tables::{BusInteraction, P, Parameters, Refusal, bitwise, is_wh, keccak, keccak_rc, keccak_rnd, tuples};

/// The tables, in the order in which they are added up.
#[derive(Debug, Clone, Copy, PartialEq, Eq, PartialOrd, Ord)]
pub enum Table {
    /// The calls.
    Core,
    /// The rounds.
    Round,
    /// The words and halfwords.
    IsWh,
    /// The bytes.
    Bitwise,
    /// The round constants.
    Constants,
}

impl Table {
    /// Every table.
    pub const ALL: [Self; 5] = [Self::Core, Self::Round, Self::IsWh, Self::Bitwise, Self::Constants];

    /// Its file in the folder of a segment.
    #[must_use]
    pub const fn name(self) -> &'static str {
        match self {
            Self::Core => "core",
            Self::Round => "round",
            Self::IsWh => "is_wh",
            Self::Bitwise => "bitwise",
            Self::Constants => "constants",
        }
    }

    /// The words of a row.
    #[must_use]
    pub const fn width(self) -> usize {
        match self {
            Self::Core => keccak::NUM_COLUMNS,
            Self::Round => keccak_rnd::NUM_COLUMNS,
            Self::IsWh => is_wh::NUM_COLUMNS,
            Self::Bitwise => bitwise::NUM_COLUMNS,
            Self::Constants => keccak_rc::NUM_COLUMNS,
        }
    }

    /// How many rows it has, where that is fixed.
    #[must_use]
    pub const fn height(self) -> Option<usize> {
        match self {
            Self::Bitwise => Some(bitwise::NUM_ROWS),
            Self::Constants => Some(keccak_rc::NUM_ROWS),
            _ => None,
        }
    }
}

/// Where a tuple stands.
#[derive(Debug, Clone, Copy, PartialEq, Eq, PartialOrd, Ord)]
pub struct Place {
    /// Its table.
    pub table: Table,
    /// Its row.
    pub row: u64,
    /// Its place in the row.
    pub index: u32,
}

/// What adds up tuples. The tuples of several parts can be added up apart, and joined.
pub trait Adder: Send {
    /// One tuple more, whose multiplicity is not 0.
    fn add(&mut self, place: Place, tuple: BusInteraction, values: &[u64]);
    /// All that another was given.
    fn join(&mut self, other: Self);
}

/// The rows that are worth a thread.
const ROWS: usize = 64;

/// A sum over tables, on all cores.
pub struct Adding<A> {
    parameters: Parameters,
    adders: Vec<A>,
}

impl<A: Adder> Adding<A> {
    /// Nothing yet. The parameters are accepted ones.
    pub fn new(parameters: Parameters, adder: impl Fn() -> A) -> Self {
        let cores = thread::available_parallelism().map_or(1, usize::from);
        Self {
            parameters,
            adders: (0..cores).map(|_| adder()).collect(),
        }
    }

    /// Adds the tuples of whole rows, the first of which has this number in its table.
    ///
    /// # Errors
    ///
    /// What is wrong with a row: a word that is not below p, or a fixed column that is another.
    pub fn rows(&mut self, table: Table, first: u64, rows: &[u64]) -> Result<(), String> {
        let (width, parameters) = (table.width(), self.parameters);
        let count = rows.len() / width;
        let each = count.div_ceil(self.adders.len()).max(ROWS);
        let parts = rows.chunks(each * width).zip(&mut self.adders).enumerate();
        thread::scope(|scope| {
            let part = |(at, (rows, adder))| {
                let first = first + (at * each) as u64;
                scope.spawn(move || of_rows(parameters, table, first, rows, adder))
            };
            let running: Vec<_> = parts.map(part).collect();
            running
                .into_iter()
                .map(|part| part.join().expect("it does not panic"))
                .collect::<Vec<_>>()
        })
        .into_iter()
        .collect()
    }

    /// The whole sum.
    #[must_use]
    pub fn finish(self) -> A {
        let joined = self.adders.into_iter().reduce(|mut all, other| {
            all.join(other);
            all
        });
        joined.expect("there is a core")
    }
}

fn of_rows<A: Adder>(
    parameters: Parameters,
    table: Table,
    first: u64,
    rows: &[u64],
    adder: &mut A,
) -> Result<(), String> {
    let mut out = vec![0; keccak_rnd::TUPLE_WORDS];
    for (number, row) in (first..).zip(rows.chunks_exact(table.width())) {
        let mut add = |index: usize, tuple: BusInteraction, values: &[u64]| {
            if tuple.multiplicity != 0 {
                let place = Place {
                    table,
                    row: number,
                    index: index as u32,
                };
                adder.add(place, tuple, values);
            }
        };
        is_fixed(table, number, row).map_err(|words| format!("row {number}, {words}"))?;
        of_row(parameters, table, row, &mut out, &mut add)
            .map_err(|refusal| format!("row {number}, {}", said(refusal, row)))?;
    }
    Ok(())
}

/// Hands on the tuples of a row: of the core and the round table all at once, of the others by index, and of the bitwise table those alone
/// whose multiplicity is not 0.
fn of_row(
    parameters: Parameters,
    table: Table,
    row: &[u64],
    out: &mut [u64],
    add: &mut dyn FnMut(usize, BusInteraction, &[u64]),
) -> Result<(), Refusal> {
    type ByIndex = fn(&[u64], usize, &mut [u64]) -> Result<BusInteraction, Refusal>;
    let (count, by_index): (usize, ByIndex) = match table {
        Table::Core => {
            // The number of the system call stands in an Ecall tuple alone, whose other end is outside.
            keccak::bus_interactions_with(parameters, row, 0, out)?;
            let all = tuples(&out[..keccak::TUPLE_WORDS]).enumerate();
            all.for_each(|(index, (tuple, values))| add(index, tuple, values));
            return Ok(());
        }
        Table::Round => {
            keccak_rnd::bus_interactions(row, out)?;
            let all = tuples(out).enumerate();
            all.for_each(|(index, (tuple, values))| add(index, tuple, values));
            return Ok(());
        }
        Table::IsWh => (is_wh::NUM_TUPLES, is_wh::bus_interaction),
        Table::Bitwise => (bitwise::NUM_LOOKUP_TYPES, bitwise::bus_interaction),
        Table::Constants => (1, keccak_rc::bus_interaction),
    };
    for index in 0..count {
        if table != Table::Bitwise || row[bitwise::NUM_PRECOMPUTED_COLS + index] != 0 {
            let tuple = by_index(row, index, out)?;
            add(index, tuple, &out[..tuple.length]);
        }
    }
    Ok(())
}

/// That the columns which are fixed beforehand are those that the proved calls write.
fn is_fixed(table: Table, number: u64, row: &[u64]) -> Result<(), String> {
    let mut fixed = [0; bitwise::NUM_PRECOMPUTED_COLS];
    let (count, written) = match table {
        Table::Bitwise => (
            bitwise::NUM_PRECOMPUTED_COLS,
            bitwise::generate_bitwise_row(number as usize, &mut fixed),
        ),
        Table::Constants => (
            keccak_rc::NUM_PRECOMPUTED_COLS,
            keccak_rc::generate_row(number as usize, &mut fixed),
        ),
        _ => return Ok(()),
    };
    written.map_err(|_| "which is past the table's end".to_string())?;
    match (0..count).find(|&column| row[column] != fixed[column]) {
        Some(column) => Err(format!(
            "column {column}: {}, and this column is fixed to {}",
            row[column], fixed[column]
        )),
        None => Ok(()),
    }
}

/// What a refusal says of a row.
fn said(refusal: Refusal, row: &[u64]) -> String {
    match row.iter().position(|&word| word >= P) {
        Some(column) => format!("column {column}: {} is not below p", row[column]),
        None => refusal.to_string(),
    }
}
