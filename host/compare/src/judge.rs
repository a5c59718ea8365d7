//! A judge of two tables of its own, against which the proved one is held. It is written from the scope's words alone,
//! over the published Rust's values and tuples as the oracle evaluates them, and balances the bus in a hash map.

use std::collections::{HashMap, HashSet};
use std::fmt;
use std::sync::LazyLock;

use oracle::{Bus, CORE_COLUMNS, KECCAK_RC_COLUMNS, P, ROUND_COLUMNS, Side, Tuple};

use crate::by_rounds;

/// One of the two tables.
#[derive(Debug, Clone, Copy, PartialEq, Eq, PartialOrd, Ord, Hash)]
pub enum Table {
    /// The core table, number 0.
    Core,
    /// The round table, number 1.
    Round,
}

/// What is said of two tables. A row and an index count from 0.
#[derive(Debug, Clone, Copy, PartialEq, Eq, Hash)]
pub enum Verdict {
    /// Both hold, with so many active core rows.
    Holds(u64),
    /// A value that is not 0.
    Value(Table, u64, u64),
    /// A tuple that is not found.
    Lookup(Table, u64, u64),
    /// An active core row whose timestamp an earlier active one has.
    Timestamp(u64),
    /// A tuple that is not sent as often as received.
    Balance(Table, u64, u64),
    /// Refused: number and detail.
    Refused(u64, u64),
}

impl Verdict {
    /// The four words in which a verdict is handed over.
    pub fn words(self) -> [u64; 4] {
        match self {
            Self::Holds(count) => [0, count, 0, 0],
            Self::Value(table, row, index) => [if table == Table::Core { 1 } else { 4 }, table as u64, row, index],
            Self::Lookup(table, row, index) => [if table == Table::Core { 2 } else { 5 }, table as u64, row, index],
            Self::Timestamp(row) => [3, 0, row, 0],
            Self::Balance(table, row, index) => [6, table as u64, row, index],
            Self::Refused(number, detail) => [7, number, detail, 0],
        }
    }
}

/// One line: `holds N`; `core` or `round`, `row R`, then `value I`, `lookup I`, `timestamp 0` or `balance I`; or
/// `refused N D`.
impl fmt::Display for Verdict {
    fn fmt(&self, f: &mut fmt::Formatter<'_>) -> fmt::Result {
        let name = |table| if table == Table::Core { "core" } else { "round" };
        match *self {
            Self::Holds(count) => write!(f, "holds {count}"),
            Self::Value(table, row, index) => write!(f, "{} row {row} value {index}", name(table)),
            Self::Lookup(table, row, index) => write!(f, "{} row {row} lookup {index}", name(table)),
            Self::Timestamp(row) => write!(f, "core row {row} timestamp 0"),
            Self::Balance(table, row, index) => write!(f, "{} row {row} balance {index}", name(table)),
            Self::Refused(number, detail) => write!(f, "refused {number} {detail}"),
        }
    }
}

/// The verdict on a core table and a round table of 24 rounds.
pub fn verdict(core: &[u64], round: &[u64]) -> Verdict {
    verdict_by(by_rounds::ALL, core, round)
}

/// The same of nr rounds.
pub fn verdict_by(nr: u64, core: &[u64], round: &[u64]) -> Verdict {
    first_failure(nr, core, round).unwrap_or_else(|| {
        let active = core.chunks_exact(CORE_COLUMNS).filter(|row| is_active(row)).count();
        Verdict::Holds(active as u64)
    })
}

/// The first failure, in the scope's order; refusals come before all.
fn first_failure(nr: u64, core: &[u64], round: &[u64]) -> Option<Verdict> {
    let mut bus = Vec::new();
    let core_rows = || core.chunks_exact(CORE_COLUMNS);
    let round_rows = || round.chunks_exact(ROUND_COLUMNS);
    refusal(nr, core, round)
        .or_else(|| first_value(core_rows(), oracle::core_values).map(|(r, i)| Verdict::Value(Table::Core, r, i)))
        .or_else(|| {
            // The system call's number stands in an Ecall tuple alone, which belongs to a table outside.
            let tuples = |row: &[u64]| by_rounds::core_tuples(nr, row, 0);
            first_lookup(core_rows(), tuples, Table::Core, &mut bus).map(|(r, i)| Verdict::Lookup(Table::Core, r, i))
        })
        .or_else(|| repeated_timestamp(core).map(Verdict::Timestamp))
        .or_else(|| first_value(round_rows(), oracle::round_values).map(|(r, i)| Verdict::Value(Table::Round, r, i)))
        .or_else(|| {
            first_lookup(round_rows(), oracle::round_tuples, Table::Round, &mut bus)
                .map(|(r, i)| Verdict::Lookup(Table::Round, r, i))
        })
        .or_else(|| unbalanced(&bus))
}

/// 8, a number of rounds that is none; then 2, a table that is not whole rows; then 5, a word that is p or more; the core table before the
/// round table.
fn refusal(nr: u64, core: &[u64], round: &[u64]) -> Option<Verdict> {
    if let Some((number, detail)) = by_rounds::refusal(nr) {
        return Some(Verdict::Refused(number, detail));
    }
    if !core.len().is_multiple_of(CORE_COLUMNS) {
        return Some(Verdict::Refused(2, 0));
    }
    if !round.len().is_multiple_of(ROUND_COLUMNS) {
        return Some(Verdict::Refused(2, 1));
    }
    [core, round]
        .iter()
        .find_map(|table| table.iter().position(|&word| word >= P))
        .map(|place| Verdict::Refused(5, place as u64))
}

/// A row is active when MU, its last column, is 1.
fn is_active(row: &[u64]) -> bool {
    row.last() == Some(&1)
}

/// The first row with a value that is not 0, and the first such value in it.
fn first_value<'a>(rows: impl Iterator<Item = &'a [u64]>, values: impl Fn(&[u64]) -> Vec<u64>) -> Option<(u64, u64)> {
    rows.enumerate().find_map(|(row, columns)| {
        let index = values(columns).iter().position(|&value| value != 0)?;
        Some((row as u64, index as u64))
    })
}

/// A tuple of the Keccak bus and where it stands.
struct OnBus {
    table: Table,
    row: u64,
    index: u64,
    side: Side,
    values: Vec<u64>,
}

/// What an active row has on the Keccak bus.
fn on_bus(table: Table, row: u64, columns: &[u64], tuples: Vec<Tuple>) -> impl Iterator<Item = OnBus> {
    let active = is_active(columns);
    (0..)
        .zip(tuples)
        .filter(move |(_, tuple)| active && tuple.bus == Bus::Keccak)
        .map(move |(index, Tuple { side, values, .. })| OnBus {
            table,
            row,
            index,
            side,
            values,
        })
}

/// The first row with a tuple that is not found, and the first such tuple in it. What active rows have on the Keccak bus
/// is put on `bus` in passing, because the Rust's tuples are evaluated all at once.
fn first_lookup<'a>(
    rows: impl Iterator<Item = &'a [u64]>,
    tuples: impl Fn(&[u64]) -> Vec<Tuple>,
    table: Table,
    bus: &mut Vec<OnBus>,
) -> Option<(u64, u64)> {
    for (row, columns) in (0..).zip(rows) {
        let tuples = tuples(columns);
        if let Some(index) = tuples.iter().position(is_missing) {
            return Some((row, index as u64));
        }
        bus.extend(on_bus(table, row, columns, tuples));
    }
    None
}

/// Whether a tuple has to be found and is not.
fn is_missing(tuple: &Tuple) -> bool {
    tuple.multiplicity != 0 && !is_found(tuple)
}

/// Whether a tuple stands where it is looked up; of a bus that is not looked up here, yes.
///
/// What is said of the bitwise rows in arithmetic here is what their tuples are: a test goes through all 2^20 rows.
fn is_found(tuple: &Tuple) -> bool {
    match (tuple.bus, tuple.values.as_slice()) {
        (Bus::ByteAlu, &[operation, x, y, result]) => {
            x < 256 && y < 256 && [x & y, x | y, x ^ y].get(operation as usize) == Some(&result)
        }
        (Bus::AreBytes, &[x, y]) => x < 256 && y < 256,
        (Bus::IsHalfword, &[half]) => half < 1 << 16,
        (Bus::IsWh, &[word, half]) => word < 1 << 32 && half < 1 << 16,
        (Bus::KeccakRc, values) => ROUND_CONSTANTS.contains(values),
        (Bus::Keccak | Bus::Memw | Bus::Ecall, _) => true,
        (bus, values) => panic!("no row of these tables has {values:?} on {bus:?}"),
    }
}

/// The tuples of the 32 constant rows.
static ROUND_CONSTANTS: LazyLock<HashSet<Vec<u64>>> = LazyLock::new(|| {
    oracle::keccak_rc_table(0)
        .chunks_exact(KECCAK_RC_COLUMNS)
        .flat_map(oracle::keccak_rc_tuples)
        .map(|tuple| tuple.values)
        .collect()
});

/// The first active core row whose two timestamp words an earlier active one has.
fn repeated_timestamp(core: &[u64]) -> Option<u64> {
    let mut seen = HashSet::new();
    core.chunks_exact(CORE_COLUMNS)
        .position(|row| is_active(row) && !seen.insert([row[0], row[1]]))
        .map(|row| row as u64)
}

/// The first tuple that is not sent as often as received. `bus` has the core table's tuples before the round table's,
/// each by row, then by index: a core row sends at 2 and receives at 3, a round row receives at 0 and sends at 1.
fn unbalanced(bus: &[OnBus]) -> Option<Verdict> {
    let mut counts: HashMap<&[u64], (u64, u64)> = HashMap::new();
    for tuple in bus {
        let (sent, received) = counts.entry(&tuple.values).or_default();
        match tuple.side {
            Side::Sender => *sent += 1,
            Side::Receiver => *received += 1,
        }
    }
    bus.iter()
        .find(|tuple| {
            let (sent, received) = counts[tuple.values.as_slice()];
            sent != received
        })
        .map(|tuple| Verdict::Balance(tuple.table, tuple.row, tuple.index))
}

/// How many values are not 0, tuples not found, timestamps repeated and tuples unbalanced, the last two counted as one at
/// most.
#[cfg(test)]
pub(crate) fn rules_broken(core: &[u64], round: &[u64]) -> usize {
    let core_rows = core.chunks_exact(CORE_COLUMNS).map(|row| (Table::Core, row));
    let round_rows = round.chunks_exact(ROUND_COLUMNS).map(|row| (Table::Round, row));
    let mut broken = usize::from(repeated_timestamp(core).is_some());
    let mut bus = Vec::new();
    for (table, row) in core_rows.chain(round_rows) {
        let (values, tuples) = match table {
            Table::Core => (oracle::core_values(row), oracle::core_tuples(row, 0)),
            Table::Round => (oracle::round_values(row), oracle::round_tuples(row)),
        };
        broken += values.iter().filter(|&&value| value != 0).count();
        broken += tuples.iter().filter(|tuple| is_missing(tuple)).count();
        bus.extend(on_bus(table, 0, row, tuples));
    }
    broken + usize::from(unbalanced(&bus).is_some())
}

#[cfg(test)]
mod tests {
    use super::*;

    /// Every tuple that the bitwise rows have on a bus.
    fn of_bitwise_rows(asked: Bus) -> HashSet<Vec<u64>> {
        let mut row = [0; oracle::BITWISE_COLUMNS];
        (0..1 << 20)
            .flat_map(|index| {
                let fixed = oracle::bitwise_row(index);
                row[..fixed.len()].copy_from_slice(&fixed);
                oracle::bitwise_tuples(&row)
            })
            .filter(|tuple| tuple.bus == asked)
            .map(|tuple| tuple.values)
            .collect()
    }

    fn found(bus: Bus, values: Vec<u64>) -> bool {
        is_found(&Tuple {
            bus,
            side: Side::Sender,
            multiplicity: 1,
            values,
        })
    }

    /// The set has `size` members, as many as are found by arithmetic, and each of them is found: so they are the same.
    fn same(bus: Bus, size: usize) {
        let rows = of_bitwise_rows(bus);
        assert_eq!(rows.len(), size);
        assert!(rows.into_iter().all(|values| found(bus, values)));
    }

    #[test]
    fn lookups_by_arithmetic_are_the_bitwise_rows() {
        // Two bytes have one result for each of three operations.
        same(Bus::ByteAlu, 3 << 16);
        same(Bus::AreBytes, 1 << 16);
        same(Bus::IsHalfword, 1 << 16);
    }

    #[test]
    fn lookups_at_their_edges() {
        for (bus, values, expected) in [
            (Bus::ByteAlu, vec![0, 255, 1, 1], true),
            (Bus::ByteAlu, vec![0, 256, 1, 0], false),
            (Bus::ByteAlu, vec![2, 1, 256, 257], false),
            (Bus::ByteAlu, vec![3, 0, 0, 0], false),
            (Bus::AreBytes, vec![255, 255], true),
            (Bus::AreBytes, vec![255, 256], false),
            (Bus::AreBytes, vec![P - 1, 0], false),
            (Bus::IsHalfword, vec![65_535], true),
            (Bus::IsHalfword, vec![65_536], false),
            (Bus::IsWh, vec![u64::from(u32::MAX), 65_535], true),
            (Bus::IsWh, vec![1 << 32, 0], false),
            (Bus::IsWh, vec![0, 65_536], false),
            (Bus::KeccakRc, vec![0, 1, 0, 0, 0, 0, 0, 0, 0], true),
            (Bus::KeccakRc, vec![0; 9], false),
            (Bus::KeccakRc, vec![31, 0, 0, 0, 0, 0, 0, 0, 0], true),
            (Bus::KeccakRc, vec![32, 0, 0, 0, 0, 0, 0, 0, 0], false),
        ] {
            assert_eq!(found(bus, values.clone()), expected, "{bus:?} {values:?}");
        }
        assert_eq!(ROUND_CONSTANTS.len(), 32);
    }

    #[test]
    fn lines_and_words() {
        for (verdict, line, words) in [
            (Verdict::Holds(3), "holds 3", [0, 3, 0, 0]),
            (Verdict::Value(Table::Core, 1, 50), "core row 1 value 50", [1, 0, 1, 50]),
            (
                Verdict::Lookup(Table::Core, 1, 54),
                "core row 1 lookup 54",
                [2, 0, 1, 54],
            ),
            (Verdict::Timestamp(4), "core row 4 timestamp 0", [3, 0, 4, 0]),
            (
                Verdict::Value(Table::Round, 9, 140),
                "round row 9 value 140",
                [4, 1, 9, 140],
            ),
            (
                Verdict::Lookup(Table::Round, 9, 2),
                "round row 9 lookup 2",
                [5, 1, 9, 2],
            ),
            (
                Verdict::Balance(Table::Core, 0, 2),
                "core row 0 balance 2",
                [6, 0, 0, 2],
            ),
            (
                Verdict::Balance(Table::Round, 9, 1),
                "round row 9 balance 1",
                [6, 1, 9, 1],
            ),
            (Verdict::Refused(5, 486), "refused 5 486", [7, 5, 486, 0]),
        ] {
            assert_eq!(verdict.to_string(), line);
            assert_eq!(verdict.words(), words);
        }
    }
}
