//! Every failure of two tables, in the verdict's order. The verdict itself is the proved call's; this list is plain Rust over the proved
//! values and tuples, and its first failure is the verdict's, which tests hold.

use std::collections::{HashMap, HashSet};
use std::sync::LazyLock;

use keccak_tables::verdict::{Table, Verdict};
use keccak_tables::{Bus, BusInteraction, P, Parameters, Refusal, keccak, keccak_rc, keccak_rnd, tuples};

/// Is told how many more rows are done.
type Done<'a> = &'a mut dyn FnMut(u64);

/// Every failure of two tables of whole rows and field elements, by a number of rounds that is accepted. Each row counts twice as done: when its values are looked through, and
/// when its lookups are.
///
/// # Errors
///
/// Those of the verdict on the same tables.
pub fn failures(parameters: Parameters, core: &[u64], round: &[u64], done: Done) -> Result<Vec<Verdict>, Refusal> {
    let core_rows = Rows::new(Table::Core, core);
    let round_rows = Rows::new(Table::Round, round);
    let mut found = Vec::new();
    core_rows.values(&mut found, done)?;
    core_rows.lookups(&mut found, done)?;
    repeated(&core_rows, &mut found);
    round_rows.values(&mut found, done)?;
    round_rows.lookups(&mut found, done)?;
    unbalanced(parameters, &core_rows, &round_rows, &mut found);
    Ok(found)
}

/// The first round, where the rounds are accepted.
fn first_round(parameters: Parameters) -> u64 {
    keccak_rnd::ROUNDS as u64 - parameters.rounds
}

/// The rows of one table.
struct Rows<'a> {
    table: Table,
    width: usize,
    words: &'a [u64],
}

impl<'a> Rows<'a> {
    fn new(table: Table, words: &'a [u64]) -> Self {
        let width = match table {
            Table::Core => keccak::NUM_COLUMNS,
            Table::Round => keccak_rnd::NUM_COLUMNS,
        };
        Self { table, width, words }
    }

    fn all(&self) -> impl Iterator<Item = &'a [u64]> {
        self.words.chunks_exact(self.width)
    }

    fn row(&self, at: usize) -> &'a [u64] {
        &self.words[at * self.width..][..self.width]
    }

    /// The rows whose MU, the last column, is 1.
    fn active(&self) -> impl Iterator<Item = usize> {
        let active = |&(_, row): &(usize, &[u64])| row.last() == Some(&1);
        self.all().enumerate().filter(active).map(|(at, _)| at)
    }

    fn values(&self, found: &mut Vec<Verdict>, done: Done) -> Result<(), Refusal> {
        let mut values = [0; keccak_rnd::NUM_VALUES];
        for (at, row) in (0..).zip(self.all()) {
            match self.table {
                Table::Core => keccak::core_values(row, &mut values)?,
                Table::Round => keccak_rnd::round_values(row, &mut values)?,
            }
            let (table, row) = (self.table, at);
            let wrong = (0..).zip(values).filter(|&(_, value)| value != 0);
            found.extend(wrong.map(|(index, _)| Verdict::Value { table, row, index }));
            done(1);
        }
        Ok(())
    }

    fn lookups(&self, found: &mut Vec<Verdict>, done: Done) -> Result<(), Refusal> {
        let mut words = vec![0; keccak_rnd::TUPLE_WORDS];
        for (at, row) in (0..).zip(self.all()) {
            let length = match self.table {
                // The number of the system call stands in an Ecall tuple alone, which is looked up elsewhere; the rounds on the Keccak bus.
                Table::Core => keccak::bus_interactions(row, 0, &mut words).map(|()| keccak::TUPLE_WORDS)?,
                Table::Round => keccak_rnd::bus_interactions(row, &mut words).map(|()| keccak_rnd::TUPLE_WORDS)?,
            };
            let (table, row) = (self.table, at);
            let lost = (0..)
                .zip(tuples(&words[..length]))
                .filter(|(_, (tuple, values))| !is_found(tuple, values));
            found.extend(lost.map(|(index, _)| Verdict::Lookup { table, row, index }));
            done(1);
        }
        Ok(())
    }
}

/// The 32 constants that KeccakRc finds: a round and eight bytes.
static CONSTANTS: LazyLock<HashSet<[u64; keccak_rc::NUM_PRECOMPUTED_COLS]>> = LazyLock::new(|| {
    let row = |round| {
        let mut row = [0; keccak_rc::NUM_PRECOMPUTED_COLS];
        keccak_rc::generate_row(round, &mut row).map(|()| row)
    };
    (0..keccak_rc::NUM_ROWS).filter_map(|round| row(round).ok()).collect()
});

/// Whether a tuple needs no match or has one. What belongs to tables outside, and the Keccak bus, which is balanced, need none here.
fn is_found(tuple: &BusInteraction, values: &[u64]) -> bool {
    tuple.multiplicity == 0 || is_found_on(tuple.bus, values)
}

/// Whether these values are found where they are looked up.
pub(crate) fn is_found_on(bus: Bus, values: &[u64]) -> bool {
    let byte = |value: u64| value < 256;
    match (bus, values) {
        (Bus::ByteAlu, &[operation, left, right, result]) => {
            let expected = [left & right, left | right, left ^ right];
            byte(left) && byte(right) && expected.get(operation as usize) == Some(&result)
        }
        (Bus::AreBytes, &[low, high]) => byte(low) && byte(high),
        (Bus::IsHalfword, &[half]) => half < 1 << 16,
        (Bus::IsWh, &[word, half]) => word < 1 << 32 && half < 1 << 16,
        (Bus::KeccakRc, values) => values
            .try_into()
            .is_ok_and(|values: [u64; 9]| CONSTANTS.contains(&values)),
        (bus, _) => [Bus::Keccak, Bus::Memw, Bus::Ecall].contains(&bus),
    }
}

fn repeated(core: &Rows, found: &mut Vec<Verdict>) {
    let mut stamps = HashSet::new();
    let again = core
        .active()
        .filter(|&at| !stamps.insert([core.row(at)[0], core.row(at)[1]]));
    found.extend(again.map(|row| Verdict::Repeated { row: row as u64 }));
}

/// A tuple of the Keccak bus: where it stands, and its state as a row's columns, lane (0, 0) and the others.
struct Message<'a> {
    table: Table,
    row: usize,
    index: u64,
    sent: bool,
    state: (&'a [u64], &'a [u64]),
}

/// The messages of active rows whose state, timestamp and round are not sent as often as received.
fn unbalanced(parameters: Parameters, core: &Rows, round: &Rows, found: &mut Vec<Verdict>) {
    use keccak::cols::{INPUT_STATE, OUTPUT_STATE};
    let (first, end) = (first_round(parameters), keccak_rnd::ROUNDS as u64);
    let mut groups: HashMap<[u64; 3], Vec<Message>> = HashMap::new();
    for row in core.active() {
        let columns = core.row(row);
        for (index, start, step) in [(2, INPUT_STATE, first), (3, OUTPUT_STATE, end)] {
            let state = columns[start..][..200].split_at(8);
            let (table, sent) = (Table::Core, index == 2);
            groups.entry([columns[0], columns[1], step]).or_default().push(Message {
                table,
                row,
                index,
                sent,
                state,
            });
        }
    }
    for row in round.active() {
        use keccak_rnd::cols::{CHI, IOTA, ROUND, START};
        let columns = round.row(row);
        let before = columns[START..][..200].split_at(8);
        let after = (&columns[IOTA..][..8], &columns[CHI + 8..][..192]);
        let next = (columns[ROUND] + 1) % P;
        for (index, state, step) in [(0, before, columns[ROUND]), (1, after, next)] {
            let (table, sent) = (Table::Round, index == 1);
            groups.entry([columns[0], columns[1], step]).or_default().push(Message {
                table,
                row,
                index,
                sent,
                state,
            });
        }
    }
    let mut lost: Vec<(bool, usize, u64)> = groups.into_values().flat_map(uneven).collect();
    lost.sort_unstable();
    found.extend(lost.into_iter().map(|(in_round, row, index)| {
        let table = if in_round { Table::Round } else { Table::Core };
        Verdict::Unbalanced {
            table,
            row: row as u64,
            index,
        }
    }));
}

/// The messages of one timestamp and round whose state is not sent as often as received: whether in the round table, row and index.
fn uneven(mut messages: Vec<Message>) -> Vec<(bool, usize, u64)> {
    messages.sort_by(|left, right| left.state.cmp(&right.state));
    let even = |alike: &[Message]| 2 * alike.iter().filter(|message| message.sent).count() == alike.len();
    let uneven = messages
        .chunk_by(|left, right| left.state == right.state)
        .filter(|alike| !even(alike));
    uneven
        .flatten()
        .map(|message| (message.table == Table::Round, message.row, message.index))
        .collect()
}
