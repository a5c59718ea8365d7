//! Tables of the same calls in several orders of their rows, and of rows that are hard to tell apart: what whoever judges them does not choose.

use keccak_tables::{OP_WORDS, keccak, keccak_rnd};

use crate::dishonest::{Tables, shuffle};
use crate::inputs::Words;

const CORE_WIDTH: usize = keccak::NUM_COLUMNS;
const WIDTH: usize = keccak_rnd::NUM_COLUMNS;

/// The tables of so many calls, timestamps rising, as they are written: the writer's order.
pub fn written(calls: usize, words: &mut Words) -> Tables {
    let mut list = Vec::with_capacity(calls * OP_WORDS);
    for call in 1..=calls as u64 {
        list.extend([call << 2, call << 12]);
        list.extend((0..25).map(|_| words.lane()));
        list.extend([0; OP_WORDS - 27]);
    }
    Tables::by_rounds(keccak_rnd::ROUNDS as u64, &list)
}

/// A name, and what is done to written tables of so many calls.
pub type Order = (&'static str, fn(&mut Tables, usize, &mut Words));

/// Every order. In the first four both tables hold as they did; the rows of the others have one timestamp, or are all the same.
pub const ORDERS: [Order; 8] = [
    ("reversed", |tables, _, _| {
        tables.core = reversed(&tables.core, CORE_WIDTH);
        tables.round = reversed(&tables.round, WIDTH);
    }),
    ("calls-shuffled", |tables, calls, words| {
        let call = keccak_rnd::ROUNDS * WIDTH;
        shuffle(&mut tables.round[..calls * call], call, words);
    }),
    ("rows-shuffled", |tables, _, words| {
        shuffle(&mut tables.round, WIDTH, words)
    }),
    ("core-descending", |tables, _, _| {
        tables.core = reversed(&tables.core, CORE_WIDTH)
    }),
    // A repeated timestamp ends the verdict before the bus is looked at.
    ("one-timestamp", |tables, calls, _| {
        stamp(&mut tables.core, CORE_WIDTH, calls);
        stamp(&mut tables.round, WIDTH, calls * keccak_rnd::ROUNDS);
    }),
    // One core row is left, so the bus is looked at: tuples differ in their round and state alone.
    ("one-timestamp-rounds", |tables, calls, words| {
        tables.core.truncate(CORE_WIDTH);
        stamp(&mut tables.round, WIDTH, calls * keccak_rnd::ROUNDS);
        shuffle(&mut tables.round, WIDTH, words);
    }),
    ("equal", |tables, _, _| {
        repeat(&mut tables.core, CORE_WIDTH);
        repeat(&mut tables.round, WIDTH);
    }),
    ("equal-rounds", |tables, _, _| {
        tables.core.clear();
        repeat(&mut tables.round, WIDTH);
    }),
];

/// The rows in the other order.
pub fn reversed(table: &[u64], width: usize) -> Vec<u64> {
    table.rchunks_exact(width).flatten().copied().collect()
}

/// The first rows, so many, get the first one's timestamp.
fn stamp(table: &mut [u64], width: usize, rows: usize) {
    for row in 1..rows {
        table.copy_within(..2, row * width);
    }
}

/// Every row is the first.
fn repeat(table: &mut Vec<u64>, width: usize) {
    let rows = table.len() / width;
    table.truncate(width);
    *table = table.repeat(rows);
}

#[cfg(test)]
mod tests {
    use super::*;
    use crate::judge::Table::Round;
    use crate::judge::Verdict::{self, Balance, Holds, Timestamp};
    use crate::judge::verdict;

    #[test]
    fn the_verdicts_are_as_thought() {
        let written = written(3, &mut Words::new(1));
        assert_eq!(verdict(&written.core, &written.round), Holds(3));
        let expected: [Verdict; 8] = [
            Holds(3),
            Holds(3),
            Holds(3),
            Holds(3),
            Timestamp(1),
            Balance(Round, 0, 0),
            Timestamp(1),
            Balance(Round, 0, 0),
        ];
        for ((name, make), expected) in ORDERS.into_iter().zip(expected) {
            let mut tables = written.clone();
            make(&mut tables, 3, &mut Words::new(2));
            let found = verdict(&tables.core, &tables.round);
            // Of shuffled round rows which one is named depends on the order.
            let same = match (found, expected) {
                (Balance(table, ..), Balance(Round, ..)) => table == Round,
                _ => found == expected,
            };
            assert!(same, "{name}: {found}");
        }
    }
}
