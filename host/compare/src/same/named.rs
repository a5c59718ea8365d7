//! Named tables and files, each with what is to be said of it: kind and place.

use keccak_tables::keccak::cols;

use super::drawn::Pair;
use crate::inputs::Words;

/// A pair and its answer.
type Make = fn(&mut Words) -> (Pair, [u64; 2]);

const SAME: [u64; 2] = [0, 0];

const fn record(place: u64) -> [u64; 2] {
    [1, place]
}

const fn row(place: u64) -> [u64; 2] {
    [2, place]
}

/// Four different calls, in one order.
fn four(words: &mut Words) -> Pair {
    Pair::drawn(words, 4, 4)
}

/// Four equal calls.
fn copies(words: &mut Words) -> Pair {
    Pair::drawn(words, 4, 1)
}

/// Four calls with a change, and what is said then.
fn changed(words: &mut Words, change: impl FnOnce(&mut Pair), answer: [u64; 2]) -> (Pair, [u64; 2]) {
    let mut pair = four(words);
    change(&mut pair);
    (pair, answer)
}

/// The same of four equal calls.
fn copies_changed(words: &mut Words, change: impl FnOnce(&mut Pair), answer: [u64; 2]) -> (Pair, [u64; 2]) {
    let mut pair = copies(words);
    change(&mut pair);
    (pair, answer)
}

/// Four calls with a change of the third row, whose record is then without a partner.
fn odd(words: &mut Words, change: impl FnOnce(&mut [u64])) -> (Pair, [u64; 2]) {
    changed(words, |pair| change(&mut pair.rows[2]), record(2))
}

/// The pairs.
pub const NAMED: &[(&str, Make)] = &[
    ("nothing and nothing", |words| (Pair::drawn(words, 0, 1), SAME)),
    ("in one order", |words| (four(words), SAME)),
    ("records reversed", |words| {
        changed(words, |pair| pair.records.reverse(), SAME)
    }),
    ("rows reversed", |words| {
        changed(words, |pair| pair.rows.reverse(), SAME)
    }),
    ("both reversed", |words| {
        changed(
            words,
            |pair| {
                pair.rows.reverse();
                pair.records.reverse();
            },
            SAME,
        )
    }),
    ("four copies", |words| (copies(words), SAME)),
    ("no row", |words| changed(words, |pair| pair.rows.clear(), record(0))),
    ("no record", |words| changed(words, |pair| pair.records.clear(), row(0))),
    ("no active row", |words| {
        changed(
            words,
            |pair| pair.rows.iter_mut().for_each(|row| row[cols::MU] = 0),
            record(0),
        )
    }),
    ("no active row and no record", |words| {
        changed(
            words,
            |pair| {
                pair.rows.iter_mut().for_each(|row| row[cols::MU] = 0);
                pair.records.clear();
            },
            SAME,
        )
    }),
    ("inactive rows before and between", |words| {
        changed(
            words,
            |pair| {
                for at in [0, 0, 3, 5] {
                    let mut copy = pair.rows[at].clone();
                    copy[cols::MU] = 2;
                    pair.rows.insert(at, copy);
                }
                pair.records.pop();
            },
            row(7),
        )
    }),
    ("one copy more in the file", |words| {
        copies_changed(words, |pair| pair.records.push(pair.records[0].clone()), record(4))
    }),
    ("one copy more in the table", |words| {
        copies_changed(words, |pair| pair.rows.push(pair.rows[0].clone()), row(4))
    }),
    ("two copies of one call for one of each", |words| {
        changed(words, |pair| pair.records[3] = pair.records[1].clone(), record(3))
    }),
    ("two rows of one call for one of each", |words| {
        changed(words, |pair| pair.rows[0] = pair.rows[3].clone(), record(0))
    }),
    ("the first row left", |words| {
        changed(words, |pair| drop(pair.records.swap_remove(0)), row(0))
    }),
    ("other pointers", |words| {
        changed(words, |pair| pair.rows[1][cols::STATE_PTR..cols::MU].fill(0), SAME)
    }),
    ("other segment numbers", |words| {
        changed(
            words,
            |pair| {
                for record in &mut pair.records {
                    record.truncate(418);
                    record[1] = b'P';
                    record.extend([1, 2, 3, 4]);
                }
            },
            SAME,
        )
    }),
    ("off the eight", |words| {
        changed(
            words,
            |pair| {
                pair.rows[1][cols::ADDR] = 5;
                pair.records[1][10] = 5;
            },
            SAME,
        )
    }),
    ("off the eight in the file alone", |words| {
        changed(words, |pair| pair.records[1][10] ^= 5, record(1))
    }),
    ("INPUT and OUTPUT exchanged", |words| {
        odd(words, |row| {
            row[cols::INPUT_STATE..cols::STATE_PTR].rotate_left(200);
        })
    }),
    ("a byte of OUTPUT", |words| {
        odd(words, |row| row[cols::STATE_PTR - 1] ^= 1)
    }),
    ("a byte of 256 more", |words| {
        odd(words, |row| row[cols::OUTPUT_STATE] += 256)
    }),
    ("a byte of 256 more and one less in the next", |words| {
        odd(words, |row| {
            row[cols::INPUT_STATE] += 256;
            row[cols::INPUT_STATE + 1] = row[cols::INPUT_STATE + 1].saturating_sub(1);
        })
    }),
    ("the last byte of the address 256 more", |words| {
        odd(words, |row| row[cols::ADDR + 7] += 256)
    }),
    ("a low timestamp word of 2^32 more", |words| {
        odd(words, |row| row[cols::TIMESTAMP_0] += 1 << 32)
    }),
    ("the same and the high one less by 1", |words| {
        odd(words, |row| {
            row[cols::TIMESTAMP_0] += 1 << 32;
            row[cols::TIMESTAMP_1] = row[cols::TIMESTAMP_1].saturating_sub(1);
        })
    }),
    ("a high timestamp word of 2^32 more", |words| {
        odd(words, |row| row[cols::TIMESTAMP_1] += 1 << 32)
    }),
    ("a row that no record has, and no record for it", |words| {
        changed(
            words,
            |pair| {
                pair.rows[2][cols::TIMESTAMP_1] += 1 << 32;
                pair.records.remove(2);
            },
            row(2),
        )
    }),
];
