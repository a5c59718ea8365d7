//! Drawn tables and files: calls that repeat, rows and records in any order, and what may be changed in either.

use keccak_tables::keccak::{NUM_COLUMNS, cols};
use keccak_tables::{OP_WORDS, P, SEGMENT_WORD};

use crate::inputs::Words;
use crate::plain_file;

/// Rows of a core table and records of a file.
#[derive(Clone)]
pub struct Pair {
    /// The rows, whole ones.
    pub rows: Vec<Vec<u64>>,
    /// The records, whole ones.
    pub records: Vec<Vec<u8>>,
}

impl Pair {
    /// The rows and the records of the same calls, in one order. Of the calls `kinds` are drawn and the others are copies; one in eight is off
    /// the eight. A record has either mark and any segment number, a row any pointers.
    pub fn drawn(words: &mut Words, calls: usize, kinds: usize) -> Self {
        let mut ops = words.operations(calls);
        set_timestamps(words, &mut ops);
        for call in 0..calls {
            if words.below(8) == 0 {
                ops[call * OP_WORDS + 1] = words.unaligned_address();
            }
            if call >= kinds {
                let earlier = words.below(kinds as u64) as usize * OP_WORDS;
                ops.copy_within(earlier..earlier + SEGMENT_WORD, call * OP_WORDS);
            }
        }
        let operations = ops.chunks_exact(OP_WORDS);
        Self {
            rows: operations.clone().map(|operation| row_of(words, operation)).collect(),
            records: operations
                .map(|operation| plain_file::record(operation, words.below(2) == 0))
                .collect(),
        }
    }

    /// The words of the table.
    pub fn core(&self) -> Vec<u64> {
        self.rows.concat()
    }

    /// The bytes of the file.
    pub fn file(&self) -> Vec<u8> {
        self.records.concat()
    }

    /// Rows and records in other orders: as they are, reversed, with two of them exchanged, or shuffled.
    pub fn reordered(&mut self, words: &mut Words) {
        reorder(&mut self.rows, words);
        reorder(&mut self.records, words);
    }

    /// So many rows that are not active, anywhere: zeros, drawn ones, or one that is there with another MU.
    pub fn with_inactive(&mut self, words: &mut Words, rows: usize) {
        for _ in 0..rows {
            let mut row = match (words.below(3), self.rows.is_empty()) {
                (0, _) => vec![0; NUM_COLUMNS],
                (1, false) => self.rows[words.below(self.rows.len() as u64) as usize].clone(),
                _ => (0..NUM_COLUMNS).map(|_| words.element()).collect(),
            };
            row[cols::MU] = inactive(words);
            let at = words.below(self.rows.len() as u64 + 1) as usize;
            self.rows.insert(at, row);
        }
    }

    /// One change of a row or a record, which may be none, or one that can't be seen.
    pub fn change(&mut self, words: &mut Words) {
        if words.below(2) == 0 {
            change_records(&mut self.records, words);
        } else {
            change_rows(&mut self.rows, words);
        }
    }
}

/// Timestamps as they are drawn; or rising or falling, about 2^32 or elsewhere, where some stay; or a few, so that different calls share one.
fn set_timestamps(words: &mut Words, ops: &mut [u64]) {
    let order = words.below(5);
    let mut timestamp = [(1 << 32) - 3, words.word() >> 1][words.below(2) as usize];
    for operation in ops.chunks_exact_mut(OP_WORDS) {
        match order {
            0 => timestamp += words.below(3),
            1 => timestamp = timestamp.saturating_sub(words.below(3)),
            2 => timestamp = words.below(3),
            _ => return,
        }
        operation[0] = timestamp;
    }
}

/// A row of an operation, whose pointers are drawn.
fn row_of(words: &mut Words, operation: &[u64]) -> Vec<u64> {
    let mut row = vec![operation[0] & 0xFFFF_FFFF, operation[0] >> 32];
    let bytes = operation[1..SEGMENT_WORD].iter().flat_map(|word| word.to_le_bytes());
    row.extend(bytes.map(u64::from));
    row.extend((cols::STATE_PTR..cols::MU).map(|_| words.element()));
    row.push(1);
    row
}

/// What MU is in a row that is not active.
fn inactive(words: &mut Words) -> u64 {
    match words.below(4) {
        0 => 2,
        1 => P - 1,
        2 => 1 << words.below(32) << 1,
        _ => 0,
    }
}

/// Another order of some things.
fn reorder<T>(things: &mut [T], words: &mut Words) {
    let mut place = |end: usize| words.below(end as u64) as usize;
    match place(4) {
        _ if things.is_empty() => {}
        0 => {}
        1 => things.reverse(),
        2 => things.swap(place(things.len()), place(things.len())),
        _ => shuffle(things, words),
    }
}

/// A drawn order.
pub fn shuffle<T>(things: &mut [T], words: &mut Words) {
    for end in (1..things.len()).rev() {
        things.swap(words.below(end as u64 + 1) as usize, end);
    }
}

/// One record fewer, one twice, another, or another bit, mark or segment number of one.
fn change_records(records: &mut Vec<Vec<u8>>, words: &mut Words) {
    if records.is_empty() {
        return records.push(plain_file::record(&words.operation().words(), true));
    }
    let at = words.below(records.len() as u64) as usize;
    match words.below(5) {
        0 => _ = records.remove(at),
        1 => records.insert(words.below(at as u64 + 1) as usize, records[at].clone()),
        2 => records.push(plain_file::record(&words.operation().words(), false)),
        3 => {
            // Of the address only what no high one is refused for.
            let (byte, bits) = match words.below(3) {
                0 => (2 + words.below(8), 8),
                1 => (10, 3),
                _ => (18 + words.below(400), 8),
            };
            records[at][byte as usize] ^= 1 << words.below(bits);
        }
        _ => {
            records[at].truncate(418);
            records[at][1] = b'P';
            records[at].extend(words.segment().to_le_bytes());
        }
    }
}

/// One row fewer, one twice, or another word in one: a byte, a word of the timestamp, a pointer, MU.
fn change_rows(rows: &mut Vec<Vec<u64>>, words: &mut Words) {
    if rows.is_empty() {
        let operation = words.operation().words();
        return rows.push(row_of(words, &operation));
    }
    let at = words.below(rows.len() as u64) as usize;
    let row = &mut rows[at];
    match words.below(9) {
        0 => _ = rows.remove(at),
        1 => rows.insert(words.below(at as u64 + 1) as usize, rows[at].clone()),
        2 => row[cols::MU] = inactive(words),
        3 => row[cols::MU] = 1,
        4 => row[cols::STATE_PTR + words.below(75) as usize] = words.element(),
        5 => row[words.below(cols::STATE_PTR as u64) as usize] ^= 1 << words.below(8),
        6 => row[words.below(cols::STATE_PTR as u64) as usize] = words.element(),
        7 => carried_bytes(row, words),
        _ => carried_timestamp(row, words),
    }
}

/// A byte of 256 or more, in whose place 1 is taken from the next, where there is one to take: the number of the bytes is the same, or the
/// same mod 2^64 of the last byte of a number.
fn carried_bytes(row: &mut [u64], words: &mut Words) {
    let byte = cols::ADDR + words.below((cols::STATE_PTR - cols::ADDR) as u64) as usize;
    row[byte] += 256;
    if byte % 8 != (cols::ADDR + 7) % 8 {
        row[byte + 1] = row[byte + 1].saturating_sub(1);
    }
}

/// A word of the timestamp of 2^32 or more: the low one, with 1 taken from the high one or not, or the high one, whose upper half is lost
/// mod 2^64. A word that was changed before may wrap.
fn carried_timestamp(row: &mut [u64], words: &mut Words) {
    let more = words.below(3);
    let word = if more < 2 { cols::TIMESTAMP_0 } else { cols::TIMESTAMP_1 };
    row[word] = row[word].wrapping_add(1 << 32);
    if more == 0 {
        row[cols::TIMESTAMP_1] = row[cols::TIMESTAMP_1].saturating_sub(1);
    }
}
