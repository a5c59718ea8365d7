//! A core table and a round table, and what is done to the rows of either.

use keccak_tables::{OP_WORDS, Parameters, keccak, keccak_rnd};
use oracle::tables::keccak::cols as core_cols;
use oracle::tables::keccak_rnd::cols;
use oracle::tables::types::FE;

use crate::by_rounds::ALL;
use crate::inputs::Words;

/// The columns and rows.
pub(super) const CORE_WIDTH: usize = keccak::NUM_COLUMNS;
pub(super) const WIDTH: usize = keccak_rnd::NUM_COLUMNS;
pub(super) const CALL: usize = keccak_rnd::ROUNDS;

/// A core table and a round table.
#[derive(Clone)]
pub struct Tables {
    /// The core table's words.
    pub core: Vec<u64>,
    /// The round table's words.
    pub round: Vec<u64>,
}

impl Tables {
    /// The tables of `n` calls with distinct timestamps and right outputs, at addresses from 2^32 to 2^48 whose low word has
    /// room for the 25 lanes.
    pub fn written(n: usize, words: &mut Words) -> Self {
        Self::written_by(ALL, n, words)
    }

    /// The same by nr rounds.
    pub fn written_by(nr: u64, n: usize, words: &mut Words) -> Self {
        Self::by_rounds(nr, &Self::list(n, words))
    }

    /// The operations of such tables.
    pub fn list(n: usize, words: &mut Words) -> Vec<u64> {
        let stamps: Vec<u64> = (1..=n as u64).map(|call| words.word() << 16 | call << 2).collect();
        list_at(&stamps, words)
    }

    /// The tables of calls with these timestamps.
    pub(super) fn at(stamps: &[u64], words: &mut Words) -> Self {
        Self::of(&list_at(stamps, words))
    }

    /// The tables of a list of operations, each with the output that its last round row hands on.
    pub(super) fn of(list: &[u64]) -> Self {
        Self::by_rounds(ALL, list)
    }

    /// The same by nr rounds.
    pub fn by_rounds(nr: u64, list: &[u64]) -> Self {
        let parameters = Parameters::default().rounds(nr);
        let round = keccak_rnd::keccak_rnd_table_with(parameters, list).expect("the list is accepted");
        let core = keccak::keccak_table(list).expect("the list is accepted");
        let mut tables = Self { core, round };
        for call in 0..list.len() / OP_WORDS {
            tables.take_output(call, nr as usize * (call + 1) - 1);
        }
        tables
    }

    /// A core row.
    pub fn core_row(&mut self, row: usize) -> &mut [u64] {
        &mut self.core[row * CORE_WIDTH..(row + 1) * CORE_WIDTH]
    }

    /// A round row.
    pub fn round_row(&mut self, row: usize) -> &mut [u64] {
        &mut self.round[row * WIDTH..(row + 1) * WIDTH]
    }

    /// OUTPUT of a core row is what a round row hands on.
    pub fn take_output(&mut self, call: usize, last: usize) {
        let row = self.round_row(last);
        let mut state = row[cols::CHI..cols::CHI + 200].to_vec();
        state[..8].copy_from_slice(&row[cols::IOTA..cols::IOTA + 8]);
        self.core_row(call)[core_cols::OUTPUT_STATE..core_cols::OUTPUT_STATE + 200].copy_from_slice(&state);
    }

    /// A core row and the 24 round rows of a call get another timestamp.
    pub(super) fn stamp(&mut self, call: usize, timestamp: [u64; 2]) {
        self.core_row(call)[..2].copy_from_slice(&timestamp);
        self.stamp_rounds(CALL * call, call);
    }

    /// The 24 round rows from a row on get the timestamp of a call's core row.
    pub(super) fn stamp_rounds(&mut self, first: usize, call: usize) {
        let timestamp = [self.core_row(call)[0], self.core_row(call)[1]];
        for row in first..first + CALL {
            self.round_row(row)[..2].copy_from_slice(&timestamp);
        }
    }
}

/// Operations with these timestamps and no outputs.
fn list_at(stamps: &[u64], words: &mut Words) -> Vec<u64> {
    let mut list = Vec::new();
    for &timestamp in stamps {
        list.extend([timestamp, words.word() & 0x0000_FFFF_7FFF_FFF8 | 1 << 32]);
        list.extend((0..25).map(|_| words.lane()));
        list.extend([0; 25]);
        list.push(u64::from(words.segment()));
    }
    list
}

/// Exchanges two rows.
pub fn exchange(table: &mut [u64], width: usize, a: usize, b: usize) {
    for column in 0..width {
        table.swap(a * width + column, b * width + column);
    }
}

/// Puts the rows into a drawn order.
pub fn shuffle(table: &mut [u64], width: usize, words: &mut Words) {
    for row in (1..table.len() / width).rev() {
        exchange(table, width, row, words.below(row as u64 + 1) as usize);
    }
}

/// Less in one word, mod p, and one more in another: what both make together stays, and the first leaves its range.
pub(super) fn carry(row: &mut [u64], low: usize, less: u64, high: usize) {
    row[low] = (FE::from(row[low]) - FE::from(less)).value();
    row[high] += 1;
}
