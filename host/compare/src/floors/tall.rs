//! Tables of any floor, the highest of which have 255 and 776 MB: they are compared in place, so that there is no copy of them.

use keccak_tables::{OP_WORDS, Parameters, Refusal, keccak, keccak_rnd};

use crate::by_floor;
use crate::by_rounds;
use crate::comparison::Comparison;
use crate::inputs::Words;

/// Both tables of a list, into lent words and in memory of their own.
pub fn tables(comparison: &mut Comparison, words: &mut Words, with: Parameters, ops: &[u64]) {
    let n = ops.len() / OP_WORDS;
    let name = |table| format!("the {table} table of {n} operations, {with:?}");
    let core = Expected {
        name: name("core"),
        height: by_floor::height(with.floor, n),
        rows: first(oracle::core_table(ops), n * keccak::NUM_COLUMNS),
        padding: by_floor::core_padding(),
    };
    let into = |table: &mut [u64]| keccak::generate_keccak_trace_with(with, ops, table);
    core.compare(comparison, words, into, || keccak::keccak_table_with(with, ops));
    let rows = with.rounds as usize * n;
    let round = Expected {
        name: name("round"),
        height: by_floor::height(with.floor, rows),
        rows: first(by_rounds::round_table(with.rounds, ops), rows * keccak_rnd::NUM_COLUMNS),
        padding: vec![0; keccak_rnd::NUM_COLUMNS],
    };
    let into = |table: &mut [u64]| keccak_rnd::generate_keccak_rnd_trace_with(with, ops, table);
    round.compare(comparison, words, into, || keccak_rnd::keccak_rnd_table_with(with, ops));
}

fn first(mut words: Vec<u64>, length: usize) -> Vec<u64> {
    words.truncate(length);
    words
}

/// A table that is expected: its name, its height, the rows of its operations and a row of its padding.
struct Expected {
    name: String,
    height: usize,
    rows: Vec<u64>,
    padding: Vec<u64>,
}

impl Expected {
    /// The table by a call into a slice that is a little longer than it has to be, and by one that has memory of its own.
    fn compare(
        &self,
        comparison: &mut Comparison,
        words: &mut Words,
        into: impl FnOnce(&mut [u64]) -> Result<(), Refusal>,
        own: impl FnOnce() -> Result<Vec<u64>, Refusal>,
    ) {
        let (old, past) = (words.word(), words.below(9) as usize);
        let mut lent = vec![old; self.height * self.padding.len() + past];
        comparison.done(|| self.name.clone(), into(&mut lent));
        self.stands_in(comparison, &lent, &vec![old; past]);
        drop(lent);
        if let Some(own) = comparison.done(|| self.name.clone(), own()) {
            self.stands_in(comparison, &own, &[]);
        }
    }

    /// The table is to stand in front of these words, and then what was there before.
    fn stands_in(&self, comparison: &mut Comparison, words: &[u64], before: &[u64]) {
        let width = self.padding.len();
        let length = (self.height * width + before.len()) as u64;
        comparison.equal(
            |_| format!("the length of {}", self.name),
            &[words.len() as u64],
            &[length],
        );
        let (table, past) = words.split_at(words.len() - before.len());
        let (rows, padding) = table.split_at(self.rows.len());
        let first = self.rows.len() / width;
        let at = |row, place| format!("{}, row {}, column {}", self.name, row + place / width, place % width);
        comparison.equal(|place| at(0, place), rows, &self.rows);
        for (row, found) in (first..).zip(padding.chunks(width)) {
            comparison.equal(|place| at(row, place), found, &self.padding);
        }
        comparison.equal(|_| format!("a word past {}", self.name), past, before);
    }
}
