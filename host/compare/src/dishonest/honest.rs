//! Pairs that hold, and what is no pair of tables.

use keccak_tables::{OP_WORDS, P};
use oracle::tables::keccak::cols as core_cols;
use oracle::tables::keccak_rnd::cols;

use super::Named;
use super::tables::{CALL, CORE_WIDTH, Tables, WIDTH, exchange, shuffle};
use crate::inputs::number;
use crate::judge::Verdict::{Holds, Refused};

/// Tables that hold, as written and otherwise.
pub const HONEST: &[Named] = &[
    ("as written", |_, _| Holds(3)),
    ("one call", |t, words| {
        *t = Tables::written(1, words);
        Holds(1)
    }),
    ("no call", |t, words| {
        *t = Tables::written(0, words);
        Holds(0)
    }),
    ("four calls, no core padding", |t, words| {
        *t = Tables::written(4, words);
        Holds(4)
    }),
    ("both empty", |t, _| {
        t.core.clear();
        t.round.clear();
        Holds(0)
    }),
    ("padding against nothing", |t, words| {
        *t = Tables::written(0, words);
        t.round.clear();
        Holds(0)
    }),
    ("nothing against padding", |t, words| {
        *t = Tables::written(0, words);
        t.core.clear();
        Holds(0)
    }),
    ("no padding rows, a height that is no power of two", |t, _| {
        t.core.truncate(3 * CORE_WIDTH);
        t.round.truncate(72 * WIDTH);
        Holds(3)
    }),
    ("shuffled", |t, words| {
        shuffle(&mut t.core, CORE_WIDTH, words);
        shuffle(&mut t.round, WIDTH, words);
        Holds(3)
    }),
    ("core rows in the other order", |t, _| {
        exchange(&mut t.core, CORE_WIDTH, 0, 2);
        Holds(3)
    }),
    ("the last two round rows of the last call exchanged", |t, _| {
        exchange(&mut t.round, WIDTH, 70, 71);
        Holds(3)
    }),
    ("the last calls' round rows exchanged", |t, _| {
        (0..CALL).for_each(|round| exchange(&mut t.round, WIDTH, 24 + round, 48 + round));
        Holds(3)
    }),
    ("padding before the first rows", |t, _| {
        exchange(&mut t.core, CORE_WIDTH, 0, 3);
        exchange(&mut t.round, WIDTH, 0, 127);
        Holds(3)
    }),
    ("junk in a core padding row", |t, words| {
        t.core_row(3)[..core_cols::MU].fill_with(|| words.element());
        Holds(3)
    }),
    ("junk in a round padding row, but for bytes and bits", |t, words| {
        let row = t.round_row(72);
        row[..cols::MU].fill_with(|| words.element());
        row[cols::CXZ_LEFT..cols::CXZ_RIGHT].fill_with(|| words.below(256));
        row[cols::CXZ_RIGHT..cols::DXZ].fill_with(|| words.below(2));
        row[cols::ROT_LEFT..cols::CHI_ANDS].fill_with(|| words.below(256));
        Holds(3)
    }),
    ("a padding row with an active row's timestamp", |t, _| {
        t.core.copy_within(CORE_WIDTH..2 * CORE_WIDTH, 3 * CORE_WIDTH);
        t.core_row(3)[core_cols::MU] = 0;
        Holds(3)
    }),
    ("timestamps (2^32, 5) and (0, 6)", |t, _| {
        t.stamp(0, [1 << 32, 5]);
        t.stamp(1, [0, 6]);
        Holds(3)
    }),
    ("timestamps that differ in one word only, and one of p - 1", |t, _| {
        t.stamp(0, [7, 7]);
        t.stamp(1, [7, 8]);
        t.stamp(2, [P - 1, 7]);
        Holds(3)
    }),
    ("the same call twice, at two times", |t, _| {
        t.core.copy_within(..CORE_WIDTH, CORE_WIDTH);
        t.round.copy_within(..CALL * WIDTH, CALL * WIDTH);
        t.stamp(1, [9, 9]);
        Holds(3)
    }),
    ("an output that is its own input, by another call", |t, words| {
        let mut list = vec![4, 64];
        list.resize(OP_WORDS, 0);
        let first = Tables::of(&list);
        let output = &first.core[core_cols::OUTPUT_STATE..core_cols::STATE_PTR];
        list.extend([8, words.below(1 << 20) * 8]);
        list.extend(output.chunks_exact(8).map(number));
        list.resize(2 * OP_WORDS, 0);
        *t = Tables::of(&list);
        Holds(2)
    }),
];

/// What is no pair of tables.
pub const REFUSED: &[Named] = &[
    ("half a core row", |t, _| {
        t.core.truncate(2 * CORE_WIDTH + 243);
        Refused(2, 0)
    }),
    ("half a round row", |t, _| {
        t.round.truncate(740);
        Refused(2, 1)
    }),
    ("a word too many on both sides", |t, _| {
        t.core.push(0);
        t.round.push(0);
        Refused(2, 0)
    }),
    ("a word of p, and a round table that is not whole", |t, _| {
        t.core[0] = P;
        t.round.pop();
        Refused(2, 1)
    }),
    ("the first core word is p", |t, _| {
        t.core[0] = P;
        Refused(5, 0)
    }),
    ("the last core word is 2^64 - 1", |t, _| {
        *t.core.last_mut().expect("there are rows") = u64::MAX;
        Refused(5, 4 * CORE_WIDTH as u64 - 1)
    }),
    ("a round word is p", |t, _| {
        t.round[5000] = P;
        Refused(5, 5000)
    }),
    ("the last round word is p + 1", |t, _| {
        *t.round.last_mut().expect("there are rows") = P + 1;
        Refused(5, 128 * WIDTH as u64 - 1)
    }),
    ("words of p in both, the round one earlier", |t, _| {
        t.core[1000] = P;
        t.round[7] = P;
        Refused(5, 1000)
    }),
    ("two round words of p, and a core value", |t, _| {
        t.core_row(0)[core_cols::MU] = 2;
        t.round[900] = P + 1;
        t.round[899] = P;
        Refused(5, 899)
    }),
    ("a round word of p against no core row", |t, _| {
        t.core.clear();
        t.round[72 * WIDTH] = P;
        Refused(5, 72 * WIDTH as u64)
    }),
];
