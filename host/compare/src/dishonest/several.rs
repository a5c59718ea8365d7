//! Pairs with several failures.

use oracle::tables::keccak::cols as core_cols;
use oracle::tables::keccak_rnd::cols;

use super::Named;
use super::core_rows::{borrowed, limb};
use super::tables::{Tables, WIDTH, carry, exchange, shuffle};
use crate::judge::Table::{Core, Round};
use crate::judge::Verdict::{Balance, Lookup, Timestamp, Value};

/// Several failures at once: the order decides.
pub const SEVERAL: &[Named] = &[
    ("two values of one core row", |t, _| {
        let row = t.core_row(1);
        row[limb(20, 0)] ^= 1;
        row[limb(3, 2)] ^= 1;
        Value(Core, 1, 7)
    }),
    ("a later value of an earlier core row", |t, _| {
        t.core_row(0)[core_cols::MU] = 2;
        t.core_row(1)[limb(0, 0)] ^= 1;
        Value(Core, 0, 51)
    }),
    ("a core value after a core lookup", |t, _| {
        borrowed(t, 4);
        t.core_row(3)[core_cols::MU] = 2;
        Value(Core, 3, 51)
    }),
    ("two core lookups of one row", |t, _| {
        borrowed(t, 6);
        borrowed(t, 4);
        Lookup(Core, 1, 57)
    }),
    ("a core lookup after a repeated timestamp", |t, words| {
        *t = Tables::at(&[5, 5, 6], words);
        carry(t.core_row(2), limb(0, 0), 1 << 16, limb(0, 1));
        Lookup(Core, 2, 5)
    }),
    ("a repeated timestamp and a round value", |t, words| {
        *t = Tables::at(&[5, 6, 5], words);
        t.round_row(0)[cols::MU] = 2;
        Timestamp(2)
    }),
    ("a round value after a round lookup", |t, _| {
        t.round_row(0)[cols::RC] ^= 1;
        t.round_row(127)[cols::CXZ_RIGHT] = 2;
        Value(Round, 127, 0)
    }),
    ("a later round value of an earlier row", |t, _| {
        t.round_row(3)[cols::MU] = 2;
        t.round_row(4)[cols::CXZ_RIGHT] = 2;
        Value(Round, 3, 140)
    }),
    ("a round lookup and an unbalanced core tuple", |t, _| {
        t.core_row(0)[core_cols::INPUT_STATE] ^= 1;
        t.round_row(71)[cols::iota(7)] ^= 1;
        Lookup(Round, 71, 1030)
    }),
    ("two round lookups of one row", |t, _| {
        let row = t.round_row(60);
        row[cols::iota(0)] ^= 1;
        row[cols::dxz(0, 0)] ^= 1;
        Lookup(Round, 60, 183)
    }),
    ("send and receive of one core row", |t, _| {
        let row = t.core_row(1);
        row[core_cols::INPUT_STATE] ^= 1;
        row[core_cols::OUTPUT_STATE] ^= 1;
        Balance(Core, 1, 2)
    }),
    ("a later tuple of an earlier core row", |t, _| {
        t.core_row(0)[core_cols::OUTPUT_STATE] ^= 1;
        t.core_row(1)[core_cols::INPUT_STATE] ^= 1;
        Balance(Core, 0, 3)
    }),
    ("an unbalanced round row before an unbalanced core row", |t, _| {
        t.round_row(3)[cols::MU] = 0;
        t.core_row(2)[core_cols::OUTPUT_STATE] ^= 1;
        Balance(Core, 2, 3)
    }),
    ("receive and send of one round row", |t, _| {
        // A row in the middle of call 1 under a timestamp of its own, moved to the front.
        t.round_row(30)[0] += 1;
        exchange(&mut t.round, WIDTH, 0, 30);
        Balance(Round, 0, 0)
    }),
    ("as many sent as received, none of them the same", |t, _| {
        t.core_row(0)[core_cols::OUTPUT_STATE] ^= 1;
        t.core_row(1)[core_cols::OUTPUT_STATE] ^= 1;
        Balance(Core, 0, 3)
    }),
    ("the last call's rows exchanged, and its output wrong", |t, _| {
        exchange(&mut t.round, WIDTH, 70, 71);
        t.core_row(2)[core_cols::OUTPUT_STATE + 100] ^= 1;
        Balance(Core, 2, 3)
    }),
    ("shuffled, and a value wrong in the last row", |t, words| {
        shuffle(&mut t.round, WIDTH, words);
        t.round_row(127)[cols::CXZ_RIGHT] = 2;
        Value(Round, 127, 0)
    }),
];
