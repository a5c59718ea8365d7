//! Round rows that fail by themselves.

use keccak_tables::P;
use oracle::tables::keccak_rnd::cols;

use super::Named;
use super::tables::{Tables, carry};
use crate::judge::Table::Round;
use crate::judge::Verdict::{self, Lookup, Value};

/// Round rows with one changed word, a group of columns each.
pub const ROUND_ROWS: &[Named] = &[
    ("START", |t, _| {
        flip(t, cols::start(2, 3, 5), Lookup(Round, 30, 43 + 48 + 8 + 5))
    }),
    ("START, lowest plane", |t, _| {
        flip(t, cols::start(4, 0, 7), Lookup(Round, 30, 3 + 39))
    }),
    ("CXZ, stage 0", |t, _| {
        flip(t, cols::cxz(1, 0, 3), Lookup(Round, 30, 3 + 11))
    }),
    ("CXZ, stage 1", |t, _| {
        flip(t, cols::cxz(1, 1, 3), Lookup(Round, 30, 43 + 24 + 3))
    }),
    ("CXZ, stage 2", |t, _| {
        flip(t, cols::cxz(1, 2, 3), Lookup(Round, 30, 43 + 24 + 8 + 3))
    }),
    ("CXZ, stage 3", |t, _| {
        flip(t, cols::cxz(1, 3, 3), Value(Round, 30, 20 + 4 + 1))
    }),
    ("CXZ_LEFT", |t, _| {
        flip(t, cols::cxz_left(4, 6), Value(Round, 30, 20 + 16 + 3))
    }),
    ("CXZ_RIGHT", |t, _| {
        flip(t, cols::cxz_right_bit(0, 2), Value(Round, 30, 20 + 2))
    }),
    ("CXZ_RIGHT of 2", |t, _| {
        set(t, cols::cxz_right_bit(0, 2), 2, Value(Round, 30, 2))
    }),
    ("DXZ", |t, _| flip(t, cols::dxz(3, 0), Lookup(Round, 30, 183 + 24))),
    ("THETA", |t, _| flip(t, cols::theta(0, 1, 0), Value(Round, 30, 40 + 4))),
    ("ROT_LEFT", |t, _| {
        flip(t, cols::rot_left(4, 4, 7), Value(Round, 30, 40 + 99))
    }),
    ("ROT_RIGHT", |t, _| {
        flip(t, cols::rot_right(2, 0, 1), Value(Round, 30, 40 + 40))
    }),
    ("CHI_ANDS", |t, _| {
        flip(t, cols::chi_ands(1, 2, 4), Lookup(Round, 30, 623 + 40 + 16 + 4))
    }),
    ("CHI", |t, _| {
        flip(t, cols::chi(3, 3, 3), Lookup(Round, 30, 823 + 120 + 24 + 3))
    }),
    ("CHI of p - 1", |t, _| {
        set(t, cols::chi(4, 4, 7), P - 1, Lookup(Round, 30, 823 + 199))
    }),
    ("RC", |t, _| flip(t, cols::rc(4), Lookup(Round, 30, 2))),
    ("IOTA", |t, _| flip(t, cols::iota(5), Lookup(Round, 30, 1023 + 5))),
    ("ROUND 7 in place of 6", |t, _| {
        set(t, cols::ROUND, 7, Lookup(Round, 30, 2))
    }),
    ("ROUND 32", |t, _| set(t, cols::ROUND, 32, Lookup(Round, 30, 2))),
    ("MU 2", |t, _| set(t, cols::MU, 2, Value(Round, 30, 140))),
    ("MU p - 1", |t, _| set(t, cols::MU, P - 1, Value(Round, 30, 140))),
    ("MU 2 on a padding row", |t, _| {
        t.round_row(127)[cols::MU] = 2;
        Value(Round, 127, 140)
    }),
    ("CXZ_RIGHT of 2 on a padding row", |t, _| {
        t.round_row(100)[cols::cxz_right_bit(4, 3)] = 2;
        Value(Round, 100, 19)
    }),
    ("CXZ_LEFT of 256 on a padding row", |t, _| {
        t.round_row(100)[cols::cxz_left(4, 7)] = 256;
        Lookup(Round, 100, 163 + 19)
    }),
    ("ROT_LEFT of 256 on a padding row", |t, _| {
        t.round_row(100)[cols::rot_left(1, 3, 2)] = 256;
        Lookup(Round, 100, 423 + 40 + 24 + 2)
    }),
    ("ROT_RIGHT of p - 1 on the last padding row", |t, _| {
        t.round_row(127)[cols::rot_right(0, 0, 0)] = P - 1;
        Lookup(Round, 127, 423)
    }),
    ("a padding row made active", |t, _| {
        t.round_row(72)[cols::MU] = 1;
        Lookup(Round, 72, 2)
    }),
    ("a halfword of CXZ_LEFT less 2^16 for one more carry", |t, _| {
        let (row, right) = (t.round_row(47), cols::cxz_right_bit(1, 2));
        carry(row, cols::cxz_left(1, 5), 256, right);
        if row[right] == 1 {
            Lookup(Round, 47, 163 + 4 + 2)
        } else {
            Value(Round, 47, 4 + 2)
        }
    }),
];

/// A word of row 30 with its lowest bit changed.
fn flip(t: &mut Tables, column: usize, expected: Verdict) -> Verdict {
    t.round_row(30)[column] ^= 1;
    expected
}

/// Another word in row 30.
pub fn set(t: &mut Tables, column: usize, word: u64, expected: Verdict) -> Verdict {
    t.round_row(30)[column] = word;
    expected
}
