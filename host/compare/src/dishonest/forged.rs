//! Round rows that lead to a forged OUTPUT.

use oracle::tables::keccak::cols as core_cols;
use oracle::tables::keccak_rnd::cols;

use super::Named;
use super::onward::{ANDS, CHI, D, END, IOTA, RHO, SHIFT, THETA, onward};
use super::tables::Tables;
use crate::judge::Table::Round;
use crate::judge::Verdict::{self, Lookup, Value};

/// The last row of call 1 with a word changed and everything after it worked out anew: OUTPUT is not Keccak-f of INPUT,
/// the bus balances, and one rule alone tells.
pub const FORGED: &[Named] = &[
    ("forged CXZ, stage 0", |t, _| {
        forged(t, cols::cxz(1, 0, 3), 1, Lookup(Round, 47, 3 + 11))
    }),
    ("forged CXZ, stage 1", |t, _| {
        forged(t, cols::cxz(1, 1, 3), 2, Lookup(Round, 47, 43 + 24 + 3))
    }),
    ("forged CXZ, stage 2", |t, _| {
        forged(t, cols::cxz(1, 2, 3), 3, Lookup(Round, 47, 43 + 24 + 8 + 3))
    }),
    ("forged CXZ, stage 3", |t, _| {
        forged(t, cols::cxz(1, 3, 3), SHIFT, Lookup(Round, 47, 43 + 24 + 16 + 3))
    }),
    ("forged CXZ_LEFT", |t, _| {
        forged(t, cols::cxz_left(2, 5), D, Value(Round, 47, 20 + 8 + 2))
    }),
    ("forged DXZ", |t, _| {
        forged(t, cols::dxz(3, 0), THETA, Lookup(Round, 47, 183 + 24))
    }),
    ("forged THETA", |t, _| {
        forged(t, cols::theta(0, 1, 0), RHO, Lookup(Round, 47, 223 + 8))
    }),
    ("forged ROT_LEFT", |t, _| {
        forged(t, cols::rot_left(0, 0, 7), ANDS, Value(Round, 47, 40 + 3))
    }),
    ("forged CHI_ANDS", |t, _| {
        forged(t, cols::chi_ands(1, 2, 4), CHI, Lookup(Round, 47, 623 + 40 + 16 + 4))
    }),
    ("forged CHI", |t, _| {
        forged(t, cols::chi(3, 3, 3), IOTA, Lookup(Round, 47, 823 + 120 + 24 + 3))
    }),
    ("forged CHI, lane 0", |t, _| {
        forged(t, cols::chi(0, 0, 2), IOTA, Lookup(Round, 47, 823 + 2))
    }),
    ("forged RC", |t, _| forged(t, cols::rc(1), IOTA, Lookup(Round, 47, 2))),
    ("forged IOTA", |t, _| {
        forged(t, cols::iota(5), END, Lookup(Round, 47, 1023 + 5))
    }),
];

/// Round 0 of call 1: INPUT is another one and so is START, while what follows stays.
pub const FORGED_INPUT: &[Named] = &[("forged START and INPUT", |t, _| {
    t.round_row(24)[cols::start(3, 4, 1)] ^= 1;
    t.core_row(1)[core_cols::input_state(3, 4, 1)] ^= 1;
    Lookup(Round, 24, 43 + 72 + 16 + 1)
})];

/// A changed word, and everything from the step `next` on worked out anew, OUTPUT too.
fn forged(t: &mut Tables, column: usize, next: usize, expected: Verdict) -> Verdict {
    let row = t.round_row(47);
    row[column] ^= 1;
    onward(row, next);
    t.take_output(1, 47);
    expected
}
