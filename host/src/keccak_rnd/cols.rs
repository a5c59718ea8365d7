//! The columns of a round row, by the names of the published keccak_rnd.rs.

use super::NUM_COLUMNS;
use crate::keccak::cols::lane;

/// The timestamp's low 32 bits.
pub const TIMESTAMP_0: usize = 0;

/// The timestamp's high 32 bits.
pub const TIMESTAMP_1: usize = 1;

/// The round, 0 to 23.
pub const ROUND: usize = 2;

/// The first of the 200 bytes of the state before the round.
pub const START: usize = 3;

/// The first of the parities C: 5 columns by 4 stages by 8 bytes.
pub const CXZ: usize = START + 200;

/// The first of the low halves of C's halfwords, shifted by one bit: 5 by 8 bytes.
pub const CXZ_LEFT: usize = CXZ + 160;

/// The first of their carries: 5 by 4 bits.
pub const CXZ_RIGHT: usize = CXZ_LEFT + 40;

/// The first of D: 5 by 8 bytes.
pub const DXZ: usize = CXZ_RIGHT + 20;

/// The first of the 200 bytes after theta.
pub const THETA: usize = DXZ + 40;

/// The first of the low halves of the halfwords shifted by rho: 200 bytes.
pub const ROT_LEFT: usize = THETA + 200;

/// The first of their carries: 200 bytes.
pub const ROT_RIGHT: usize = ROT_LEFT + 200;

/// The first of the 200 ANDs of chi.
pub const CHI_ANDS: usize = ROT_RIGHT + 200;

/// The first of the 200 bytes after chi.
pub const CHI: usize = CHI_ANDS + 200;

/// The first of the 8 bytes of the round's constant.
pub const RC: usize = CHI + 200;

/// The first of the 8 bytes of lane (0, 0) after iota.
pub const IOTA: usize = RC + 8;

/// 1 in an active row, 0 in a padding row.
pub const MU: usize = NUM_COLUMNS - 1;

/// A byte of lane (x, y) of START.
#[must_use]
pub const fn start(x: usize, y: usize, byte: usize) -> usize {
    lane(START, x, y, byte)
}

/// A byte of a stage of C at x.
#[must_use]
pub const fn cxz(x: usize, stage: usize, byte: usize) -> usize {
    CXZ + (4 * x + stage) * 8 + byte
}

/// A byte of the low half at x.
#[must_use]
pub const fn cxz_left(x: usize, byte: usize) -> usize {
    CXZ_LEFT + 8 * x + byte
}

/// The carry of a halfword at x.
#[must_use]
pub const fn cxz_right_bit(x: usize, halfword: usize) -> usize {
    CXZ_RIGHT + 4 * x + halfword
}

/// A byte of D at x.
#[must_use]
pub const fn dxz(x: usize, byte: usize) -> usize {
    DXZ + 8 * x + byte
}

/// A byte of lane (x, y) after theta.
#[must_use]
pub const fn theta(x: usize, y: usize, byte: usize) -> usize {
    lane(THETA, x, y, byte)
}

/// A byte of the low halves of lane (x, y).
#[must_use]
pub const fn rot_left(x: usize, y: usize, byte: usize) -> usize {
    lane(ROT_LEFT, x, y, byte)
}

/// A byte of the carries of lane (x, y).
#[must_use]
pub const fn rot_right(x: usize, y: usize, byte: usize) -> usize {
    lane(ROT_RIGHT, x, y, byte)
}

/// A byte of the ANDs of lane (x, y).
#[must_use]
pub const fn chi_ands(x: usize, y: usize, byte: usize) -> usize {
    lane(CHI_ANDS, x, y, byte)
}

/// A byte of lane (x, y) after chi.
#[must_use]
pub const fn chi(x: usize, y: usize, byte: usize) -> usize {
    lane(CHI, x, y, byte)
}

/// A byte of the round's constant.
#[must_use]
pub const fn rc(byte: usize) -> usize {
    RC + byte
}

/// A byte of lane (0, 0) after iota.
#[must_use]
pub const fn iota(byte: usize) -> usize {
    IOTA + byte
}
