//! The columns of a core row, by the names of the published keccak.rs.

use super::NUM_COLUMNS;

/// The timestamp's low 32 bits.
pub const TIMESTAMP_0: usize = 0;

/// The timestamp's high 32 bits.
pub const TIMESTAMP_1: usize = 1;

/// The first of the 8 bytes of the state's address, lowest first.
pub const ADDR: usize = 2;

/// The first of the 200 bytes of the state before.
pub const INPUT_STATE: usize = ADDR + 8;

/// The first of the 200 bytes of the state after.
pub const OUTPUT_STATE: usize = INPUT_STATE + 200;

/// The first of the 25 pointers' limbs, 16, 16 and 32 bits each.
pub const STATE_PTR: usize = OUTPUT_STATE + 200;

/// 1 in an active row, 0 in a padding row.
pub const MU: usize = NUM_COLUMNS - 1;

/// A byte of the address.
#[must_use]
pub const fn addr(byte: usize) -> usize {
    ADDR + byte
}

/// A byte of lane (x, y) of the state before.
#[must_use]
pub const fn input_state(x: usize, y: usize, byte: usize) -> usize {
    lane(INPUT_STATE, x, y, byte)
}

/// A byte of lane (x, y) of the state after.
#[must_use]
pub const fn output_state(x: usize, y: usize, byte: usize) -> usize {
    lane(OUTPUT_STATE, x, y, byte)
}

/// A limb of the pointer of lane x + 5y.
#[must_use]
pub const fn state_ptr(lane: usize, limb: usize) -> usize {
    STATE_PTR + 3 * lane + limb
}

/// A byte of lane (x, y) of a state whose 200 columns begin at `start`: columns run by lane x + 5y.
pub(crate) const fn lane(start: usize, x: usize, y: usize, byte: usize) -> usize {
    start + (x + 5 * y) * 8 + byte
}
