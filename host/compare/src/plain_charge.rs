//! A plain charge in Rust, as one would write it beside the prover: the rows of each operation in words, and a counter raised by one
//! where a row looks something up. The benchmark's other side.
//!
//! It checks nothing: counters are below p by far, addresses are accepted ones. Its lookups are those of the published interactions: from
//! the columns of each row when it is made, or, with no such reading, from the lanes while it is made.

use keccak_tables::bitwise::{BitwiseOperationType, NUM_LOOKUP_TYPES};
use keccak_tables::{OP_WORDS, keccak, keccak_rnd};
use oracle::KECCAK_RHO;
use oracle::lanes::CONSTANTS;

const AND: usize = BitwiseOperationType::ByteAluAnd.number();
const XOR: usize = BitwiseOperationType::ByteAluXor.number();
const ARE_BYTES: usize = BitwiseOperationType::AreBytes.number();
const IS_HALF: usize = BitwiseOperationType::IsHalf.number();

/// The AreBytes lookups of a round row, padding or not.
const ARE_BYTES_PER_ROW: u64 = 220;

/// Makes the rows of a list and charges what they look up from the lanes that they are made of, and the padding rows' lookups; each
/// row is shown to `row` when it is whole.
pub fn charge(shipped: bool, ops: &[u64], counters: &mut [u64], mut row: impl FnMut(&[u64])) {
    let mut look = |kind, x, y| bump(counters, kind, x, y);
    rows(ops, &mut look, |whole, _| row(whole));
    charge_padding(shipped, ops, counters);
}

/// The same with a row made first and its lookups then read from its columns, as the interactions name them.
pub fn charge_from_rows(shipped: bool, ops: &[u64], counters: &mut [u64]) {
    rows(ops, &mut |_, _, _| (), |row, of| match of {
        Table::Core => core_lookups(row, counters),
        Table::Round => round_lookups(row, counters),
    });
    charge_padding(shipped, ops, counters);
}

/// Whose row it is.
#[derive(Clone, Copy)]
enum Table {
    Core,
    Round,
}

/// The rows of a list, each lookup shown to `look` while its row is made, and each row to `row` when it is whole.
fn rows(ops: &[u64], look: &mut impl FnMut(usize, u8, u8), mut row: impl FnMut(&[u64], Table)) {
    let mut core = [0; keccak::NUM_COLUMNS];
    let mut round = [0; keccak_rnd::NUM_COLUMNS];
    for op in ops.chunks_exact(OP_WORDS) {
        core_row(op, &mut core, look);
        row(&core, Table::Core);
        let mut state: [u64; 25] = op[2..27].try_into().expect("25 lanes");
        for number in 0..24 {
            state = round_row(op[0], number, &state, &mut round, look);
            row(&round, Table::Round);
        }
    }
}

/// The padding rows of the round table, none where it is empty and not shipped.
fn charge_padding(shipped: bool, ops: &[u64], counters: &mut [u64]) {
    let rows = 24 * (ops.len() / OP_WORDS);
    if rows == 0 && !shipped {
        return;
    }
    let padding = rows.next_power_of_two().max(4) - rows;
    counters[ARE_BYTES] += ARE_BYTES_PER_ROW * padding as u64;
}

/// One lookup of a kind on the row of two bytes.
fn bump(counters: &mut [u64], kind: usize, x: u8, y: u8) {
    let row = usize::from(x) + 256 * usize::from(y);
    counters[row * NUM_LOOKUP_TYPES + kind] += 1;
}

/// The lookups of a core row, from its columns.
fn core_lookups(row: &[u64], counters: &mut [u64]) {
    use keccak::cols::{ADDR, STATE_PTR};
    for lane in 0..25 {
        let half = row[STATE_PTR + 3 * lane];
        bump(counters, IS_HALF, half as u8, (half >> 8) as u8);
    }
    bump(counters, AND, row[ADDR] as u8, 7);
    for pair in row[ADDR..ADDR + 8].chunks_exact(2) {
        bump(counters, ARE_BYTES, pair[0] as u8, pair[1] as u8);
    }
}

/// The lookups of a round row, from its columns.
fn round_lookups(row: &[u64], counters: &mut [u64]) {
    use keccak_rnd::cols::{CHI, RC};
    for x in 0..5 {
        column_lookups(row, x, counters);
        for y in 0..5 {
            lane_lookups(row, x, y, counters);
        }
    }
    for b in 0..8 {
        bump(counters, XOR, row[CHI + b] as u8, row[RC + b] as u8);
    }
}

/// C[x] in its stages, its shifted halfwords, and D[x].
fn column_lookups(row: &[u64], x: usize, counters: &mut [u64]) {
    use keccak_rnd::cols::{CXZ, CXZ_LEFT, CXZ_RIGHT, START};
    let (before, next) = ((x + 4) % 5, (x + 1) % 5);
    for b in 0..8 {
        bump(
            counters,
            XOR,
            row[START + 8 * x + b] as u8,
            row[START + 8 * (x + 5) + b] as u8,
        );
        for k in 0..3 {
            let (stage, lane) = (CXZ + 8 * (4 * x + k), START + 8 * (x + 5 * (k + 2)));
            bump(counters, XOR, row[stage + b] as u8, row[lane + b] as u8);
        }
        let carry = if b % 2 == 0 {
            row[CXZ_RIGHT + 4 * next + (b / 2 + 3) % 4]
        } else {
            0
        };
        let rotated = row[CXZ_LEFT + 8 * next + b] + carry;
        bump(counters, XOR, row[CXZ + 8 * (4 * before + 3) + b] as u8, rotated as u8);
    }
    for pair in row[CXZ_LEFT + 8 * x..CXZ_LEFT + 8 * x + 8].chunks_exact(2) {
        bump(counters, ARE_BYTES, pair[0] as u8, pair[1] as u8);
    }
}

/// θ, ρ's parts and χ of lane (x, y).
fn lane_lookups(row: &[u64], x: usize, y: usize, counters: &mut [u64]) {
    use keccak_rnd::cols::{CHI_ANDS, DXZ, ROT_LEFT, ROT_RIGHT, START};
    let lane = 8 * (x + 5 * y);
    for b in 0..8 {
        bump(counters, XOR, row[START + lane + b] as u8, row[DXZ + 8 * x + b] as u8);
        bump(
            counters,
            ARE_BYTES,
            row[ROT_LEFT + lane + b] as u8,
            row[ROT_RIGHT + lane + b] as u8,
        );
        bump(counters, AND, !pi(row, (x + 1) % 5, y, b), pi(row, (x + 2) % 5, y, b));
        bump(counters, XOR, pi(row, x, y, b), row[CHI_ANDS + lane + b] as u8);
    }
}

/// Byte b of lane (x, y) of π: the low part and the carry that have come to it.
fn pi(row: &[u64], x: usize, y: usize, b: usize) -> u8 {
    use keccak_rnd::cols::{ROT_LEFT, ROT_RIGHT};
    let from = (x + 3 * y) % 5;
    let (lane, moved) = (8 * (from + 5 * x), 2 * (KECCAK_RHO[from][x] as usize / 16));
    (row[ROT_LEFT + lane + (b + 8 - moved) % 8] + row[ROT_RIGHT + lane + (b + 14 - moved) % 8]) as u8
}

/// A lookup for each byte of two lanes.
fn look_lane(look: &mut impl FnMut(usize, u8, u8), kind: usize, a: u64, b: u64) {
    for (x, y) in a.to_le_bytes().into_iter().zip(b.to_le_bytes()) {
        look(kind, x, y);
    }
}

/// A lane's bytes, one to a column.
fn put_lane(row: &mut [u64], column: usize, lane: u64) {
    for (cell, byte) in row[column..column + 8].iter_mut().zip(lane.to_le_bytes()) {
        *cell = byte.into();
    }
}

/// The core row of an operation, and its lookups.
fn core_row(op: &[u64], row: &mut [u64], look: &mut impl FnMut(usize, u8, u8)) {
    use keccak::cols::{ADDR, INPUT_STATE, MU, OUTPUT_STATE, STATE_PTR, TIMESTAMP_0, TIMESTAMP_1};
    let (timestamp, address) = (op[0], op[1]);
    row[TIMESTAMP_0] = timestamp & 0xFFFF_FFFF;
    row[TIMESTAMP_1] = timestamp >> 32;
    put_lane(row, ADDR, address);
    for lane in 0..25 {
        put_lane(row, INPUT_STATE + 8 * lane, op[2 + lane]);
        put_lane(row, OUTPUT_STATE + 8 * lane, op[27 + lane]);
        let pointer = address + 8 * lane as u64;
        row[STATE_PTR + 3 * lane] = pointer & 0xFFFF;
        row[STATE_PTR + 3 * lane + 1] = pointer >> 16 & 0xFFFF;
        row[STATE_PTR + 3 * lane + 2] = pointer >> 32;
        look(IS_HALF, pointer as u8, (pointer >> 8) as u8);
    }
    row[MU] = 1;
    let bytes = address.to_le_bytes();
    look(AND, bytes[0], 7);
    for pair in bytes.chunks_exact(2) {
        look(ARE_BYTES, pair[0], pair[1]);
    }
}

/// The row of a round, its lookups, and the state after it.
fn round_row(
    timestamp: u64,
    round: usize,
    state: &[u64; 25],
    row: &mut [u64],
    look: &mut impl FnMut(usize, u8, u8),
) -> [u64; 25] {
    use keccak_rnd::cols::{MU, ROUND, START, TIMESTAMP_0, TIMESTAMP_1};
    row[TIMESTAMP_0] = timestamp & 0xFFFF_FFFF;
    row[TIMESTAMP_1] = timestamp >> 32;
    row[ROUND] = round as u64;
    for (lane, &start) in state.iter().enumerate() {
        put_lane(row, START + 8 * lane, start);
    }
    let theta = theta(state, row, look);
    let pi = rho_pi(&theta, row, look);
    let after = chi_iota(&pi, CONSTANTS[round], row, look);
    row[MU] = 1;
    after
}

/// θ: the parities, their rotation by one bit in halfwords, and the state after it.
fn theta(state: &[u64; 25], row: &mut [u64], look: &mut impl FnMut(usize, u8, u8)) -> [u64; 25] {
    use keccak_rnd::cols::{CXZ, CXZ_LEFT, CXZ_RIGHT, DXZ, THETA};
    let mut c = [0; 5];
    for x in 0..5 {
        c[x] = state[x];
        for stage in 0..4 {
            let next = state[x + 5 * (stage + 1)];
            look_lane(look, XOR, c[x], next);
            c[x] ^= next;
            put_lane(row, CXZ + 8 * (4 * x + stage), c[x]);
        }
        let mut left = 0;
        for half in 0..4 {
            let bits = c[x] >> (16 * half) & 0xFFFF;
            left |= (bits << 1 & 0xFFFF) << (16 * half);
            row[CXZ_RIGHT + 4 * x + half] = bits >> 15;
        }
        put_lane(row, CXZ_LEFT + 8 * x, left);
        for pair in left.to_le_bytes().chunks_exact(2) {
            look(ARE_BYTES, pair[0], pair[1]);
        }
    }
    let mut theta = [0; 25];
    for x in 0..5 {
        let (before, after) = (c[(x + 4) % 5], c[(x + 1) % 5].rotate_left(1));
        let d = before ^ after;
        look_lane(look, XOR, before, after);
        put_lane(row, DXZ + 8 * x, d);
        for lane in (x..25).step_by(5) {
            look_lane(look, XOR, state[lane], d);
            theta[lane] = state[lane] ^ d;
            put_lane(row, THETA + 8 * lane, theta[lane]);
        }
    }
    theta
}

/// ρ and π: each lane's halfwords shifted, and the lanes rotated and at their new places.
fn rho_pi(theta: &[u64; 25], row: &mut [u64], look: &mut impl FnMut(usize, u8, u8)) -> [u64; 25] {
    use keccak_rnd::cols::{ROT_LEFT, ROT_RIGHT};
    let mut pi = [0; 25];
    for y in 0..5 {
        for x in 0..5 {
            let lane = x + 5 * y;
            let offset = KECCAK_RHO[x][y];
            let (mut left, mut right) = (0, 0);
            for half in 0..4 {
                let shifted = (theta[lane] >> (16 * half) & 0xFFFF) << (offset % 16);
                left |= (shifted & 0xFFFF) << (16 * half);
                right |= (shifted >> 16) << (16 * half);
            }
            put_lane(row, ROT_LEFT + 8 * lane, left);
            put_lane(row, ROT_RIGHT + 8 * lane, right);
            look_lane(look, ARE_BYTES, left, right);
            pi[y + 5 * ((2 * x + 3 * y) % 5)] = theta[lane].rotate_left(offset);
        }
    }
    pi
}

/// χ and ι: the state after the round.
fn chi_iota(pi: &[u64; 25], rc: u64, row: &mut [u64], look: &mut impl FnMut(usize, u8, u8)) -> [u64; 25] {
    use keccak_rnd::cols::{CHI, CHI_ANDS, IOTA, RC};
    let mut chi = [0; 25];
    for y in 0..5 {
        for x in 0..5 {
            let lane = x + 5 * y;
            let (not_next, after) = (!pi[(x + 1) % 5 + 5 * y], pi[(x + 2) % 5 + 5 * y]);
            let and = not_next & after;
            look_lane(look, AND, not_next, after);
            look_lane(look, XOR, pi[lane], and);
            chi[lane] = pi[lane] ^ and;
            put_lane(row, CHI_ANDS + 8 * lane, and);
            put_lane(row, CHI + 8 * lane, chi[lane]);
        }
    }
    look_lane(look, XOR, chi[0], rc);
    put_lane(row, RC, rc);
    chi[0] ^= rc;
    put_lane(row, IOTA, chi[0]);
    chi
}

#[cfg(test)]
mod tests {
    use super::*;
    use crate::charge::sent;
    use crate::inputs::Words;
    use keccak_tables::Parameters;
    use keccak_tables::bitwise::NUM_COUNTERS;

    /// The rows of the published writers, and the counters of the published tuples.
    #[test]
    fn it_makes_the_rows_and_raises_the_counters() {
        for n in [0, 1, 3] {
            let ops = Words::new(7).operations(n);
            for parameters in [Parameters::default(), Parameters::default().shipped()] {
                let (mut core, mut round) = (Vec::new(), Vec::new());
                let mut counters = vec![0; NUM_COUNTERS];
                charge(parameters.shipped, &ops, &mut counters, |row| match row.len() {
                    keccak::NUM_COLUMNS => core.extend_from_slice(row),
                    _ => round.extend_from_slice(row),
                });
                assert!(oracle::core_table(&ops).starts_with(&core) && core.len() == n * keccak::NUM_COLUMNS);
                assert!(
                    oracle::round_table(&ops).starts_with(&round) && round.len() == 24 * n * keccak_rnd::NUM_COLUMNS
                );
                assert!(counters == sent(parameters, &ops), "{n} operations, {parameters:?}");
                let mut from_rows = vec![0; NUM_COUNTERS];
                charge_from_rows(parameters.shipped, &ops, &mut from_rows);
                assert!(
                    from_rows == counters,
                    "{n} operations, {parameters:?}, from the columns"
                );
            }
        }
    }
}
