//! The row that is bent at a rule: the written row of a timestamp, a round and START, but where the rule ties a byte to others that byte has its
//! lowest bit flipped, and all that follows is made from the flipped one. So every rule of the row holds but that one. It is `bentRow` of
//! crates/keccak_rnd_needed/specs/Bent.antt, step by step; a step's mark is 0 except where its rule is the one.

use std::array;

use keccak_tables::keccak_rnd::{NUM_COLUMNS, NUM_TUPLES, cols};

type Lanes = [u64; 25];

/// The rule of a value, counted behind the tuples.
pub const fn of_value(index: usize) -> usize {
    NUM_TUPLES + index
}

/// Whether there is such a row: KeccakRc, the 808 ByteAlu tuples and the 120 shift identities.
pub const fn needed(rule: usize) -> bool {
    matches!(rule, 2..163 | 183..423 | 623..NUM_TUPLES | 1051..1171)
}

/// The row, made from the written one.
pub fn row(rule: usize, written: &[u64]) -> Vec<u64> {
    let start = lanes(&written[cols::START..][..200]);
    let sums = grid(|x, y| start[x + 5 * y] ^ sum_mark(rule, x, y));
    let shifted = grid(|x, y| sums[x + 5 * y] ^ if y == 0 { half_mark(rule, 1051 + 4 * x) } else { 0 });
    let d: [u64; 5] = array::from_fn(|x| {
        parity(&sums, (x + 4) % 5) ^ parity(&shifted, (x + 1) % 5).rotate_left(1) ^ mark(rule, 183 + 8 * x)
    });
    let theta = grid(|x, y| start[x + 5 * y] ^ d[x] ^ mark(rule, 223 + 40 * x + 8 * y));
    let mut row = written[..cols::CXZ].to_vec();
    for (x, stage) in (0..20).map(|at| (at / 4, at % 4)) {
        put(&mut row, (0..stage + 2).fold(0, |sum, y| sum ^ sums[x + 5 * y]));
    }
    (0..5).for_each(|x| put(&mut row, low(parity(&shifted, x), 1)));
    for (x, halfword) in (0..20).map(|at| (at / 4, at % 4)) {
        row.push(carry(parity(&shifted, x), 1) >> (16 * halfword) & 1);
    }
    d.iter().chain(&theta).for_each(|&lane| put(&mut row, lane));
    finish(rule, &mut row, &theta, written);
    row
}

/// ρ, π, χ and ι.
fn finish(rule: usize, row: &mut Vec<u64>, theta: &Lanes, written: &[u64]) {
    let offsets = offsets();
    let rho = grid(|x, y| theta[x + 5 * y] ^ half_mark(rule, 1071 + 20 * x + 4 * y));
    let pi = grid(|x, y| {
        let from = (x + 3 * y) % 5 + 5 * x;
        rho[from].rotate_left(offsets[from])
    });
    let and = |x: usize, y: usize| !pi[(x + 1) % 5 + 5 * y] & pi[(x + 2) % 5 + 5 * y];
    let ands = grid(|x, y| and(x, y) ^ mark(rule, 623 + 40 * x + 8 * y));
    let chi = grid(|x, y| pi[x + 5 * y] ^ ands[x + 5 * y] ^ mark(rule, 823 + 40 * x + 8 * y));
    let constant = lane(&written[cols::RC..][..8]) ^ u64::from(rule == 2);
    let shift = |part: fn(u64, u32) -> u64| array::from_fn::<u64, 25, _>(|at| part(rho[at], offsets[at] % 16));
    for lane in [shift(low), shift(carry), ands, chi].as_flattened() {
        put(row, *lane);
    }
    put(row, constant);
    put(row, chi[0] ^ constant ^ mark(rule, 1023));
    row.push(1);
    debug_assert_eq!(row.len(), NUM_COLUMNS);
}

/// The state that a round row sends: CHI, with IOTA for lane (0, 0).
pub fn sent(row: &[u64]) -> Lanes {
    let mut state = lanes(&row[cols::CHI..][..200]);
    state[0] = lane(&row[cols::IOTA..][..8]);
    state
}

/// Eight rules from `first` on, one to a byte: the lowest bit of the byte whose rule is the one.
const fn mark(rule: usize, first: usize) -> u64 {
    if first <= rule && rule < first + 8 {
        1 << (8 * (rule - first))
    } else {
        0
    }
}

/// Four rules from `first` on, one to a halfword.
const fn half_mark(rule: usize, first: usize) -> u64 {
    mark(2 * rule, 2 * first)
}

/// Lane (x, y) is added to the column's sum by the tuples of stage y - 1.
const fn sum_mark(rule: usize, x: usize, y: usize) -> u64 {
    match y {
        0 => 0,
        1 => mark(rule, 3 + 8 * x),
        _ => mark(rule, 43 + 24 * x + 8 * (y - 2)),
    }
}

fn parity(state: &Lanes, x: usize) -> u64 {
    (0..5).fold(0, |sum, y| sum ^ state[x + 5 * y])
}

/// Each halfword of a lane shifted by less than 16: its low 16 bits, and what is left over.
fn low(lane: u64, by: u32) -> u64 {
    halfwords(lane, |halfword| halfword << by & 0xFFFF)
}

fn carry(lane: u64, by: u32) -> u64 {
    halfwords(lane, |halfword| halfword << by >> 16)
}

fn halfwords(lane: u64, part: impl Fn(u64) -> u64) -> u64 {
    (0..4).fold(0, |all, at| all | part(lane >> (16 * at) & 0xFFFF) << (16 * at))
}

/// ρ's offsets, by the rule of FIPS 202.
pub fn offsets() -> [u32; 25] {
    let (mut offsets, mut x, mut y) = ([0; 25], 1, 0);
    for step in 0..24 {
        offsets[x + 5 * y] = (step + 1) * (step + 2) / 2 % 64;
        (x, y) = (y, (2 * x + 3 * y) % 5);
    }
    offsets
}

fn grid(lane: impl Fn(usize, usize) -> u64) -> Lanes {
    array::from_fn(|at| lane(at % 5, at / 5))
}

fn put(row: &mut Vec<u64>, lane: u64) {
    row.extend(lane.to_le_bytes().map(u64::from));
}

fn lane(bytes: &[u64]) -> u64 {
    bytes.iter().rev().fold(0, |number, byte| number << 8 | byte)
}

/// The lanes of a state's 200 columns.
pub fn lanes(bytes: &[u64]) -> Lanes {
    array::from_fn(|at| lane(&bytes[8 * at..][..8]))
}
