//! Core rows that fail by themselves.

use keccak_tables::P;
use oracle::constraints::templates::INV_SHIFT_32;
use oracle::tables::keccak::cols as core_cols;
use oracle::tables::types::FE;

use super::Named;
use super::tables::{Tables, carry};
use crate::judge::Table::Core;
use crate::judge::Verdict::{self, Lookup, Value};

/// The pointer columns of a core row's lane.
pub fn limb(lane: usize, limb: usize) -> usize {
    core_cols::state_ptr(lane, limb)
}

/// Core rows that fail by themselves.
pub const CORE_ROWS: &[Named] = &[
    ("core MU 2", |t, _| {
        t.core_row(1)[core_cols::MU] = 2;
        Value(Core, 1, 51)
    }),
    ("core MU p - 1", |t, _| {
        t.core_row(1)[core_cols::MU] = P - 1;
        Value(Core, 1, 51)
    }),
    ("core MU 2 on a padding row", |t, _| {
        t.core_row(3)[core_cols::MU] = 2;
        Value(Core, 3, 51)
    }),
    ("the address's lowest byte", |t, _| {
        t.core_row(1)[core_cols::addr(0)] ^= 8;
        Value(Core, 1, 0)
    }),
    ("the address's third byte", |t, _| {
        t.core_row(2)[core_cols::addr(3)] ^= 1;
        Value(Core, 2, 0)
    }),
    ("the address's fifth byte", |t, _| {
        t.core_row(0)[core_cols::addr(5)] ^= 1;
        Value(Core, 0, 1)
    }),
    ("limb 0 of a pointer", |t, _| {
        t.core_row(1)[limb(7, 0)] ^= 1;
        Value(Core, 1, 14)
    }),
    ("limb 1 of a pointer", |t, _| {
        t.core_row(1)[limb(7, 1)] ^= 1;
        Value(Core, 1, 14)
    }),
    ("limb 2 of a pointer", |t, _| {
        t.core_row(1)[limb(7, 2)] ^= 1;
        Value(Core, 1, 15)
    }),
    ("limb 2 of the last pointer", |t, _| {
        t.core_row(1)[limb(24, 2)] ^= 1;
        Value(Core, 1, 49)
    }),
    ("a pointer of p - 1", |t, _| {
        t.core_row(1)[limb(0, 0)] = P - 1;
        Value(Core, 1, 0)
    }),
    ("an address off the eight, as the Rust writes it", |t, _| {
        let row = t.core_row(1);
        row[core_cols::addr(0)] |= 1;
        (0..25).for_each(|lane| row[limb(lane, 0)] |= 1);
        Lookup(Core, 1, 54)
    }),
];

/// Core rows that pass everything but one rule.
pub const FAKED: &[Named] = &[
    ("an address that wraps", |t, _| {
        move_to(t.core_row(1), 0u64.wrapping_sub(64));
        Value(Core, 1, 50)
    }),
    ("a low carry of 2^32 - 1", |t, _| {
        let row = t.core_row(1);
        row[limb(5, 0)] += 1;
        row[limb(5, 2)] -= 1;
        Value(Core, 1, 10)
    }),
    ("a high carry that is no bit", |t, _| {
        t.core_row(1)[limb(5, 2)] += 1;
        Value(Core, 1, 11)
    }),
    ("a fake low carry, by limb 1", |t, _| {
        carry(t.core_row(1), limb(9, 1), 1 << 16, limb(9, 2));
        Lookup(Core, 1, 4 + 18)
    }),
    ("a fake low carry, by limb 1 of the last pointer", |t, _| {
        carry(t.core_row(1), limb(24, 1), 1 << 16, limb(24, 2));
        Lookup(Core, 1, 4 + 48)
    }),
    ("a fake low carry, by limb 0", |t, _| {
        carry(t.core_row(2), limb(9, 0), 1 << 32, limb(9, 2));
        Lookup(Core, 2, 5 + 18)
    }),
    ("limb 0 less 2^16, limb 1 and 1", |t, _| {
        carry(t.core_row(0), limb(24, 0), 1 << 16, limb(24, 1));
        Lookup(Core, 0, 5 + 48)
    }),
    ("lanes 4 off, by byte 1 of the address", |t, _| lanes_off(t, 1)),
    ("lanes 4 off, by byte 2 of the address", |t, _| lanes_off(t, 2)),
    ("byte 4 of the address less 256", |t, _| borrowed(t, 4)),
    ("byte 6 of the address less 256", |t, _| borrowed(t, 6)),
    // The least numbers that the lookups of limbs and bytes refuse.
    ("limb 0 of 2^16, limb 1 less 1", |t, _| {
        let row = t.core_row(1);
        move_to(row, 0x0005_0003_0000 - 8 * 7);
        (row[limb(7, 0)], row[limb(7, 1)]) = (1 << 16, 2);
        Lookup(Core, 1, 5 + 14)
    }),
    ("limb 1 of 2^16, limb 2 less 1", |t, _| {
        let row = t.core_row(1);
        move_to(row, 0x0006_0000_0000 - 8 * 7);
        (row[limb(7, 1)], row[limb(7, 2)]) = (1 << 16, 5);
        Lookup(Core, 1, 4 + 14)
    }),
    ("limb 2 of 2^32, in place of a pointer that wraps", |t, _| {
        let row = t.core_row(1);
        move_to(row, 0u64.wrapping_sub(8 * 24));
        row[limb(24, 2)] = 1 << 32;
        Lookup(Core, 1, 4 + 48)
    }),
    ("byte 4 of the address of 256, byte 5 less 1", |t, _| {
        let row = t.core_row(1);
        move_to(row, 0x0200_0000_1000);
        (row[core_cols::addr(4)], row[core_cols::addr(5)]) = (256, 1);
        Lookup(Core, 1, 55 + 2)
    }),
];

/// A core row gets another address, and pointers that wrap at 2^64.
fn move_to(row: &mut [u64], address: u64) {
    for (byte, word) in address.to_le_bytes().into_iter().enumerate() {
        row[core_cols::addr(byte)] = u64::from(word);
    }
    for lane in 0..25 {
        let pointer = address.wrapping_add(8 * lane as u64);
        row[limb(lane, 0)] = pointer & 0xFFFF;
        row[limb(lane, 1)] = pointer >> 16 & 0xFFFF;
        row[limb(lane, 2)] = pointer >> 32;
    }
}

/// A byte of the address is more by 4 / 256^byte mod p, and every pointer is 4 off, while the lowest byte looks aligned.
fn lanes_off(t: &mut Tables, byte: usize) -> Verdict {
    let row = t.core_row(1);
    let column = core_cols::addr(byte);
    let more = FE::from(4 << (32 - 8 * byte)) * FE::from(INV_SHIFT_32);
    row[column] = (FE::from(row[column]) + more).value();
    (0..25).for_each(|lane| row[limb(lane, 0)] += 4);
    Lookup(Core, 1, 55 + byte as u64 / 2)
}

/// A byte of the address less 256, and the next one more by 1.
pub fn borrowed(t: &mut Tables, byte: usize) -> Verdict {
    carry(t.core_row(1), core_cols::addr(byte), 256, core_cols::addr(byte + 1));
    Lookup(Core, 1, 55 + byte as u64 / 2)
}
