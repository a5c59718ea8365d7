//! Core rows in which one rule alone fails and a lane sits elsewhere, or the address is not what it should be.

use keccak_tables::P;
use keccak_tables::keccak::cols::{addr, state_ptr};

/// Above 2^32, so that a pointer's upper word can be made less.
pub const ADDRESS: u64 = (1 << 32) + 4096;

/// What is done to the row that is written for an address (even where the writer refuses it), and in words.
pub struct Forged {
    pub address: u64,
    /// What is added, mod p, and to which column.
    added: Vec<(usize, u64)>,
    pub says: &'static str,
}

impl Forged {
    /// Writes the address and the pointers, and adds what is added.
    pub fn write(&self, row: &mut [u64]) {
        for (byte, number) in (0..).zip(self.address.to_le_bytes()) {
            row[addr(byte)] = number.into();
        }
        for lane in 0..25 {
            let at = self.address.wrapping_add(8 * lane as u64);
            let limbs = [at & 0xFFFF, at >> 16 & 0xFFFF, at >> 32];
            (0..3).for_each(|limb| row[state_ptr(lane, limb)] = limbs[limb]);
        }
        for &(column, more) in &self.added {
            row[column] = ((u128::from(row[column]) + u128::from(more)) % u128::from(P)) as u64;
        }
    }
}

const fn minus(number: u64) -> u64 {
    P - number
}

/// 1 / 2^bits mod p, up to 32 bits.
const fn half_to(bits: u32) -> u64 {
    P - ((P - 1) >> bits)
}

fn at(address: u64, added: &[(usize, u64)], says: &'static str) -> Option<Forged> {
    Some(Forged {
        address,
        added: added.to_vec(),
        says,
    })
}

/// The row in which a value alone fails.
pub fn of_value(index: usize) -> Option<Forged> {
    let lane = index / 2;
    match index {
        48 => at(
            4096,
            &[(state_ptr(24, 0), 1), (state_ptr(24, 2), 0xFFFF_FFFF)],
            "The low words of the sum for lane 24 have the carry 2^32 - 1: the lane is one on and its upper word 2^32 - 1 too high.",
        ),
        49 | 51 => None,
        50 => at(
            0u64.wrapping_sub(192),
            &[],
            "The address is so high that lane 24 comes to 2^64, which wraps: it sits at 0.",
        ),
        _ if index.is_multiple_of(2) => at(
            ADDRESS,
            &[(state_ptr(lane, 0), 1), (state_ptr(lane, 2), minus(1))],
            "The low words of the lane's sum have the carry 2^32 - 1: the lane is one on and its upper word one too low.",
        ),
        _ => at(
            ADDRESS,
            &[(state_ptr(lane, 2), 1)],
            "The upper words of the lane's sum have any carry: the upper word is one too high.",
        ),
    }
}

/// The row in which a lookup alone fails.
pub fn of_tuple(index: usize) -> Option<Forged> {
    let lane = index.saturating_sub(4) / 2;
    match index {
        4..54 if index.is_multiple_of(2) => at(
            ADDRESS,
            &[(state_ptr(lane, 1), minus(1 << 16)), (state_ptr(lane, 2), 1)],
            "A false carry: the lane's middle limb is 2^16 less, mod p, and the upper one 1 more, so both sums hold mod p.",
        ),
        4..54 => at(
            ADDRESS,
            &[(state_ptr(lane, 0), minus(1 << 32)), (state_ptr(lane, 2), 1)],
            "A false carry: the lane's lowest limb is 2^32 less, mod p, and the upper one 1 more, so both sums hold mod p.",
        ),
        54 => at(
            ADDRESS + 1,
            &[],
            "The state begins one past a multiple of 8, and every lane with it.",
        ),
        55 => at(
            ADDRESS + 4,
            &[(addr(0), minus(4)), (addr(1), half_to(6))],
            "Byte 0 of the address looks aligned, and byte 1 has 4/256 mod p more: the lanes sit 4 past a multiple of 8.",
        ),
        56 => at(
            ADDRESS + 4,
            &[(addr(0), minus(4)), (addr(2), half_to(14))],
            "Byte 0 of the address looks aligned, and byte 2 has 4/65536 mod p more: the lanes sit 4 past a multiple of 8.",
        ),
        57 | 58 => at(
            ADDRESS,
            &[(addr(2 * index - 110), minus(256)), (addr(2 * index - 109), 1)],
            "A byte of the address is 256 less, mod p, and the next one 1 more. The memory words stay right, but the eight do not make the number.",
        ),
        _ => None,
    }
}
