//! Names that the published files import from `tables::types` and that types.rs, as published, does not define.

use math::field::goldilocks::GoldilocksField;
use stark::table::Table;

use crate::tables::types::{FE, dword_wl};

/// Assumes: a bus is told from the others by its number alone; the numbers here are this project's.
pub use crate::tuple::Bus as BusId;

/// The operations of the ByteAlu bus.
///
/// Assumes: the three are distinct. The Rust's own numbers are not published; these markers are letters, so that none
/// is taken for one of this project's numbers 0, 1, 2 by accident. [`crate::Tuple`] shows 0, 1, 2.
pub mod alu_op {
    /// AND, 0 in this project's tuples.
    pub const AND: u8 = b'A';
    /// OR, 1 in this project's tuples.
    pub const OR: u8 = b'O';
    /// XOR, 2 in this project's tuples.
    pub const XOR: u8 = b'X';
}

/// Writers of cells by the kind of what is written.
///
/// Assumes: each is as its name and the comments in the published files say, lowest limb first.
pub trait VmTable {
    /// A word, mod p.
    fn set_u64(&mut self, row: usize, column: usize, word: u64);

    /// Words below p, column after column.
    fn set_limbs<const N: usize>(&mut self, row: usize, column: usize, limbs: [u64; N]) {
        for (i, limb) in limbs.into_iter().enumerate() {
            self.set_u64(row, column + i, limb);
        }
    }

    /// A bit.
    fn set_bool(&mut self, row: usize, column: usize, bit: bool) {
        self.set_u64(row, column, bit as u64);
    }

    /// A byte.
    fn set_byte(&mut self, row: usize, column: usize, byte: u8) {
        self.set_u64(row, column, byte as u64);
    }

    /// Bytes, one a column.
    fn set_bytes(&mut self, row: usize, column: usize, bytes: &[u8]) {
        for (i, &byte) in bytes.iter().enumerate() {
            self.set_byte(row, column + i, byte);
        }
    }

    /// A halfword.
    fn set_half(&mut self, row: usize, column: usize, half: u16) {
        self.set_u64(row, column, half as u64);
    }

    /// A 64-bit number as two limbs of 32 bits.
    fn set_dword_wl(&mut self, row: usize, column: usize, number: u64) {
        self.set_limbs(row, column, dword_wl(number).map(|limb: FE| limb.value()));
    }

    /// A 64-bit number as eight bytes.
    fn set_dword_bl(&mut self, row: usize, column: usize, number: u64) {
        self.set_bytes(row, column, &number.to_le_bytes());
    }

    /// A 64-bit number as limbs of 16, 16 and 32 bits.
    fn set_dword_whh(&mut self, row: usize, column: usize, number: u64) {
        self.set_limbs(row, column, [number & 0xFFFF, (number >> 16) & 0xFFFF, number >> 32]);
    }
}

impl VmTable for Table<GoldilocksField> {
    fn set_u64(&mut self, row: usize, column: usize, word: u64) {
        self.set_fe(row, column, FE::from(word));
    }
}
