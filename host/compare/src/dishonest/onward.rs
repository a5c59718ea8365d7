//! A round row worked out anew from one of its steps on.

use oracle::tables::keccak_rnd::cols;

/// The steps of a round row; 0 to 3 are the stages of CXZ.
pub const SHIFT: usize = 4;
pub const D: usize = 5;
pub const THETA: usize = 6;
pub const RHO: usize = 7;
pub const ANDS: usize = 8;
pub const CHI: usize = 9;
pub const IOTA: usize = 10;
pub const END: usize = 11;

/// Works out the columns of a round row from a step on, out of those before it.
pub fn onward(row: &mut [u64], from: usize) {
    for step in from..END {
        for x in 0..5 {
            match step {
                SHIFT => split_parity(row, x),
                IOTA if x > 0 => {}
                IOTA => (0..8).for_each(|b| row[cols::iota(b)] = row[cols::chi(0, 0, b)] ^ row[cols::rc(b)]),
                RHO => (0..5).for_each(|y| split_lane(row, x, y)),
                _ => (0..8).for_each(|b| bytes(row, step, x, b)),
            }
        }
    }
}

/// A step that is made byte by byte.
fn bytes(row: &mut [u64], step: usize, x: usize, b: usize) {
    match step {
        0 => row[cols::cxz(x, 0, b)] = row[cols::start(x, 0, b)] ^ row[cols::start(x, 1, b)],
        1..=3 => row[cols::cxz(x, step, b)] = row[cols::cxz(x, step - 1, b)] ^ row[cols::start(x, step + 1, b)],
        D => {
            let carry = cols::cxz_right_bit_for_byte(b).map_or(0, |hw| row[cols::cxz_right_bit((x + 1) % 5, hw)]);
            let rotated = row[cols::cxz_left((x + 1) % 5, b)] + carry;
            row[cols::dxz(x, b)] = row[cols::cxz((x + 4) % 5, 3, b)] ^ rotated;
        }
        _ => (0..5).for_each(|y| match step {
            THETA => row[cols::theta(x, y, b)] = row[cols::start(x, y, b)] ^ row[cols::dxz(x, b)],
            ANDS => row[cols::chi_ands(x, y, b)] = !pi(row, (x + 1) % 5, y, b) & pi(row, (x + 2) % 5, y, b) & 255,
            CHI => row[cols::chi(x, y, b)] = pi(row, x, y, b) ^ row[cols::chi_ands(x, y, b)],
            _ => unreachable!("the other steps are not made byte by byte"),
        }),
    }
}

fn pi(row: &[u64], x: usize, y: usize, b: usize) -> u64 {
    let (left, right) = cols::pi_src_cols(x, y, b);
    row[left] + row[right]
}

fn split_parity(row: &mut [u64], x: usize) {
    for hw in 0..4 {
        let shifted = (row[cols::cxz(x, 3, 2 * hw)] + 256 * row[cols::cxz(x, 3, 2 * hw + 1)]) << 1;
        row[cols::cxz_left(x, 2 * hw)] = shifted & 255;
        row[cols::cxz_left(x, 2 * hw + 1)] = shifted >> 8 & 255;
        row[cols::cxz_right_bit(x, hw)] = shifted >> 16;
    }
}

fn split_lane(row: &mut [u64], x: usize, y: usize) {
    for hw in 0..4 {
        let half = row[cols::theta(x, y, 2 * hw)] + 256 * row[cols::theta(x, y, 2 * hw + 1)];
        let shifted = half << (oracle::KECCAK_RHO[x][y] % 16);
        for (byte, shift) in [(2 * hw, 0), (2 * hw + 1, 8)] {
            row[cols::rot_left(x, y, byte)] = shifted >> shift & 255;
            row[cols::rot_right(x, y, byte)] = shifted >> (16 + shift) & 255;
        }
    }
}

#[cfg(test)]
mod tests {
    use super::*;
    use crate::dishonest::Tables;
    use crate::inputs::Words;

    /// What is worked out onward is what the writer writes.
    #[test]
    fn onward_changes_no_written_row() {
        let tables = Tables::written(2, &mut Words::new(5));
        for row in tables.round.chunks_exact(cols::NUM_COLUMNS).take(48) {
            let mut anew = row.to_vec();
            anew[cols::CXZ..cols::RC].fill(0);
            anew[cols::IOTA..cols::MU].fill(0);
            onward(&mut anew, 0);
            assert_eq!(anew, row);
        }
    }
}
