//! Inputs: drawn words, operations, and the addresses and lanes at the edges.

use keccak_tables::{OP_WORDS, Operation, P, Parameters};

use crate::by_floor::{FLOORS, REFUSED};
use crate::tally::drawn_mode;

/// The highest accepted address, which is the multiple of 8 before the first that is refused by 4.
pub const LAST_ALIGNED: u64 = 18_446_744_073_709_551_416;

/// Words by the rule of SplitMix64.
pub struct Words(u64);

impl Words {
    /// The words after a seed.
    pub fn new(seed: u64) -> Self {
        Self(seed)
    }

    /// The next word.
    pub fn word(&mut self) -> u64 {
        self.0 = self.0.wrapping_add(0x9E37_79B9_7F4A_7C15);
        let mut word = self.0;
        word = (word ^ word >> 30).wrapping_mul(0xBF58_476D_1CE4_E5B9);
        word = (word ^ word >> 27).wrapping_mul(0x94D0_49BB_1331_11EB);
        word ^ word >> 31
    }

    /// A number below `end`.
    pub fn below(&mut self, end: u64) -> u64 {
        self.word() % end
    }

    /// The next `n` words.
    pub fn take(&mut self, n: usize) -> Vec<u64> {
        (0..n).map(|_| self.word()).collect()
    }

    /// A field element; now and then one at an edge.
    pub fn element(&mut self) -> u64 {
        match self.below(8) {
            0 => [0, 1, 255, 256, 65_535, 65_536, P - 2, P - 1][self.below(8) as usize],
            1 => self.below(1 << 20),
            _ => self.below(P),
        }
    }

    /// A lane: most are drawn whole, some are at an edge.
    pub fn lane(&mut self) -> u64 {
        match self.below(10) {
            0 => 0,
            1 => u64::MAX,
            2 => 1 << self.below(64),
            3 => !(1 << self.below(64)),
            _ => self.word(),
        }
    }

    /// An accepted address: a multiple of 8.
    pub fn address(&mut self) -> u64 {
        let edges = addresses();
        match self.below(4) {
            0 => edges[self.below(edges.len() as u64) as usize],
            1 => self.word() & 0x0000_FFFF_FFFF_FFF8,
            _ => self.word().min(LAST_ALIGNED) / 8 * 8,
        }
    }

    /// An address that is not too high and no multiple of 8.
    pub fn unaligned_address(&mut self) -> u64 {
        self.address() + 1 + self.below(7)
    }

    /// A number of rounds, which are 1 to 24.
    pub fn rounds(&mut self) -> u64 {
        1 + self.below(24)
    }

    /// A number of rounds that is accepted or refused: 24, another, and those next to both ends.
    pub fn any_rounds(&mut self) -> u64 {
        let refused = [0, 25, 26, 1 << 32, (1 << 32) + 24, u64::MAX];
        match self.below(4) {
            0 => 24,
            1 => self.rounds(),
            _ => refused[self.below(6) as usize],
        }
    }

    /// A floor.
    pub fn floor(&mut self) -> u64 {
        FLOORS[self.below(FLOORS.len() as u64) as usize]
    }

    /// A floor that is accepted or refused: 4, a low one, any, and others.
    pub fn any_floor(&mut self) -> u64 {
        match self.below(8) {
            0..3 => 4,
            3 => FLOORS[self.below(5) as usize],
            4 => self.floor(),
            _ => self.refused_floor(),
        }
    }

    /// A floor that is refused.
    pub fn refused_floor(&mut self) -> u64 {
        REFUSED[self.below(REFUSED.len() as u64) as usize]
    }

    /// Parameters of either mode, with rounds and a floor that are accepted or refused.
    pub fn any_parameters(&mut self) -> Parameters {
        let (rounds, floor) = (self.any_rounds(), self.any_floor());
        drawn_mode(self).rounds(rounds).floor(floor)
    }

    /// An operation whose output is drawn, so that it is almost never right.
    pub fn operation(&mut self) -> Operation {
        Operation {
            timestamp: self.lane(),
            address: self.address(),
            input: std::array::from_fn(|_| self.lane()),
            output: std::array::from_fn(|_| self.lane()),
            segment: self.segment(),
        }
    }

    /// A byte that may stand for one of a mark: of either mark, about them, or any.
    pub fn mark(&mut self) -> u8 {
        match self.below(4) {
            0 => [0x4A, 0x4B, 0x4E, 0x4F, 0x50, 0x51][self.below(6) as usize],
            1 => [0x4F, 0x50][self.below(2) as usize],
            _ => self.below(256) as u8,
        }
    }

    /// A segment number: of any size, and now and then one at an edge.
    pub fn segment(&mut self) -> u32 {
        match self.below(4) {
            0 => [0, 1, 255, 256, 65_535, 65_536, 1 << 31, u32::MAX][self.below(8) as usize],
            1 => self.below(1 << 8) as u32,
            _ => self.below(1 << 32) as u32,
        }
    }

    /// A flat list of `n` operations.
    pub fn operations(&mut self, n: usize) -> Vec<u64> {
        (0..n).flat_map(|_| self.operation().words()).collect()
    }
}

/// Accepted addresses at an edge: the first and last ones, and those where some lane's pointer crosses into another limb.
pub fn addresses() -> Vec<u64> {
    let mut edges = vec![0, 8, 184, 192, 200, LAST_ALIGNED, LAST_ALIGNED - 8, LAST_ALIGNED - 16];
    for limb in [16, 32, 48] {
        for lane in [0, 1, 12, 23, 24] {
            for off in [-16i64, -8, 0, 8, 16] {
                edges.push((1u64 << limb).wrapping_sub(8 * lane).wrapping_add_signed(off));
            }
        }
    }
    edges
}

/// Addresses that are no multiples of 8: every rest, the first ones and the last ones before those that are too high.
pub fn unaligned_addresses() -> Vec<u64> {
    let rests = (1..8).flat_map(|rest| [rest, 4096 + rest, (1 << 48) + rest, LAST_ALIGNED + rest]);
    rests.collect()
}

/// States at an edge: all zero, all ones, and one bit of one lane, for every bit of several lanes.
pub fn states() -> Vec<[u64; 25]> {
    let mut states = vec![[0; 25], [u64::MAX; 25]];
    for lane in [0, 1, 5, 7, 12, 18, 24] {
        for bit in 0..64 {
            let mut state = [0; 25];
            state[lane] = 1 << bit;
            states.push(state);
        }
    }
    for lane in 0..25 {
        let mut state = [0; 25];
        state[lane] = u64::MAX;
        states.push(state);
    }
    states
}

/// Eight bytes as a number, lowest first.
pub fn number(bytes: &[u64]) -> u64 {
    bytes.iter().rev().fold(0, |number, byte| number << 8 | byte)
}

/// The operation of a row of a table with `rows` rows to an operation, in words, where that row is no padding.
pub fn operation_of_row(ops: &[u64], row: usize, rows: usize) -> String {
    match ops.chunks_exact(OP_WORDS).nth(row / rows) {
        Some(words) => format!("operation {} = {words:?}", row / rows),
        None => "a padding row".into(),
    }
}

#[cfg(test)]
mod tests {
    use super::*;
    use keccak_tables::keccak::LAST_ADDRESS;

    #[test]
    fn addresses_are_drawn_on_the_eight_or_off_it() {
        let (mut words, accepted) = (Words::new(7), |address: u64| {
            address <= LAST_ADDRESS && address.is_multiple_of(8)
        });
        assert!(addresses().into_iter().all(accepted));
        assert!((0..10_000).all(|_| accepted(words.address())));
        let off = |address: u64| address <= LAST_ADDRESS && !address.is_multiple_of(8);
        assert!(unaligned_addresses().into_iter().all(off));
        assert!((0..10_000).all(|_| off(words.unaligned_address())));
        assert_eq!((LAST_ADDRESS, LAST_ADDRESS / 8 * 8), (LAST_ALIGNED + 7, LAST_ALIGNED));
    }
}
