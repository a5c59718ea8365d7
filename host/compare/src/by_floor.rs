//! What the published Rust, whose tables have 4 rows at least, says of any floor: its rows, and behind them plain padding up to the height
//! that the request gives.

use keccak_tables::{OP_WORDS, Parameters};
use oracle::tables::keccak::cols::STATE_PTR;
use oracle::{CORE_COLUMNS, ROUND_COLUMNS};

use crate::by_rounds::{self, ALL};

/// The floors: "a power of two from 4 to 65,536".
pub const FLOORS: [u64; 15] = [
    4, 8, 16, 32, 64, 128, 256, 512, 1024, 2048, 4096, 8192, 16_384, 32_768, 65_536,
];

/// Some of the others: what is small, what is next to a floor or to the last, sums of floors, powers of two that are too high, and numbers
/// whose low 32 bits are a floor.
pub const REFUSED: [u64; 20] = [
    0,
    1,
    2,
    3,
    5,
    6,
    7,
    12,
    65_535,
    65_537,
    65_540,
    131_072,
    1 << 31,
    1 << 32,
    (1 << 32) + 4,
    (1 << 48) + 65_536,
    1 << 63,
    (1 << 63) + 8,
    u64::MAX - 3,
    u64::MAX,
];

/// The refusal of a floor, which comes after that of the rounds and before all others: 9 and the floor.
pub fn refusal(floor: u64) -> Option<(u64, u64)> {
    (!FLOORS.contains(&floor)).then_some((9, floor))
}

/// The height of a table of so many rows: the first of the floor, twice the floor, and so on, that has room for them.
pub fn height(floor: u64, rows: usize) -> usize {
    let mut height = floor as usize;
    while height < rows {
        height *= 2;
    }
    height
}

/// A padding row of the core table: "zero, except that pointer i holds 8i".
pub fn core_padding() -> Vec<u64> {
    let mut row = vec![0; CORE_COLUMNS];
    for lane in 0..25 {
        row[STATE_PTR + 3 * lane] = 8 * lane as u64;
    }
    row
}

/// The core table of a list by a floor.
pub fn core_table(floor: u64, ops: &[u64]) -> Vec<u64> {
    let (mut table, padding) = (oracle::core_table(ops), core_padding());
    let height = height(floor, ops.len() / OP_WORDS);
    while table.len() < height * CORE_COLUMNS {
        table.extend_from_slice(&padding);
    }
    table
}

/// The round table of a list by a floor and a number of rounds. Its padding rows are zero.
pub fn round_table(with: Parameters, ops: &[u64]) -> Vec<u64> {
    let mut table = by_rounds::round_table(with.rounds, ops);
    table.resize(round_height(with, ops.len() / OP_WORDS) * ROUND_COLUMNS, 0);
    table
}

/// The rows of the round table of n operations.
pub fn round_height(with: Parameters, n: usize) -> usize {
    height(with.floor, with.rounds as usize * n)
}

/// What the padding rows of the round table of n operations send on AreBytes; those of an empty list are not shipped.
pub fn padding_are_bytes(with: Parameters, n: usize) -> u64 {
    let padding = round_height(with, n) - with.rounds as usize * n;
    if n == 0 { 0 } else { 220 * padding as u64 }
}

/// The ten numbers of `tally` on n operations, in its order, by what each row sends: 24 round rows to an operation, 808 on ByteAlu and one
/// on KeccakRc in each, 220 on AreBytes in these and in each padding row; the rest by the core row.
pub fn tally(with: Parameters, n: usize) -> [u64; 10] {
    let (ops, core, round) = (n as u64, height(with.floor, n), height(with.floor, ALL as usize * n));
    let round_rows = if ops > 0 || with.shipped { round as u64 } else { 0 };
    [
        ops,
        core as u64,
        round as u64,
        ops * (24 * 808 + 1),
        ops * 4 + round_rows * 220,
        ops * 24,
        ops * 25,
        ops * 25,
        ops * 26,
        ops,
    ]
}

#[cfg(test)]
mod tests {
    use super::*;

    #[test]
    fn floor_4_is_the_rust_s() {
        let today = Parameters::default();
        for n in [0, 1, 2, 3, 4, 5, 11, 43] {
            let ops: Vec<u64> = (0..n)
                .flat_map(|at| [vec![at, 8 * at], vec![at; OP_WORDS - 2]].concat())
                .collect();
            let n = n as usize;
            assert!(core_table(4, &ops) == oracle::core_table(&ops), "core table of {n}");
            assert!(
                round_table(today, &ops) == oracle::round_table(&ops),
                "round table of {n}"
            );
            assert_eq!(padding_are_bytes(today, n), oracle::padding_are_bytes(n));
            let published = |sums: [(&str, u128); 10]| sums.map(|(_, sum)| sum as u64);
            assert_eq!(tally(today, n), published(oracle::tally(&ops)));
            assert_eq!(tally(today.shipped(), n), published(oracle::shipped_tally(&ops)));
        }
    }

    #[test]
    fn what_is_refused_is_no_floor() {
        let is_floor = |number: u64| number.is_power_of_two() && (4..=65_536).contains(&number);
        assert!(
            (0..200_000)
                .chain(REFUSED)
                .all(|number| refusal(number).is_none() == is_floor(number))
        );
        assert!(REFUSED.iter().all(|&number| refusal(number) == Some((9, number))));
    }
}
