//! Operations made by Keccak-f[1600] on lanes, and the lanes that rows hold.

#![allow(dead_code)]

use oracle::lanes::{State, keccak_f};

/// The operation that permutes `input`, as a list has it, of segment 0.
pub fn operation(timestamp: u64, address: u64, input: &State) -> Vec<u64> {
    [&[timestamp, address], input.as_slice(), &keccak_f(input), &[0]].concat()
}

/// Eight words as the number that these bytes make, lowest first.
pub fn lane_of(bytes: &[u64]) -> u64 {
    assert_eq!(bytes.len(), 8);
    bytes.iter().rev().fold(0, |number, &byte| {
        assert!(byte < 256);
        number << 8 | byte
    })
}

/// 200 words as lanes.
pub fn lanes_of(bytes: &[u64]) -> State {
    core::array::from_fn(|i| lane_of(&bytes[8 * i..8 * i + 8]))
}

/// The state that a round row hands on: chi, with lane 0 from iota.
pub fn state_after(row: &[u64]) -> State {
    let mut lanes = lanes_of(&row[1263..1463]);
    lanes[0] = lane_of(&row[1471..1479]);
    lanes
}
