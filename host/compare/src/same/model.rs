//! The answer by a plain matching: calls as numbers, and a map from each to the rows that have it.

use std::collections::{HashMap, VecDeque};

use keccak_tables::P;

use crate::inputs::number;
use crate::plain_file::{first_fault, operations_of};

/// The words of an operation that are compared: all but its segment number.
const COMPARED: usize = 52;

/// A call: timestamp, address and 50 lanes.
type Call = [u64; COMPARED];

/// The columns of a core row, where its bytes begin and end, and MU.
const COLUMNS: usize = 486;
const BYTES: std::ops::Range<usize> = 2..410;
const MU: usize = 485;

/// The refusal's number and detail; or 0, 1 or 2, same, a record or a row, and which.
pub fn answer(core: &[u64], file: &[u8]) -> Result<[u64; 2], (u64, u64)> {
    if !core.len().is_multiple_of(COLUMNS) {
        return Err((2, 0));
    }
    if let Some(place) = core.iter().position(|&word| word >= P) {
        return Err((5, place as u64));
    }
    match first_fault(file) {
        Some(fault) => Err(fault),
        None => Ok(agreement(core, file)),
    }
}

/// Each record takes the earliest row that has its call and is not taken yet.
pub fn agreement(core: &[u64], file: &[u8]) -> [u64; 2] {
    let mut rows: HashMap<Call, VecDeque<u64>> = HashMap::new();
    let mut first_odd = None;
    for (row, columns) in (0..).zip(core.chunks_exact(COLUMNS)) {
        match call_of(columns) {
            _ if columns[MU] != 1 => {}
            Some(call) => rows.entry(call).or_default().push_back(row),
            None => first_odd = first_odd.or(Some(row)),
        }
    }
    for (record, operation) in (0..).zip(operations_of(file).chunks_exact(COMPARED + 1)) {
        let partner = rows.get_mut(&operation[..COMPARED]).and_then(VecDeque::pop_front);
        if partner.is_none() {
            return [1, record];
        }
    }
    let left = rows.values().filter_map(|rows| rows.front().copied());
    match left.chain(first_odd).min() {
        Some(row) => [2, row],
        None => [0, 0],
    }
}

/// The call of a row; none where a word of its timestamp has more than 32 bits or a byte more than 8.
fn call_of(columns: &[u64]) -> Option<Call> {
    let [low, high] = [columns[0], columns[1]];
    let fits = low < 1 << 32 && high < 1 << 32 && columns[BYTES].iter().all(|&byte| byte < 256);
    let mut call = [high << 32 | low; COMPARED];
    for (word, bytes) in call[1..].iter_mut().zip(columns[BYTES].chunks_exact(8)) {
        *word = number(bytes);
    }
    fits.then_some(call)
}
