//! Answers of keccak.rs.

use executor::vm::instruction::execution::with_syscall_number;

use crate::answers::is_wh::key_words;
use crate::operation::core_operations;
use crate::row::{check_width, values, words};
use crate::tables::keccak::{self, KeccakConstraints, bus_interactions, cols, generate_keccak_trace};
use crate::tuple::{BusSums, Tuple, bus_sums, tuples};

/// The columns of a core row.
pub const CORE_COLUMNS: usize = cols::NUM_COLUMNS;

/// The core table of a flat list of operations (`generate_keccak_trace`).
///
/// Panics, as the Rust does, when an address is above 2^64 - 193.
pub fn core_table(operations: &[u64]) -> Vec<u64> {
    words(&generate_keccak_trace(&core_operations(operations)))
}

/// The keys of a flat list of operations (`is_wh_keys`): two words each, 25 keys an operation.
///
/// Panics, as the Rust does, when an address is above 2^64 - 193.
pub fn is_wh_keys(operations: &[u64]) -> Vec<u64> {
    keccak::is_wh_keys(&core_operations(operations))
        .flat_map(key_words)
        .collect()
}

/// The 52 constraint values of a row of 486 words.
pub fn core_values(row: &[u64]) -> Vec<u64> {
    check_width(row, CORE_COLUMNS);
    values(&KeccakConstraints, row)
}

/// The 84 tuples of a row of 486 words, when `syscall` is the number of the Keccak system call.
pub fn core_tuples(row: &[u64], syscall: u64) -> Vec<Tuple> {
    check_width(row, CORE_COLUMNS);
    tuples(&with_syscall_number(syscall, bus_interactions), row)
}

/// The sums of multiplicities over a core table.
pub fn core_sums(table: &[u64]) -> BusSums {
    bus_sums(&bus_interactions(), table, CORE_COLUMNS)
}
