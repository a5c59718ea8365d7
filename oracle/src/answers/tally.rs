//! The counts of `tally`, from the published tables and interactions.

use crate::operation::OPERATION_WORDS;
use crate::tuple::{Bus, BusSums};
use crate::{CORE_COLUMNS, ROUND_COLUMNS, core_sums, core_table, round_sums, round_table};

/// The ten counts that `tally` prints for a flat list of operations, with their names: the number of operations, the
/// heights of the two tables, then the sums of multiplicities that both tables send, for Ecall receive.
///
/// The sums of an empty list are 0, as `padding_are_bytes` has it: its tables are not shipped.
pub fn tally(operations: &[u64]) -> [(&'static str, u128); 10] {
    let [core, round] = [core_table(operations), round_table(operations)];
    let sums = if operations.is_empty() {
        [BusSums::default(); 2]
    } else {
        [core_sums(&core), round_sums(&round)]
    };
    counts(operations, [&core, &round], sums)
}

/// The same over the rows as they are written, of an empty list too: its tables are shipped.
pub fn shipped_tally(operations: &[u64]) -> [(&'static str, u128); 10] {
    let [core, round] = [core_table(operations), round_table(operations)];
    let sums = [core_sums(&core), round_sums(&round)];
    counts(operations, [&core, &round], sums)
}

fn counts(operations: &[u64], [core, round]: [&[u64]; 2], sums: [BusSums; 2]) -> [(&'static str, u128); 10] {
    let sent = |bus| sums.iter().map(|table| table.sent(bus)).sum();
    [
        ("ops", (operations.len() / OPERATION_WORDS) as u128),
        ("core-rows", (core.len() / CORE_COLUMNS) as u128),
        ("round-rows", (round.len() / ROUND_COLUMNS) as u128),
        ("ByteAlu", sent(Bus::ByteAlu)),
        ("AreBytes", sent(Bus::AreBytes)),
        ("KeccakRc", sent(Bus::KeccakRc)),
        ("IsHalfword", sent(Bus::IsHalfword)),
        ("IsWh", sent(Bus::IsWh)),
        ("Memw", sent(Bus::Memw)),
        ("Ecall", sums.iter().map(|table| table.received(Bus::Ecall)).sum()),
    ]
}
