//! Operations as flat words: timestamp, address, 25 input lanes, 25 output lanes, and a segment number, which the published Rust has not.

use crate::tables::keccak::KeccakOperation;
use crate::tables::keccak_rnd::KeccakRoundOperation;

/// The words of one operation.
pub const OPERATION_WORDS: usize = 53;

/// The operations of a flat list, as the core table takes them.
pub(crate) fn core_operations(operations: &[u64]) -> Vec<KeccakOperation> {
    let length = operations.len();
    assert!(
        length.is_multiple_of(OPERATION_WORDS),
        "{length} words are no whole operations"
    );
    let unpack = |words: &[u64]| KeccakOperation {
        timestamp: words[0],
        state_addr: words[1],
        input: lanes(&words[2..27]),
        output: lanes(&words[27..52]),
    };
    operations.chunks_exact(OPERATION_WORDS).map(unpack).collect()
}

/// The operations of a flat list, as the round table takes them.
pub(crate) fn round_operations(operations: &[u64]) -> Vec<KeccakRoundOperation> {
    let without_address = |operation: KeccakOperation| KeccakRoundOperation {
        timestamp: operation.timestamp,
        input: operation.input,
        output: operation.output,
    };
    core_operations(operations).into_iter().map(without_address).collect()
}

fn lanes(words: &[u64]) -> [u64; 25] {
    words.try_into().expect("a state has 25 lanes")
}
