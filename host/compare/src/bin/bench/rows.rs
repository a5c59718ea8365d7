//! The proved writers of rows and tables against the published Rust's.
//!
//! The published table writers allocate the table that they return, zeroed, and so `ratio core` and `ratio round` time
//! ours with an allocation of its own too: `vec![0; words]`, then the call. `ratio core-lent` and `ratio round-lent` time
//! our call alone, into memory that the caller keeps, against the same call of theirs. What it takes to allocate the zeros
//! alone is printed beside them. Dropping a table is not timed. The Rust's operations are unpacked before, ours are a flat
//! list. The tables are of a megabyte or three, so that the caches hold them; `-large` is the same with 16 and 24
//! megabytes, where memory has its part in the time. All are small enough (below 32 MB) for the allocator to hand out the
//! same memory again and again, so no run pays for memory that was never touched.

use compare::say;
use std::hint::black_box;

use compare::inputs::Words;
use keccak_tables::{Operation, Refusal, bitwise, keccak, keccak_rc, keccak_rnd};
use oracle::tables;

use crate::timing::{best, both, line, ratio, time};

/// Runs of each, of a table that the caches hold and of a large one.
const RUNS: usize = 400;
const LARGE_RUNS: usize = 40;

pub fn run() {
    core_rows("core", 256, RUNS);
    round_rows("round", 10, RUNS);
    core_rows("core-large", 4096, LARGE_RUNS);
    round_rows("round-large", 85, LARGE_RUNS);
    bitwise_rows();
    constant_table();
}

pub fn operations(n: usize) -> Vec<Operation> {
    let mut words = Words::new(7);
    (0..n).map(|_| words.operation()).collect()
}

pub fn flat(operations: &[Operation]) -> Vec<u64> {
    operations.iter().flat_map(Operation::words).collect()
}

/// The operations as the Rust's core table takes them.
pub fn core_operations(operations: &[Operation]) -> Vec<tables::keccak::KeccakOperation> {
    let theirs = |operation: &Operation| tables::keccak::KeccakOperation {
        timestamp: operation.timestamp,
        state_addr: operation.address,
        input: operation.input,
        output: operation.output,
    };
    operations.iter().map(theirs).collect()
}

/// The operations as the Rust's round table takes them.
fn round_operations(operations: &[Operation]) -> Vec<tables::keccak_rnd::KeccakRoundOperation> {
    let theirs = |operation: &Operation| tables::keccak_rnd::KeccakRoundOperation {
        timestamp: operation.timestamp,
        input: operation.input,
        output: operation.output,
    };
    operations.iter().map(theirs).collect()
}

fn core_rows(name: &str, n: usize, runs: usize) {
    let operations = operations(n);
    let theirs = core_operations(&operations);
    let rust = || tables::keccak::generate_keccak_trace(black_box(&theirs));
    let size = (n.next_power_of_two(), keccak::NUM_COLUMNS);
    table(name, &operations, size, runs, keccak::generate_keccak_trace, rust);
}

fn round_rows(name: &str, n: usize, runs: usize) {
    let operations = operations(n);
    let theirs = round_operations(&operations);
    let rust = || tables::keccak_rnd::generate_keccak_rnd_trace(black_box(&theirs));
    let size = ((24 * n).next_power_of_two(), keccak_rnd::NUM_COLUMNS);
    table(
        name,
        &operations,
        size,
        runs,
        keccak_rnd::generate_keccak_rnd_trace,
        rust,
    );
}

/// A call that writes the table of a list into memory that is lent.
pub type Call = fn(&[u64], &mut [u64]) -> Result<(), Refusal>;

/// One call, into memory of its own.
pub fn allocated(call: Call, ops: &[u64], words: usize) -> Result<Vec<u64>, Refusal> {
    let mut table = vec![0; words];
    call(ops, &mut table).map(|()| table)
}

/// A table writer's four times, and its two ratios.
fn table<T>(
    name: &str,
    operations: &[Operation],
    (rows, columns): (usize, usize),
    runs: usize,
    call: Call,
    rust: impl Fn() -> T,
) {
    let ops = flat(operations);
    let words = rows * columns;
    let mut kept = vec![1; words];
    say!("{name}, {} operations, {rows} rows: time of a row", operations.len());
    let [allocating, lent, rust, zeros] = best(
        runs,
        [
            Box::new(|| time(|| allocated(call, black_box(&ops), words))),
            Box::new(|| time(|| call(black_box(&ops), black_box(&mut kept)))),
            Box::new(|| time(&rust)),
            Box::new(|| time(|| vec![0u64; black_box(words)])),
        ],
    );
    line("ours, with an allocation", allocating, rows);
    line("ours, into lent memory", lent, rows);
    line("the Rust, which allocates", rust, rows);
    line("allocating zeros alone", zeros, rows);
    ratio(name, allocating, rust);
    ratio(&format!("{name}-lent"), lent, rust);
}

/// All 2^20 bitwise rows, one call each: ours into a lent row of 11 words, theirs a returned array.
fn bitwise_rows() {
    say!("bitwise rows, all 2^20: time of a row");
    let ours = || {
        let mut row = [0; bitwise::NUM_PRECOMPUTED_COLS];
        for index in 0..bitwise::NUM_ROWS {
            let _ = black_box(bitwise::generate_bitwise_row(black_box(index), &mut row));
            black_box(&row);
        }
    };
    let rust = || {
        for index in 0..bitwise::NUM_ROWS {
            black_box(tables::bitwise::generate_bitwise_row(black_box(index)));
        }
    };
    let (ours, rust) = (("ours, into a lent row", ours), ("the Rust, a returned array", rust));
    both("bitwise", LARGE_RUNS, bitwise::NUM_ROWS, ours, rust);
}

/// The constant table with its multiplicities, a thousand times; both allocate it.
fn constant_table() {
    const TIMES: usize = 1000;
    say!("the constant table: time of a table");
    let ours = || {
        for n in 0..TIMES as u64 {
            let mut table = vec![0; keccak_rc::TABLE_WORDS];
            let _ = keccak_rc::generate_keccak_rc_trace(&mut table);
            let _ = keccak_rc::update_multiplicities(&mut table, black_box(n));
            black_box(table);
        }
    };
    let rust = || {
        for n in 0..TIMES {
            let mut trace = tables::keccak_rc::generate_keccak_rc_trace();
            tables::keccak_rc::update_multiplicities(&mut trace, black_box(n));
            black_box(trace);
        }
    };
    both("constants", LARGE_RUNS, TIMES, ("ours", ours), ("the Rust", rust));
}
