//! A table on all cores against the same table by one call, both into memory of their own: `keccak_table` and `keccak_rnd_table` of long
//! lists against `vec![0; words]` and then the call on the whole list. `-cores` is of 16 and 24 megabytes, memory that the allocator hands
//! out again; `-cores-large` of some 200, which was never touched before, so the system's part is in both times. Beside them stands
//! what one core takes to set as many words to a number, which no writer on one core can beat. Rows and padding count as written.

use std::hint::black_box;
use std::thread::available_parallelism;
use std::time::Duration;

use compare::say;
use keccak_tables::{Refusal, keccak, keccak_rnd};

use crate::rows::{Call, allocated, flat, operations};
use crate::timing::{best, ratio, time};

/// Runs of each.
const RUNS: usize = 40;
const LARGE_RUNS: usize = 8;

pub fn run() {
    core_table("core-cores", 4096, RUNS);
    round_table("round-cores", 85, RUNS);
    core_table("core-cores-large", 50_000, LARGE_RUNS);
    round_table("round-cores-large", 682, LARGE_RUNS);
}

fn core_table(name: &str, n: usize, runs: usize) {
    table(name, n, runs, keccak::keccak_table, keccak::generate_keccak_trace);
}

fn round_table(name: &str, n: usize, runs: usize) {
    table(
        name,
        n,
        runs,
        keccak_rnd::keccak_rnd_table,
        keccak_rnd::generate_keccak_rnd_trace,
    );
}

fn table(name: &str, n: usize, runs: usize, on_cores: fn(&[u64]) -> Result<Vec<u64>, Refusal>, call: Call) {
    let ops = flat(&operations(n));
    let words = on_cores(&ops).map_or(0, |table| table.len());
    let cores = available_parallelism().map_or(1, usize::from);
    say!("{name}, {n} operations, {words} words");
    let [on_cores, one_call, filled] = best(
        runs,
        [
            Box::new(|| time(|| on_cores(black_box(&ops)))),
            Box::new(|| time(|| allocated(call, black_box(&ops), words))),
            Box::new(|| time(|| vec![black_box(1u64); black_box(words)])),
        ],
    );
    speed("on all cores", on_cores, words);
    speed("one call", one_call, words);
    speed("setting as many words, one core", filled, words);
    let times = one_call.as_secs_f64() / on_cores.as_secs_f64();
    say!("  speed-up {times:.2} on {cores} cores");
    ratio(name, on_cores, one_call);
}

/// The time of all, and the bytes written a second.
fn speed(what: &str, time: Duration, words: usize) {
    let seconds = time.as_secs_f64();
    let gigabytes = words as f64 * 8e-9;
    say!(
        "  {what:<34} {:>9.1} ms in all, {:.2} GB/s",
        seconds * 1e3,
        gigabytes / seconds
    );
}
