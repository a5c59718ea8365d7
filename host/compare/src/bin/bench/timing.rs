//! Times, and how they are told.

use compare::say;
use std::hint::black_box;
use std::sync::Mutex;
use std::time::{Duration, Instant};

/// The ratios so far, in the order of the runs.
static RATIOS: Mutex<Vec<(String, f64)>> = Mutex::new(Vec::new());

/// Our time over theirs.
pub fn ratio(name: &str, ours: Duration, theirs: Duration) {
    let ratio = ours.as_secs_f64() / theirs.as_secs_f64();
    say!("ratio {name} {ratio:.2}");
    RATIOS.lock().expect("one thread").push((name.to_string(), ratio));
}

/// A table of every ratio of this run.
pub fn table() {
    say!("\n| name | ratio |\n|---|---|");
    for (name, ratio) in RATIOS.lock().expect("one thread").iter() {
        say!("| {name} | {ratio:.2} |");
    }
}

/// The time of one of `items` items.
pub fn line(what: &str, time: Duration, items: usize) {
    say!("  {what:<34} {:>9.1} ns each", time.as_secs_f64() * 1e9 / items as f64);
}

/// The time of all.
pub fn whole(what: &str, time: Duration) {
    say!("  {what:<34} {:>9.1} ms in all", time.as_secs_f64() * 1e3);
}

/// The time of a call; what it answers is dropped afterwards.
pub fn time<T>(call: impl FnOnce() -> T) -> Duration {
    let start = Instant::now();
    let answer = black_box(call());
    let time = start.elapsed();
    drop(answer);
    time
}

/// Ours and theirs on `items` items, each with its name: both times and their ratio.
pub fn both<A, B>(
    name: &str,
    runs: usize,
    items: usize,
    (our_name, mut ours): (&str, impl FnMut() -> A),
    (their_name, mut theirs): (&str, impl FnMut() -> B),
) {
    let [ours, theirs] = best(runs, [Box::new(|| time(&mut ours)), Box::new(|| time(&mut theirs))]);
    line(our_name, ours, items);
    line(their_name, theirs, items);
    ratio(name, ours, theirs);
}

/// The best of some runs of each call, one after the other in turn.
pub fn best<const N: usize>(runs: usize, mut calls: [Box<dyn FnMut() -> Duration + '_>; N]) -> [Duration; N] {
    let mut best = [Duration::MAX; N];
    for _ in 0..runs {
        for (call, best) in calls.iter_mut().zip(&mut best) {
            *best = call().min(*best);
        }
    }
    best
}
