//! The verdict without memory of its own on core tables whose timestamps do not rise, with no round table beside them; ours in rising order is the other side of
//! each ratio. Each answer is checked in every run: with no round row the first call is unbalanced.
//!
//! `descending` has the timestamps in falling order, so that each is looked for in all rows before it; `repeated` has one row over and
//! over, so that the second row's timestamp is the first one's.

use std::hint::black_box;
use std::time::Duration;

use compare::inputs::Words;
use compare::say;
use keccak_tables::OP_WORDS;
use keccak_tables::keccak::{NUM_COLUMNS, keccak_table};
use keccak_tables::verdict::{Verdict, verdict_alone};

use crate::timing::{best, line, ratio, time, whole};

/// The calls where no number is given.
pub const CALLS: usize = 1000;

pub fn run(calls: usize) {
    let rising = rows_of(calls);
    let falling: Vec<u64> = rising.rchunks(NUM_COLUMNS).flatten().copied().collect();
    let same: Vec<u64> = rising[..NUM_COLUMNS].repeat(calls);
    say!("descending, {calls} core rows, no round rows: time in all, and of a row");

    let runs = (10_000 / calls.max(1)).clamp(1, 5);
    let unbalanced = |answer: &Verdict| matches!(answer, Verdict::Unbalanced { row: 0, .. });
    let repeated = |answer: &Verdict| calls == 1 || matches!(answer, Verdict::Repeated { row: 1 });
    let times = best(
        runs,
        [
            Box::new(|| judged(&rising, unbalanced)),
            Box::new(|| judged(&falling, unbalanced)),
            Box::new(|| judged(&same, repeated)),
        ],
    );
    let names = ["rising", "descending", "repeated"];
    for (name, time) in names.into_iter().zip(times) {
        whole(name, time);
        line(name, time, calls);
    }
    for (name, time) in names.into_iter().zip(times).skip(1) {
        ratio(name, time, times[0]);
    }
}

/// The core rows of drawn calls, timestamps rising, without the padding.
fn rows_of(calls: usize) -> Vec<u64> {
    let mut words = Words::new(7);
    let mut list = Vec::with_capacity(calls * OP_WORDS);
    for call in 1..=calls as u64 {
        list.extend([call << 2, call << 12]);
        list.extend((0..50).map(|_| words.lane()));
        list.push(0);
    }
    let mut core = keccak_table(&list).expect("the list is accepted");
    core.truncate(calls * NUM_COLUMNS);
    core
}

/// The time of a verdict, which has to be as expected.
fn judged(core: &[u64], expected: impl Fn(&Verdict) -> bool) -> Duration {
    time(|| {
        let answer = verdict_alone(black_box(core), black_box(&[])).expect("a verdict");
        assert!(expected(&answer), "{answer}");
    })
}
