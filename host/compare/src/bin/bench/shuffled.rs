//! The verdict without memory of its own on tables that leave the writer's order; beside it that on the same tables in that order. Both are ours:
//! a ratio is the time of the one over that of the other. Each answer is checked in every run.
//!
//! `shuffled-calls` has the 24 round rows of each call together, the calls in a drawn order; `shuffled` has all round rows,
//! padding among them, in a drawn order; `shuffled-dropped` is the same with one active row cleared, so that it fails.

use compare::say;
use std::hint::black_box;
use std::time::Duration;

use compare::dishonest::{Tables, shuffle};
use compare::inputs::Words;
use keccak_tables::verdict::{Verdict, verdict_alone};
use keccak_tables::{keccak, keccak_rnd};

use crate::timing::{best, line, ratio, time, whole};

/// The calls where no number is given.
pub const CALLS: usize = 100;

pub fn run(calls: usize) {
    let mut words = Words::new(7);
    let ordered = Tables::written(calls, &mut words);
    let [by_calls, by_rows, dropped] = &shuffled(&ordered, calls, &mut words);
    let rows = ordered.core.len() / keccak::NUM_COLUMNS + ordered.round.len() / keccak_rnd::NUM_COLUMNS;
    say!("shuffled, {calls} calls, {rows} rows: time in all, and of a row");

    // Many calls take long enough for one run to tell.
    let runs = (1000 / calls.max(1)).clamp(1, 5);
    let holds = |tables: &Tables| judged(tables, |answer| *answer == Verdict::Holds { active: calls as u64 });
    let fails = |tables: &Tables| judged(tables, |answer| matches!(answer, Verdict::Unbalanced { .. }));
    let times = best(
        runs,
        [
            Box::new(|| holds(&ordered)),
            Box::new(|| holds(by_calls)),
            Box::new(|| holds(by_rows)),
            Box::new(|| fails(dropped)),
        ],
    );
    let names = [
        "in the writer's order",
        "shuffled-calls",
        "shuffled",
        "shuffled-dropped",
    ];
    for (name, time) in names.into_iter().zip(times) {
        whole(name, time);
        line(name, time, rows);
    }
    for (name, time) in names.into_iter().zip(times).skip(1) {
        ratio(name, time, times[0]);
    }
}

/// The three tables that leave the order.
fn shuffled(ordered: &Tables, calls: usize, words: &mut Words) -> [Tables; 3] {
    let call = keccak_rnd::ROUNDS * keccak_rnd::NUM_COLUMNS;
    let mut by_calls = ordered.clone();
    shuffle(&mut by_calls.round[..calls * call], call, words);
    let mut by_rows = ordered.clone();
    shuffle(&mut by_rows.round, keccak_rnd::NUM_COLUMNS, words);
    let mut dropped = by_rows.clone();
    clear_an_active_row(&mut dropped.round, words);
    [by_calls, by_rows, dropped]
}

/// Clears one of the active rows, drawn.
fn clear_an_active_row(round: &mut [u64], words: &mut Words) {
    let mut active: Vec<&mut [u64]> = round
        .chunks_exact_mut(keccak_rnd::NUM_COLUMNS)
        .filter(|row| row[keccak_rnd::NUM_COLUMNS - 1] == 1)
        .collect();
    let drawn = words.below(active.len() as u64) as usize;
    active[drawn].fill(0);
}

/// The time of a verdict, which has to be as expected.
fn judged(tables: &Tables, expected: impl Fn(&Verdict) -> bool) -> Duration {
    time(|| {
        let answer = verdict_alone(black_box(&tables.core), black_box(&tables.round)).expect("a verdict");
        assert!(expected(&answer), "{answer}");
    })
}
