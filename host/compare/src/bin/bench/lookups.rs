//! The calls on the tables that are looked up, and those that give a number, each against the published Rust's.
//!
//! Timed is one call after the other over drawn inputs, the same on both sides, made before. The Rust's are small functions that
//! their caller inlines, without checks; ours are calls of the archive, with theirs. Both sides count the same lookups in
//! an array of 80 MiB that they keep, so the best run finds it touched. Tuples are by index on our side, and on the Rust's as in `tuples.rs`.

use compare::say;
use std::hint::black_box;

use compare::inputs::Words;
use compare::tuple_list::TupleCall;
use keccak_tables::is_wh::IsWhKey;
use keccak_tables::{Operation, bitwise, is_wh, keccak, keccak_rc, keccak_rnd};
use oracle::tables;
use oracle::tables::types::FE;
use oracle::{BusInteraction, Counters, Lookup};

use crate::rows::{core_operations, flat};
use crate::timing::both;
use crate::tuples::evaluate_all;

/// Inputs of a run.
const INPUTS: usize = 10_000;
/// How often a run goes through the tuples of a row.
const TIMES: usize = 1000;
const RUNS: usize = 100;

pub fn run() {
    let mut words = Words::new(7);
    let lookups: Vec<Lookup> = (0..INPUTS).map(|_| drawn(&mut words)).collect();
    numbers(&words.take(INPUTS), &lookups);
    counters(&lookups);
    keys(&(0..INPUTS / 25).map(|_| words.operation()).collect::<Vec<_>>());
    let row = |columns| (0..columns).map(|_| words.element()).collect::<Vec<u64>>();
    let [bitwise_row, constant_row, key_row] =
        [bitwise::NUM_COLUMNS, keccak_rc::NUM_COLUMNS, is_wh::NUM_COLUMNS].map(row);
    let list = tables::bitwise::bus_interactions();
    tuples("bitwise-tuples", &bitwise_row, bitwise::bus_interaction, &list);
    let list = tables::keccak_rc::bus_interactions();
    tuples("constant-tuples", &constant_row, keccak_rc::bus_interaction, &list);
    let list = tables::is_wh::bus_interactions();
    tuples("key-tuples", &key_row, is_wh::bus_interaction, &list);
}

fn drawn(words: &mut Words) -> Lookup {
    Lookup {
        kind: words.below(10) as usize,
        x: words.word() as u8,
        y: words.word() as u8,
        z: words.below(16) as u8,
    }
}

/// Both times of `items` calls, keys or tuples, and their ratio.
fn calls(name: &str, items: usize, ours: impl FnMut(), rust: impl FnMut()) {
    say!("{name}: time of one");
    both(name, RUNS, items, ("ours", ours), ("the Rust", rust));
}

/// The calls that take numbers and give one, or a small row.
fn numbers(words: &[u64], lookups: &[Lookup]) {
    let each = |call: &dyn Fn(u64)| words.iter().for_each(|&word| call(black_box(word)));
    let index = |call: &dyn Fn(&Lookup)| lookups.iter().for_each(|lookup| call(black_box(lookup)));
    calls(
        "index",
        INPUTS,
        || index(&|at| _ = black_box(bitwise::row_index(at.x, at.y, at.z).expect("an index"))),
        || index(&|at| _ = black_box(tables::bitwise::row_index(at.x, at.y, at.z))),
    );
    calls(
        "key",
        INPUTS,
        || each(&|word| _ = black_box(IsWhKey::of_dword(word))),
        || each(&|word| _ = black_box(tables::is_wh::IsWhKey::of_dword(word))),
    );
    let operations = |word: u64| (word >> 40) as usize;
    calls(
        "padding",
        INPUTS,
        || each(&|word| _ = black_box(keccak_rnd::padding_are_bytes(operations(word)).expect("a number"))),
        || each(&|word| _ = black_box(tables::keccak_rnd::padding_are_bytes(operations(word)))),
    );
    let round = |word: u64| (word >> 59) as usize;
    let lent = |word: u64| {
        let mut row = [0; keccak_rc::NUM_PRECOMPUTED_COLS];
        keccak_rc::generate_row(round(word), &mut row).expect("a row");
        black_box(&row);
    };
    calls(
        "constant-row",
        INPUTS,
        || each(&lent),
        || each(&|word| _ = black_box(tables::keccak_rc::generate_row(round(word)))),
    );
}

fn counters(lookups: &[Lookup]) {
    let mut ours = vec![0; bitwise::NUM_COUNTERS];
    let mut rust = Counters::new();
    let count = || {
        for at in black_box(lookups) {
            bitwise::bump_numbered(&mut ours, at.kind, at.x, at.y, at.z).expect("a lookup");
        }
    };
    let rust = || black_box(lookups).iter().for_each(|&at| rust.bump(at));
    calls("bump", INPUTS, count, rust);
}

/// The keys of a list; the Rust's iterator is written to a slice that is lent, as ours.
fn keys(operations: &[Operation]) {
    let (ops, theirs) = (&flat(operations), core_operations(operations));
    let mut lent = vec![1; theirs.len() * keccak::KEY_WORDS];
    let mut taken = lent.clone();
    let ours = || keccak::is_wh_keys(black_box(ops), black_box(&mut lent)).expect("keys");
    let rust = || {
        let keys = tables::keccak::is_wh_keys(black_box(&theirs));
        for (place, key) in taken.chunks_exact_mut(2).zip(keys) {
            place.copy_from_slice(&[key.word.into(), key.half.into()]);
        }
        black_box(&taken);
    };
    calls("keys", operations.len() * 25, ours, rust);
    assert_eq!(lent, taken, "the keys");
}

/// All tuples of a row, one by one.
fn tuples(name: &str, row: &[u64], call: impl TupleCall, interactions: &[BusInteraction]) {
    let elements: Vec<FE> = row.iter().copied().map(FE::from).collect();
    let ours = || {
        let mut out = [0; 16];
        for _ in 0..TIMES {
            for index in 0..interactions.len() {
                black_box(call(black_box(row), index, &mut out)).expect("a tuple");
                black_box(&out);
            }
        }
    };
    let rust = || {
        let mut out = [FE::zero(); 16];
        for _ in 0..TIMES {
            evaluate_all(interactions, &elements, &mut out);
        }
    };
    calls(name, TIMES * interactions.len(), ours, rust);
}
