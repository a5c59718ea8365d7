//! The two tables that are looked up, whole, against the published Rust's.
//!
//! `bitwise-table` writes the table of 2^20 rows, 176 megabytes: as in `rows.rs` with an allocation of ours too, and `-lent` into memory
//! that is kept; so large a table is of memory that the system hands out anew, and that is in the Rust's time and in ours. `fill` puts
//! counters into the multiplicities of a table that is kept, none of them being 0; in `fill-few` 26 of 27 are 0, where the Rust writes
//! nothing and ours the zeros. `merge` adds counters to counters, ours mod p and with the checks. `dedup` makes the rows of the keys of
//! 2,730 operations at drawn addresses, `dedup-in-order` of as many whose addresses rise; ours into memory that is kept, from words, the
//! Rust's into a vector of its own, from keys. `is-wh-table` and `is-wh-lookups` are of the rows of `dedup`; of the latter ours looks at
//! each counter that is charged before it charges any.

use compare::say;
use std::hint::black_box;

use compare::inputs::Words;
use keccak_tables::bitwise::{NUM_COUNTERS, TABLE_WORDS};
use keccak_tables::is_wh::{self, IsWhRows};
use keccak_tables::{Operation, bitwise, keccak};
use oracle::tables::is_wh::{IsWhKey, dedup_is_wh_rows, generate_is_wh_trace};
use oracle::{BitwiseTable, Counters, Lookup};

use crate::rows::{flat, operations};
use crate::timing::{best, both, line, ratio, time};

/// Runs of a call on the long slices, and on keys.
const RUNS: usize = 10;
const KEY_RUNS: usize = 60;
/// The operations whose keys are sorted: 65,536 round rows.
const OPERATIONS: usize = 2730;

pub fn run() {
    table();
    fill("fill", |_| true);
    fill("fill-few", |place| place.is_multiple_of(27));
    merge();
    keys("dedup", &operations(OPERATIONS));
    let rising = |(i, operation): (usize, Operation)| Operation {
        address: 0x1_0000_0000 + 200 * i as u64,
        ..operation
    };
    let rising: Vec<Operation> = operations(OPERATIONS).into_iter().enumerate().map(rising).collect();
    keys("dedup-in-order", &rising);
}

fn table() {
    let mut kept = vec![1; TABLE_WORDS];
    say!("the bitwise table, 2^20 rows: time of a row");
    let [allocating, lent, rust, zeros] = best(
        RUNS,
        [
            Box::new(|| {
                time(|| {
                    let mut table = vec![0; TABLE_WORDS];
                    bitwise::generate_bitwise_trace(&mut table).map(|()| table)
                })
            }),
            Box::new(|| time(|| bitwise::generate_bitwise_trace(black_box(&mut kept)))),
            Box::new(|| time(BitwiseTable::generate)),
            Box::new(|| time(|| vec![black_box(1u64); black_box(TABLE_WORDS)])),
        ],
    );
    line("ours, with an allocation", allocating, bitwise::NUM_ROWS);
    line("ours, into lent memory", lent, bitwise::NUM_ROWS);
    line("the Rust, which allocates", rust, bitwise::NUM_ROWS);
    line("allocating and setting as many", zeros, bitwise::NUM_ROWS);
    ratio("bitwise-table", allocating, rust);
    ratio("bitwise-table-lent", lent, rust);
}

/// The Rust's counters and ours, alike: a drawn number where `counted` says so of the place.
fn counters(words: &mut Words, counted: fn(usize) -> bool) -> (Vec<u64>, Counters) {
    let mut ours = vec![0; NUM_COUNTERS];
    let mut theirs = Counters::new();
    for (place, count) in ours.iter_mut().enumerate().filter(|(place, _)| counted(*place)) {
        *count = 1 + words.below(1 << 20);
        let row = place / 10;
        let lookup = Lookup {
            kind: place % 10,
            x: row as u8,
            y: (row >> 8) as u8,
            z: (row >> 16) as u8,
        };
        theirs.bump_n(lookup, *count);
    }
    (ours, theirs)
}

fn fill(name: &str, counted: fn(usize) -> bool) {
    let (ours, theirs) = counters(&mut Words::new(7), counted);
    let mut table = vec![0; TABLE_WORDS];
    bitwise::generate_bitwise_trace(&mut table).expect("a table");
    let mut trace = BitwiseTable::generate();
    say!("{name}: time of a row");
    both(
        name,
        RUNS,
        bitwise::NUM_ROWS,
        ("ours", || {
            bitwise::fill_multiplicities(black_box(&ours), black_box(&mut table))
        }),
        ("the Rust", || theirs.fill_multiplicities(black_box(&mut trace))),
    );
    assert!(table == trace.words(), "the tables");
}

fn merge() {
    let mut words = Words::new(7);
    let ((mut ours, mut theirs), (our_other, their_other)) =
        (counters(&mut words, |_| true), counters(&mut words, |_| true));
    say!("merge: time of a counter");
    both(
        "merge",
        RUNS,
        NUM_COUNTERS,
        ("ours", || bitwise::merge(black_box(&mut ours), black_box(&our_other))),
        ("the Rust", || theirs.merge(black_box(&their_other))),
    );
    assert!(ours == theirs.words(), "the counters");
}

fn keys(name: &str, operations: &[Operation]) {
    let mut keys = vec![0; operations.len() * keccak::KEY_WORDS];
    keccak::is_wh_keys(&flat(operations), &mut keys).expect("keys");
    let theirs: Vec<IsWhKey> = operations
        .iter()
        .flat_map(|operation| (0..25).map(|lane| IsWhKey::of_dword(operation.address + 8 * lane)))
        .collect();
    let n = theirs.len();
    let [mut codes, mut spare, mut rows] = [n, n, is_wh::ROW_WORDS * n].map(|length| vec![0; length]);
    say!("{name}, {} operations: time of a key", operations.len());
    both(
        name,
        KEY_RUNS,
        n,
        ("ours", || {
            is_wh::dedup_is_wh_rows(black_box(&keys), &mut codes, &mut spare, &mut rows)
        }),
        ("the Rust", || dedup_is_wh_rows(black_box(&theirs).iter().copied())),
    );
    let ours = IsWhRows::of_keys(&keys).expect("rows");
    let theirs = dedup_is_wh_rows(theirs);
    let words = theirs
        .iter()
        .flat_map(|(key, mu)| [key.word.into(), key.half.into(), *mu]);
    assert!(words.eq(ours.words().iter().copied()), "the rows");
    if name == "dedup" {
        of_rows(&ours, &theirs);
    }
}

/// The table of rows, and what it looks up.
fn of_rows(ours: &IsWhRows, theirs: &[(IsWhKey, u64)]) {
    say!("is-wh-table, {} rows: time of a row", theirs.len());
    both(
        "is-wh-table",
        KEY_RUNS,
        theirs.len(),
        ("ours, with an allocation", || ours.table()),
        ("the Rust", || generate_is_wh_trace(black_box(theirs))),
    );
    let mut counters = vec![0; NUM_COUNTERS];
    let mut counts = Counters::new();
    say!("is-wh-lookups, {} rows: time of a row", theirs.len());
    both(
        "is-wh-lookups",
        KEY_RUNS,
        theirs.len(),
        ("ours, which first looks at what it charges", || {
            ours.charge(black_box(&mut counters))
        }),
        ("the Rust", || counts.collect_is_wh_rows(black_box(theirs))),
    );
    assert!(counters == counts.words(), "the counters");
}
