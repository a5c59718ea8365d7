//! What a segment charges, for 256 operations, against plain Rust functions that make the same rows and raise the same counters
//! (`plain_charge.rs`), which check nothing and reduce nothing mod p: `charge` against one that makes each row and then reads its
//! lookups from its columns, as ours is defined, and `charge-lanes` against one that takes them from the lanes while it makes the row, as
//! ours computes them.
//!
//! Both are of the whole call: it looks at every counter for refusal 5, and then charges, mod p. What the look at every counter takes is
//! the time of the same call on an empty list, which adds nothing; `charge-lanes-unscanned` is the call without it. `look` charges a copy, against
//! the plain function on a copy that it makes, whose largest counters it then finds. A look at an empty list is the scan, the copy and the
//! search for the largest and no more: the scan is timed by an empty charge, the copy by one of as many words in Rust, and the search is
//! what is left. All memory is kept, so each run finds it touched.

use std::hint::black_box;

use compare::plain_charge;
use compare::say;
use keccak_tables::bitwise::{NUM_COUNTERS, NUM_LOOKUP_TYPES};
use keccak_tables::segment::{self, LOOK_WORDS};

use crate::rows::{flat, operations};
use crate::timing::{best, ratio, time, whole};

const OPERATIONS: usize = 256;
const RUNS: usize = 60;

pub fn run() {
    let ops = flat(&operations(OPERATIONS));
    charges(&ops);
    looks(&ops);
}

/// The plain charge; each row is looked at, so that it is made.
fn plain(ops: &[u64], counters: &mut [u64]) {
    plain_charge::charge(false, ops, counters, |row| _ = black_box(row));
}

fn charges(ops: &[u64]) {
    let [mut ours, mut theirs, mut other, mut zeros] = [(); 4].map(|()| vec![0; NUM_COUNTERS]);
    say!("charge, {OPERATIONS} operations, {} rows", 25 * OPERATIONS);
    let [charge, columns, lanes, scan] = best(
        RUNS,
        [
            Box::new(|| time(|| segment::charge(black_box(ops), black_box(&mut ours)))),
            Box::new(|| time(|| plain_charge::charge_from_rows(false, black_box(ops), black_box(&mut theirs)))),
            Box::new(|| time(|| plain(black_box(ops), black_box(&mut other)))),
            Box::new(|| time(|| segment::charge(black_box(&[]), black_box(&mut zeros)))),
        ],
    );
    assert!(ours == theirs && ours == other, "the counters");
    whole("ours", charge);
    whole("of it the scan for 5", scan);
    whole("plain Rust, from columns", columns);
    whole("plain Rust, from lanes", lanes);
    ratio("charge", charge, columns);
    ratio("charge-lanes", charge, lanes);
    ratio("charge-lanes-unscanned", charge.saturating_sub(scan), lanes);
}

fn looks(ops: &[u64]) {
    let [before, mut copy, mut other] = [(); 3].map(|()| vec![1; NUM_COUNTERS]);
    let [mut out, mut found] = [[0; LOOK_WORDS]; 2];
    say!("look, {OPERATIONS} operations");
    let [look, rust] = best(
        RUNS,
        [
            Box::new(|| time(|| segment::look(black_box(ops), black_box(&before), &mut copy, &mut out))),
            Box::new(|| time(|| plain_look(black_box(ops), black_box(&before), &mut other, &mut found))),
        ],
    );
    assert!(copy == other, "the copies");
    let largest = |words: [u64; LOOK_WORDS]| words.into_iter().skip(1).step_by(2);
    assert!(largest(out).eq(largest(found)), "the largest counters");
    let mut scanned = before.clone();
    let [empty, scan, copying] = best(
        RUNS,
        [
            Box::new(|| time(|| segment::look(black_box(&[]), black_box(&before), &mut copy, &mut out))),
            Box::new(|| time(|| segment::charge(black_box(&[]), black_box(&mut scanned)))),
            Box::new(|| time(|| black_box(&mut other).copy_from_slice(black_box(&before)))),
        ],
    );
    whole("ours", look);
    whole("of it a look at an empty list", empty);
    whole("  of that the scan for 5", scan);
    whole("  of that the copy, as in Rust", copying);
    whole("  of that the largest, the rest", empty.saturating_sub(scan + copying));
    whole("plain Rust, without a scan", rust);
    ratio("look", look, rust);
}

/// A copy that is charged, and its largest counters.
fn plain_look(ops: &[u64], counters: &[u64], copy: &mut [u64], out: &mut [u64; LOOK_WORDS]) {
    copy.copy_from_slice(counters);
    plain(ops, copy);
    *out = [0; LOOK_WORDS];
    for row in copy.chunks_exact(NUM_LOOKUP_TYPES) {
        for (kind, &counter) in row.iter().enumerate() {
            out[2 * kind + 1] = out[2 * kind + 1].max(counter);
        }
    }
}
