//! Jobs with the report that thought gives them. Where nothing else is said a job has two segments of one call each, of 24 rounds: core rows
//! 0 and 4 are active, and round rows 0 to 23 and 32 to 55.

use keccak_tables::{OP_WORDS, keccak, keccak_rnd};
use oracle::tables::keccak::cols as core_cols;
use oracle::tables::keccak_rnd::cols;

use super::Job;
use crate::by_rounds::ALL;
use crate::dishonest::{Tables, exchange};
use crate::inputs::Words;

const CORE_WIDTH: usize = keccak::NUM_COLUMNS;
const WIDTH: usize = keccak_rnd::NUM_COLUMNS;

/// A job, and the words of its report, a verdict after the other.
type Make = fn(&mut Words) -> (Job, Vec<[u64; 4]>);

const fn holds(active: u64) -> [u64; 4] {
    [0, active, 0, 0]
}

/// Two segments of one call each.
pub fn two(words: &mut Words) -> Job {
    Job::written(ALL, &[1, 1], words)
}

/// Each of them, by name.
pub const NAMED: &[(&str, Make)] = &[
    ("as written", |words| (two(words), vec![holds(1), holds(1), holds(2)])),
    ("no segment", |words| (Job::written(ALL, &[], words), vec![holds(0)])),
    ("one segment", |words| {
        (Job::written(ALL, &[3], words), vec![holds(3), holds(3)])
    }),
    ("segments without calls", |words| {
        (
            Job::written(ALL, &[0, 1, 0], words),
            vec![holds(0), holds(1), holds(0), holds(1)],
        )
    }),
    ("segments without rows", |words| {
        let mut job = two(words);
        job.counts = vec![0, 0, 4, 32, 0, 0, 4, 32, 0, 0];
        (job, vec![holds(0), holds(1), holds(0), holds(1), holds(0), holds(2)])
    }),
    ("a round row filed with the wrong segment", |words| {
        let mut job = two(words);
        // Row 32, the first of the second call, stands with the first.
        job.counts = vec![4, 33, 4, 31];
        (job, vec![[6, 1, 32, 0], [6, 0, 0, 2], holds(2)])
    }),
    ("two rows exchanged between segments", |words| {
        let mut job = two(words);
        exchange(&mut job.round, WIDTH, 5, 37);
        (job, vec![[6, 1, 4, 1], [6, 1, 4, 1], holds(2)])
    }),
    ("all core rows in one segment, all round rows in the other", |words| {
        let mut job = two(words);
        job.counts = vec![8, 0, 0, 64];
        (job, vec![[6, 0, 0, 2], [6, 1, 0, 0], holds(2)])
    }),
    ("round rows of both calls in the order of the other", |words| {
        let mut job = two(words);
        job.round.rotate_left(32 * WIDTH);
        (job, vec![[6, 0, 0, 2], [6, 0, 0, 2], holds(2)])
    }),
    ("padding filed elsewhere", |words| {
        let mut job = two(words);
        job.counts = vec![1, 24, 7, 40];
        (job, vec![holds(1), holds(1), holds(2)])
    }),
    ("one timestamp in two segments", |words| {
        let first = Tables::written(1, words);
        let job = Job::of(ALL, &[first.clone(), first]);
        (job, vec![holds(1), holds(1), [3, 0, 4, 0]])
    }),
    ("two timestamps in three segments, in turn", |words| {
        let list = Tables::list(2, words);
        let both = Tables::by_rounds(ALL, &list);
        let last = Tables::by_rounds(ALL, &list[OP_WORDS..]);
        let first = Tables::by_rounds(ALL, &list[..OP_WORDS]);
        (
            Job::of(ALL, &[both, last, first]),
            vec![holds(2), holds(1), holds(1), [3, 0, 4, 0]],
        )
    }),
    ("a timestamp repeated in a segment", |words| {
        let mut job = Job::written(ALL, &[1, 2], words);
        job.core.copy_within(4 * CORE_WIDTH..4 * CORE_WIDTH + 2, 5 * CORE_WIDTH);
        (job, vec![holds(1), [3, 0, 1, 0], [3, 0, 5, 0]])
    }),
    ("a value of the second segment", |words| {
        let mut job = two(words);
        job.core[5 * CORE_WIDTH + core_cols::MU] = 2;
        (job, vec![holds(1), [1, 0, 1, 51], [1, 0, 5, 51]])
    }),
    ("a lookup of the second segment's round row", |words| {
        let mut job = two(words);
        job.round[(32 + 7) * WIDTH + cols::chi(3, 3, 3)] ^= 1;
        (
            job,
            vec![holds(1), [5, 1, 7, 823 + 120 + 24 + 3], [5, 1, 39, 823 + 120 + 24 + 3]],
        )
    }),
    ("an OUTPUT of the first segment", |words| {
        let mut job = two(words);
        job.core[core_cols::output_state(4, 0, 7)] ^= 1;
        (job, vec![[6, 0, 0, 3], holds(1), [6, 0, 0, 3]])
    }),
    ("a value of the last segment, and a lookup of the first", |words| {
        let mut job = two(words);
        job.core[core_cols::ADDR] = 3;
        job.core[5 * CORE_WIDTH + core_cols::MU] = 2;
        (job, vec![[1, 0, 0, 0], [1, 0, 1, 51], [1, 0, 0, 0]])
    }),
];
