//! Refusals of the call: every condition about its edge, several at once, and every lent word as it was.

use keccak_tables::job::{COUNT_WORDS, VERDICT_WORDS};
use keccak_tables::{P, keccak, keccak_rnd};

use super::{Job, one_call};
use crate::comparison::Comparison;
use crate::inputs::Words;

/// The refusals of the call of this area.
pub fn compare(comparison: &mut Comparison, words: &mut Words) {
    comparison.group("refusals: jobs, every set of conditions");
    for segments in [0, 1, 3] {
        let job = Job::written(2, &vec![1; segments], words);
        for core in [-1, 0, 1] {
            for round in [-1, 0, 1] {
                for counts in COUNTS {
                    for spoilt in [[false; 2], [true, false], [false, true], [true; 2]] {
                        let job = damaged(&job, [core, round], *counts, spoilt, words);
                        every_room(comparison, words, &job);
                    }
                }
            }
        }
    }
}

/// The counts of a job, by what they were.
type Counts = fn(&[u64]) -> Vec<u64>;

/// Lists of counts that split the tables of a job, and others.
const COUNTS: &[Counts] = &[
    |counts| counts.to_vec(),
    |counts| [counts, &[0, 0]].concat(),
    |counts| [counts, &[0]].concat(),
    |counts| [counts, &[1, 0]].concat(),
    |counts| [counts, &[0, 1]].concat(),
    |counts| [counts, &[u64::MAX, 0, 1, 0]].concat(),
    |counts| [counts, &[0, 1 << 63, 0, 1 << 63]].concat(),
    |counts| [counts, &[u64::MAX; 4]].concat(),
    |counts| counts.iter().skip(1).copied().collect(),
    |counts| counts.iter().skip(2).copied().collect(),
];

/// The job with tables that are a word longer or shorter, where they have one, other counts, and a word of either table that is no element.
fn damaged(job: &Job, off: [isize; 2], counts: Counts, spoilt: [bool; 2], words: &mut Words) -> Job {
    let mut job = job.clone();
    job.nr = if words.below(3) == 0 { words.any_rounds() } else { 2 };
    job.counts = counts(&job.counts);
    for ((table, off), spoilt) in [&mut job.core, &mut job.round].into_iter().zip(off).zip(spoilt) {
        table.resize(table.len().saturating_add_signed(off), 0);
        if spoilt && !table.is_empty() {
            let place = words.below(table.len() as u64) as usize;
            table[place] = [P, P + 1, u64::MAX][words.below(3) as usize];
        }
    }
    job
}

/// No word for the report, one short, enough and one more.
fn every_room(comparison: &mut Comparison, words: &mut Words, job: &Job) {
    let needed = (job.counts.len() / COUNT_WORDS + 1) * VERDICT_WORDS;
    for room in [0, needed - 1, needed, needed + 1] {
        let input = || {
            let rows = [
                job.core.len() / keccak::NUM_COLUMNS,
                job.round.len() / keccak_rnd::NUM_COLUMNS,
            ];
            format!(
                "a job of {rows:?} rows and some words,{}, {room} words for its report",
                job.what()
            )
        };
        // What it answers is compared; the report itself is of no interest here.
        _ = one_call(comparison, words, &input, job, room);
    }
}
