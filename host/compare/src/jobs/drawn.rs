//! Drawn jobs, and what is done to them.

use keccak_tables::{OP_WORDS, keccak, keccak_rnd};

use crate::dishonest::{Tables, exchange, shuffle};
use crate::inputs::Words;
use crate::verdicts::changed;

const CORE_WIDTH: usize = keccak::NUM_COLUMNS;
const WIDTH: usize = keccak_rnd::NUM_COLUMNS;

/// A job: the number of rounds, the two tables and each segment's two row counts.
#[derive(Clone)]
pub struct Job {
    /// The rounds.
    pub nr: u64,
    /// The core table.
    pub core: Vec<u64>,
    /// The round table.
    pub round: Vec<u64>,
    /// The counts.
    pub counts: Vec<u64>,
}

impl Job {
    /// The job of segments of so many calls each, timestamps rising, as they are written.
    pub fn written(nr: u64, calls: &[usize], words: &mut Words) -> Self {
        let list = Tables::list(calls.iter().sum(), words);
        let mut left = &list[..];
        let segments = calls.iter().map(|&calls| {
            let (ops, rest) = left.split_at(calls * OP_WORDS);
            left = rest;
            Tables::by_rounds(nr, ops)
        });
        Self::of(nr, &segments.collect::<Vec<_>>())
    }

    /// The job of these segments.
    pub fn of(nr: u64, segments: &[Tables]) -> Self {
        let rows = |segment: &Tables| [segment.core.len() / CORE_WIDTH, segment.round.len() / WIDTH];
        Self {
            nr,
            core: segments.iter().flat_map(|segment| &segment.core).copied().collect(),
            round: segments.iter().flat_map(|segment| &segment.round).copied().collect(),
            counts: segments.iter().flat_map(rows).map(|rows| rows as u64).collect(),
        }
    }

    /// A job of so many segments of 0 to 3 calls; some have no padding rows, and some have no rows at all.
    pub fn drawn(words: &mut Words, segments: usize) -> Self {
        let nr = if words.below(3) == 0 { 24 } else { words.rounds() };
        let list = Tables::list(3 * segments, words);
        let segments = list.chunks_exact(3 * OP_WORDS).map(|ops| {
            let calls = words.below(4) as usize;
            let mut tables = Tables::by_rounds(nr, &ops[..calls * OP_WORDS]);
            match words.below(4) {
                0 => tables.core.truncate(calls * CORE_WIDTH),
                1 => tables.round.truncate(calls * nr as usize * WIDTH),
                2 => {
                    tables.core.truncate(calls * CORE_WIDTH);
                    tables.round.truncate(calls * nr as usize * WIDTH);
                }
                _ => {}
            }
            tables
        });
        Self::of(nr, &segments.collect::<Vec<_>>())
    }

    /// What it is, in words.
    pub fn what(&self) -> String {
        format!(" {} rounds, counts {:?}", self.nr, self.counts)
    }

    /// The rows of both tables.
    fn rows(&self) -> [usize; 2] {
        [self.core.len() / CORE_WIDTH, self.round.len() / WIDTH]
    }

    /// How many segments there are.
    fn segments(&self) -> usize {
        self.counts.len() / 2
    }
}

/// A change of a job, which says what it did.
type Change = fn(&mut Job, &mut Words) -> String;

/// Every kind of change.
pub const CHANGES: [Change; 7] = [
    refiled,
    row_moved,
    stamp_shared,
    call_shared,
    shuffled,
    word_changed,
    miscounted,
];

/// Rows at the border of two segments are filed with the other one, the tables as they were: one to four times.
fn refiled(job: &mut Job, words: &mut Words) -> String {
    let mut what = String::new();
    for _ in 0..=words.below(4) {
        if job.segments() < 2 {
            break;
        }
        let (from, k) = (words.below(job.segments() as u64) as usize, words.below(2) as usize);
        let to = (from + 1) % job.segments();
        let rows = words.below(4).min(job.counts[2 * from + k]);
        job.counts[2 * from + k] -= rows;
        job.counts[2 * to + k] += rows;
        what += &format!(" {rows} rows from segment {from} to {to};");
    }
    what
}

/// Two rows of a table change places, most often from one segment to another.
fn row_moved(job: &mut Job, words: &mut Words) -> String {
    let [core, round] = job.rows();
    let (name, table, width, rows) = if words.below(3) == 0 {
        ("core", &mut job.core, CORE_WIDTH, core)
    } else {
        ("round", &mut job.round, WIDTH, round)
    };
    if rows == 0 {
        return String::new();
    }
    let [a, b] = [(); 2].map(|()| words.below(rows as u64) as usize);
    exchange(table, width, a, b);
    format!(" {name} rows {a} and {b} exchanged;")
}

/// A core row gets another one's timestamp, active or not.
fn stamp_shared(job: &mut Job, words: &mut Words) -> String {
    let rows = job.rows()[0] as u64;
    if rows == 0 {
        return String::new();
    }
    let [a, b] = [(); 2].map(|()| words.below(rows) as usize);
    job.core.copy_within(a * CORE_WIDTH..a * CORE_WIDTH + 2, b * CORE_WIDTH);
    format!(" core row {b} with the timestamp of row {a};")
}

/// The last segment a second time, behind the others: it holds where it held, and shares its timestamps.
fn call_shared(job: &mut Job, _: &mut Words) -> String {
    let [.., core, round] = job.counts[..] else {
        return String::new();
    };
    job.core
        .extend_from_within(job.core.len() - core as usize * CORE_WIDTH..);
    job.round.extend_from_within(job.round.len() - round as usize * WIDTH..);
    job.counts.extend([core, round]);
    " the last segment twice;".into()
}

/// All round rows in a drawn order, or all core rows.
fn shuffled(job: &mut Job, words: &mut Words) -> String {
    if words.below(3) == 0 {
        shuffle(&mut job.core, CORE_WIDTH, words);
        " core rows shuffled;".into()
    } else {
        shuffle(&mut job.round, WIDTH, words);
        " round rows shuffled;".into()
    }
}

/// A word of a table.
fn word_changed(job: &mut Job, words: &mut Words) -> String {
    let [core, round] = [&mut job.core, &mut job.round].map(std::mem::take);
    let mut tables = Tables { core, round };
    let what = changed(&mut tables, words);
    (job.core, job.round) = (tables.core, tables.round);
    what
}

/// Counts that are no pairs, do not add up, or do so mod 2^64 only; or add up all the same.
fn miscounted(job: &mut Job, words: &mut Words) -> String {
    let segments = job.segments() as u64;
    let place = |words: &mut Words| (2 * words.below(segments.max(1)) + words.below(2)) as usize;
    if segments == 0 {
        job.counts.push(words.below(2));
        return " a count too many;".into();
    }
    match words.below(8) {
        0 => job.counts.truncate(job.counts.len() - 1),
        1 => job.counts.push(0),
        2 => job.counts[place(words)] += 1 + words.below(2),
        3 => {
            let at = place(words);
            job.counts[at] = job.counts[at].saturating_sub(1 + words.below(2));
        }
        // A row more of the one table and a row less of the other: the total is right.
        4 => {
            let at = place(words);
            job.counts[at] += 1;
            job.counts[at ^ 1] = job.counts[at ^ 1].saturating_sub(1);
        }
        5 => job.counts.chunks_exact_mut(2).for_each(|pair| pair.swap(0, 1)),
        // The sum of one table's counts is right mod 2^64.
        6 => {
            let (at, off) = (place(words), [1, 1 << 32, 1 << 63, u64::MAX][words.below(4) as usize]);
            job.counts[at] = job.counts[at].wrapping_add(off);
            let pair = if at % 2 == 0 {
                [off.wrapping_neg(), 0]
            } else {
                [0, off.wrapping_neg()]
            };
            job.counts.extend(pair);
        }
        _ => job.counts.extend([0, 0, 0, 0]),
    }
    " counts changed;".into()
}
