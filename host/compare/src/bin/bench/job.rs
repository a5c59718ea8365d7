//! The report on a job of 16 segments of 170 calls each, all ours: over the verdict on the two tables alone (`job`), and over the verdicts on
//! the segments alone (`job-segments`). The segments are in the writer's order, each with its padding rows. `job-padding` is the verdict on
//! the job's two tables over that on the tables of the same calls as one segment, whose padding stands at the end: a row of the one over a
//! row of the other. `job-falling` is the report over the verdict where the segments stand in the other order, so that no timestamp rises
//! from one to the next; `job-misfiled` where the first round row of each segment but the first stands with the one before it, so that
//! every segment fails and the job holds. Each answer is checked in every run.

use std::hint::black_box;
use std::time::Duration;

use compare::dishonest::Tables;
use compare::inputs::Words;
use compare::jobs::Job;
use compare::say;
use keccak_tables::job::Report;
use keccak_tables::verdict::{Verdict, verdict};
use keccak_tables::{OP_WORDS, keccak, keccak_rnd};

use crate::timing::{best, line, ratio, time, whole};

const SEGMENTS: usize = 16;
const CALLS: usize = 170;
const RUNS: usize = 3;

pub fn run() {
    let list = calls();
    let segments: Vec<Tables> = list
        .chunks_exact(CALLS * OP_WORDS)
        .map(|calls| Tables::by_rounds(24, calls))
        .collect();
    let job = Job::of(24, &segments);
    let one = Tables::by_rounds(24, &list);
    let falling = Job::of(24, &segments.iter().rev().cloned().collect::<Vec<_>>());
    let mut misfiled = job.clone();
    for segment in 1..SEGMENTS {
        misfiled.counts[2 * segment - 1] += 1;
        misfiled.counts[2 * segment + 1] -= 1;
    }

    let rows = rows_of(&job.core, &job.round);
    say!("job, {SEGMENTS} segments of {CALLS} calls, {rows} rows: time in all, and of a row");
    let times = best(
        RUNS,
        [
            Box::new(|| reported(&job, true)),
            Box::new(|| judged(&job.core, &job.round, SEGMENTS * CALLS)),
            Box::new(|| {
                segments
                    .iter()
                    .map(|Tables { core, round }| judged(core, round, CALLS))
                    .sum()
            }),
            Box::new(|| judged(&one.core, &one.round, SEGMENTS * CALLS)),
            Box::new(|| reported(&falling, true)),
            Box::new(|| judged(&falling.core, &falling.round, SEGMENTS * CALLS)),
            Box::new(|| reported(&misfiled, false)),
        ],
    );
    let names = [
        "the report",
        "the verdict on both tables",
        "the verdicts on the segments",
        "the verdict on one segment of all",
        "the report, segments falling",
        "the verdict, segments falling",
        "the report, a row misfiled in each",
    ];
    let rows_of_one = rows_of(&one.core, &one.round);
    for (at, (name, time)) in names.into_iter().zip(times).enumerate() {
        whole(name, time);
        line(name, time, if at == 3 { rows_of_one } else { rows });
    }
    let [report, alone, each, one, report_falling, falling, report_misfiled] = times;
    ratio("job", report, alone);
    ratio("job-segments", report, each);
    ratio("job-padding", alone * rows_of_one as u32, one * rows as u32);
    ratio("job-falling", report_falling, falling);
    ratio("job-misfiled", report_misfiled, alone);
}

/// Drawn calls, timestamps rising.
fn calls() -> Vec<u64> {
    let mut words = Words::new(7);
    let mut list = Vec::with_capacity(SEGMENTS * CALLS * OP_WORDS);
    for call in 1..=(SEGMENTS * CALLS) as u64 {
        list.extend([call << 2, call << 12]);
        list.extend((0..25).map(|_| words.lane()));
        list.extend([0; OP_WORDS - 27]);
    }
    list
}

fn rows_of(core: &[u64], round: &[u64]) -> usize {
    core.len() / keccak::NUM_COLUMNS + round.len() / keccak_rnd::NUM_COLUMNS
}

/// The time of a report. The job holds, and so does every segment, or none.
fn reported(job: &Job, each_holds: bool) -> Duration {
    time(|| {
        let report =
            Report::new(black_box(&job.core), black_box(&job.round), black_box(&job.counts)).expect("a report");
        let active = (SEGMENTS * CALLS) as u64;
        assert_eq!(report.job(), Verdict::Holds { active });
        assert!(report.segments().all(|verdict| verdict.holds() == each_holds));
    })
}

/// The time of a verdict, which holds.
fn judged(core: &[u64], round: &[u64], calls: usize) -> Duration {
    time(|| {
        let answer = verdict(black_box(core), black_box(round)).expect("a verdict");
        assert_eq!(answer, Verdict::Holds { active: calls as u64 });
    })
}
