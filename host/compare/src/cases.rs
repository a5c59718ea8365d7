//! The tables of the program `verdict_cases`, made by the published Rust and damaged in the same way, and what `judge` says
//! of each, and `jobs` of two of them as a job. The file `crates/verdict_cases/stdout` has these lines.

use oracle::sample::permuted;
use oracle::tables::keccak::cols as core_cols;
use oracle::tables::keccak_rnd::cols;
use oracle::{CORE_COLUMNS, OPERATION_WORDS, P, ROUND_COLUMNS, core_table, round_table};

use crate::by_rounds::ALL;
use crate::dishonest::Tables;
use crate::jobs::{Job, report};
use crate::judge::verdict;

/// The first timestamp, and the address of the second operation.
const STAMP: u64 = 7 << 32 | 5;
const ADDRESS: u64 = 0x7FFF_FFFF_FF40;

/// The operation of a timestamp, an address, an input and an output; its segment number is the lower half of the timestamp.
fn operation(timestamp: u64, address: u64, input: [u64; 25], output: [u64; 25]) -> Vec<u64> {
    [&[timestamp, address][..], &input, &output, &[timestamp & 0xFFFF_FFFF]].concat()
}

/// Keccak-f[1600], as the published round table makes it.
fn keccak_f(input: [u64; 25]) -> [u64; 25] {
    permuted(&operation(0, 0, input, [0; 25]))
}

/// The tables of two operations, the second at a timestamp and an address, with their outputs or with these exchanged. Their
/// inputs are the zero state permuted once and twice.
fn written(timestamp: u64, address: u64, exchanged: bool) -> Tables {
    let input = keccak_f([0; 25]);
    let middle = keccak_f(input);
    let last = keccak_f(middle);
    let outputs = if exchanged { [last, middle] } else { [middle, last] };
    let list = [
        operation(STAMP, 4096, input, outputs[0]),
        operation(timestamp, address, middle, outputs[1]),
    ]
    .concat();
    assert_eq!(list.len(), 2 * OPERATION_WORDS);
    tables_of(&list)
}

/// The tables of a list.
fn tables_of(list: &[u64]) -> Tables {
    Tables {
        core: core_table(list),
        round: round_table(list),
    }
}

/// The tables of two right operations, after something is done to them.
fn damaged(damage: impl Fn(&mut Tables)) -> Tables {
    let mut tables = written(STAMP + 1, ADDRESS, false);
    damage(&mut tables);
    tables
}

/// The second core row, written for address 4096, as it would be of address 4100: the lowest byte of the address, and the lowest limb of
/// each pointer.
fn move_by_4(core: &mut [u64]) {
    let row = &mut core[CORE_COLUMNS..2 * CORE_COLUMNS];
    row[core_cols::ADDR] = 4;
    for lane in 0..25 {
        row[core_cols::STATE_PTR + 3 * lane] = 4100 + 8 * lane as u64;
    }
}

/// Row 0 in the first padding row, with ROUND 24 and with its constant taken out.
fn put_late_row(round: &mut [u64]) {
    let (rows, padding) = round.split_at_mut(48 * ROUND_COLUMNS);
    let late = &mut padding[..ROUND_COLUMNS];
    late.copy_from_slice(&rows[..ROUND_COLUMNS]);
    late[cols::ROUND] = 24;
    late[cols::RC..][..8].fill(0);
    late.copy_within(cols::CHI..cols::CHI + 8, cols::IOTA);
}

/// A job of two segments with the two right operations, the second at a timestamp, and these counts.
fn segments(timestamp: u64, counts: [u64; 4]) -> Job {
    let input = keccak_f([0; 25]);
    let middle = keccak_f(input);
    let first = tables_of(&operation(STAMP, 4096, input, middle));
    let second = tables_of(&operation(timestamp, ADDRESS, middle, keccak_f(middle)));
    Job {
        nr: ALL,
        core: [first.core, second.core].concat(),
        round: [first.round, second.round].concat(),
        counts: counts.to_vec(),
    }
}

/// A line for each verdict of a report, or for its refusal.
fn job_lines(name: &str, job: &Job) -> Vec<String> {
    match report(job, 12) {
        Err((number, detail)) => vec![format!("{name} refused {number} {detail}")],
        Ok(words) => ["segment 0", "segment 1", "job"]
            .iter()
            .zip(words.chunks_exact(4))
            .map(|(part, words)| format!("{name} {part} {} {} {} {}", words[0], words[1], words[2], words[3]))
            .collect(),
    }
}

/// The jobs by name.
pub fn jobs() -> [(&'static str, Job); 4] {
    [
        ("two segments", segments(STAMP + 1, [4, 32, 4, 32])),
        ("misfiled", segments(STAMP + 1, [4, 33, 4, 31])),
        ("shared timestamp", segments(STAMP, [4, 32, 4, 32])),
        ("sums that wrap", segments(STAMP + 1, [12, 64, u64::MAX - 3, 0])),
    ]
}

/// The tables by name.
pub fn tables() -> [(&'static str, Tables); 13] {
    [
        ("as written", damaged(|_| ())),
        (
            "no rows",
            damaged(|t| {
                t.core.clear();
                t.round.clear();
            }),
        ),
        ("core value", damaged(|t| t.core[core_cols::MU] = 2)),
        ("core lookup", {
            let mut tables = written(STAMP + 1, 4096, false);
            move_by_4(&mut tables.core);
            tables
        }),
        ("timestamp", written(STAMP, ADDRESS, true)),
        ("round value", damaged(|t| t.round[cols::MU] = 2)),
        (
            "round lookup",
            damaged(|t| t.round[5 * ROUND_COLUMNS + cols::ROUND] = 25),
        ),
        (
            "core unbalanced",
            damaged(|t| t.core[CORE_COLUMNS + core_cols::OUTPUT_STATE] = 256),
        ),
        ("round unbalanced", damaged(|t| put_late_row(&mut t.round))),
        (
            "core cut",
            damaged(|t| {
                t.core.pop();
                t.round.pop();
            }),
        ),
        (
            "round cut",
            damaged(|t| {
                t.round.pop();
            }),
        ),
        ("core word", damaged(|t| t.core[CORE_COLUMNS + 3] = P)),
        (
            "round word",
            damaged(|t| *t.round.last_mut().expect("there are rows") = P),
        ),
    ]
}

/// A line for each case: its name, then the four words of the verdict; then those of the jobs.
pub fn lines() -> Vec<String> {
    let cases = tables().into_iter().map(|(name, Tables { core, round })| {
        let [a, b, c, d] = verdict(&core, &round).words();
        format!("{name} {a} {b} {c} {d}")
    });
    let jobs = jobs();
    cases
        .chain(jobs.iter().flat_map(|(name, job)| job_lines(name, job)))
        .collect()
}
