//! `demo`: tables of a few drawn calls, honest and tampered with, and what is said of them; and from a page of text to its receipt.

mod page;

use std::ffi::OsString;
use std::io::{self, Write};

use super::{Failure, Outcome, Streams, explain, refused_line};
use keccak_tables::Refusal;
use keccak_tables::keccak::LAST_ADDRESS;
use keccak_tables::layout::{self, Place};
use keccak_tables::verdict::{Table, Verdict, verdict};
use keccak_tables::{OP_WORDS, Operation, Parameters, SEGMENT_WORD, keccak, keccak_rnd, transposed};

/// The calls.
const CALLS: usize = 3;

/// Lane (0, 0) of `Keccak-f[1600]` of the zero state.
const ZERO_LANE: u64 = 0xF125_8F79_40E1_DDE7;

/// The honest tables, and the changes that a trial makes to them.
#[derive(Clone)]
pub(super) struct Tables {
    core: Vec<u64>,
    round: Vec<u64>,
}

impl Tables {
    fn word(&mut self, table: Table, row: usize, name: &str) -> &mut u64 {
        let column = layout::named(table, name).expect("the trials name columns that there are");
        match table {
            Table::Core => &mut self.core[row * keccak::NUM_COLUMNS + column],
            Table::Round => &mut self.round[row * keccak_rnd::NUM_COLUMNS + column],
        }
    }
}

/// A trial: what is done, the verdict that is expected, and what this shows.
struct Trial {
    done: &'static str,
    change: fn(&mut Tables),
    expected: &'static str,
    shows: &'static str,
}

const TRIALS: [Trial; 8] = [
    Trial {
        done: "The tables as they were written.",
        change: |_| {},
        expected: "holds 3",
        shows: "So each of the 3 active core rows has an OUTPUT that is Keccak-f[1600] of its INPUT: this is proved.",
    },
    Trial {
        done: "In round row 30 (call 1, round 6), the lowest bit of THETA[2][1][4] is changed.",
        change: |tables| *tables.word(Table::Round, 30, "THETA[2][1][4]") ^= 1,
        expected: "round row 30 value 86",
        shows: "A word changed inside a round breaks a constraint of its row.",
    },
    Trial {
        done: "In round row 50 (call 2, round 2), the lowest bit of CHI_ANDS[0][3][7] is changed.",
        change: |tables| *tables.word(Table::Round, 50, "CHI_ANDS[0][3][7]") ^= 1,
        expected: "round row 50 lookup 654",
        shows: "No constraint speaks of this word, but the table of bitwise operations has no such AND.",
    },
    Trial {
        done: "In core row 1, the lowest bit of OUTPUT[0][0][0] is changed.",
        change: |tables| *tables.word(Table::Core, 1, "OUTPUT[0][0][0]") ^= 1,
        expected: "core row 1 balance 3",
        shows: "A wrong result passes every constraint and lookup of its row; no round row sends it, so the bus tells.",
    },
    Trial {
        done: "Round row 71 (call 2, round 23) is switched off: its MU is 0.",
        change: |tables| *tables.word(Table::Round, 71, "MU") = 0,
        expected: "core row 2 balance 3",
        shows: "A round that is left out leaves the call's OUTPUT without a sender.",
    },
    Trial {
        done: "Core row 2 gets the timestamp of core row 0.",
        change: |tables| *tables.word(Table::Core, 2, "TIMESTAMP[0]") = *tables.word(Table::Core, 0, "TIMESTAMP[0]"),
        expected: "core row 2 timestamp 0",
        shows: "Two calls of one timestamp could exchange their results unseen, so this is named before the bus is counted.",
    },
    Trial {
        done: "In core row 0, the pointer of lane 7 is moved on by 8.",
        change: |tables| *tables.word(Table::Core, 0, "POINTER[7][0]") += 8,
        expected: "core row 0 value 14",
        shows: "A lane is read and written at its own place in memory.",
    },
    Trial {
        done: "Word 5 of the core table is 2^64 - 1.",
        change: |tables| tables.core[5] = u64::MAX,
        expected: "refused 5 5",
        shows: "It is no field element: the call refuses with number and place, and does nothing.",
    },
];

pub fn demo(arguments: &[OsString], streams: &mut Streams) -> Result<Outcome, Failure> {
    if !arguments.is_empty() {
        return Err(Failure::Usage("demo takes nothing".into()));
    }
    match honest(Parameters::default()) {
        Ok((ops, tables)) => show(&ops, &tables, streams),
        Err(refusal) => super::refused(refusal, &refusal.to_string(), streams),
    }
}

/// Shows everything, and says whether all was as expected.
fn show(ops: &[u64], tables: &Tables, streams: &mut Streams) -> Result<Outcome, Failure> {
    let out = &mut *streams.output;
    let mut fine = introduce(ops, tables, out)?;
    for trial in &TRIALS {
        fine &= show_trial(trial, tables.clone(), out)?;
    }
    fine &= show_high_address(ops, out)?;
    fine &= show_unaligned_address(ops, out)?;
    fine &= page::show(out)?;
    writeln!(
        out,
        "{}",
        if fine {
            "All as expected."
        } else {
            "NOT all as expected."
        }
    )?;
    Ok(Outcome::of(fine))
}

fn introduce(ops: &[u64], tables: &Tables, out: &mut dyn Write) -> io::Result<bool> {
    let (core, round) = (
        tables.core.len() / keccak::NUM_COLUMNS,
        tables.round.len() / keccak_rnd::NUM_COLUMNS,
    );
    let first = ops[SEGMENT_WORD - 25];
    writeln!(
        out,
        "{CALLS} calls of the permutation: one of the zero state, the others of drawn states. Each OUTPUT is the"
    )?;
    writeln!(
        out,
        "state after round 23 in the round table that the proved code writes. For the zero state its first"
    )?;
    writeln!(out, "lane is {first:016X} (the published value is {ZERO_LANE:016X}).")?;
    writeln!(
        out,
        "Written: a core table of {core} rows and a round table of {round} rows, padding included.\n"
    )?;
    Ok(first == ZERO_LANE)
}

fn show_trial(trial: &Trial, mut tables: Tables, out: &mut dyn Write) -> io::Result<bool> {
    (trial.change)(&mut tables);
    let answer = verdict(&tables.core, &tables.round);
    writeln!(out, "{}\n    {}", trial.done, line(answer))?;
    if let Some(place) = named(answer) {
        writeln!(out, "    ({}: {})", explain::title(&place), place.says)?;
    }
    writeln!(out, "  {}\n", trial.shows)?;
    Ok(line(answer) == trial.expected)
}

fn show_high_address(ops: &[u64], out: &mut dyn Write) -> io::Result<bool> {
    let mut ops = ops.to_vec();
    ops[1] = LAST_ADDRESS + 1;
    let answer = keccak::keccak_table(&ops);
    let line = answer.map_or_else(refused_line, |_| "written".into());
    writeln!(
        out,
        "The core table is asked for, where call 0 is at address 2^64 - 192.\n    {line}"
    )?;
    writeln!(
        out,
        "  Its last lane would start past 2^64 - 1: the writer refuses with number and address, and writes nothing.\n"
    )?;
    Ok(line == format!("refused 4 {}", LAST_ADDRESS + 1))
}

fn show_unaligned_address(ops: &[u64], out: &mut dyn Write) -> io::Result<bool> {
    let mut ops = ops.to_vec();
    ops[1] += 4;
    let answer = keccak::keccak_table(&ops);
    let line = answer.map_or_else(refused_line, |_| "written".into());
    writeln!(
        out,
        "The core table is asked for, where call 0 is at address {}.\n    {line}",
        ops[1]
    )?;
    writeln!(
        out,
        "  No multiple of 8: the alignment lookup of its row would have no match, so the writer does not make it.\n"
    )?;
    Ok(line == format!("refused 7 {}", ops[1]))
}

/// The answer as `judge` prints it, but for the tuple's values.
fn line(answer: Result<Verdict, Refusal>) -> String {
    match answer {
        Ok(verdict) => verdict.to_string(),
        Err(refusal) => refused_line(refusal),
    }
}

/// What the index in a verdict is.
fn named(answer: Result<Verdict, Refusal>) -> Option<Place> {
    match answer.ok()? {
        Verdict::Value { table, index, .. } => layout::value(table, index as usize).map(|(place, _)| place),
        Verdict::Lookup { table, index, .. } | Verdict::Unbalanced { table, index, .. } => {
            layout::tuple(table, index as usize).map(|(place, _)| place)
        }
        _ => None,
    }
}

/// The operations and their tables.
pub(super) fn honest(parameters: Parameters) -> Result<(Vec<u64>, Tables), Refusal> {
    let mut ops: Vec<u64> = (0..CALLS as u64).flat_map(|call| drawn(call).words()).collect();
    let round = keccak_rnd::keccak_rnd_table_with(parameters, &ops)?;
    for (call, operation) in ops.chunks_exact_mut(OP_WORDS).enumerate() {
        let last = (call + 1) * parameters.rounds as usize - 1;
        operation[SEGMENT_WORD - 25..SEGMENT_WORD]
            .copy_from_slice(&state_after(&round[last * keccak_rnd::NUM_COLUMNS..])?);
    }
    let core = keccak::keccak_table(&ops)?;
    Ok((ops, Tables { core, round }))
}

/// A call without its OUTPUT: lanes by the rule of SplitMix64, and none in call 0.
fn drawn(call: u64) -> Operation {
    let lane = |at: usize| {
        let mut word = (100 * call + at as u64).wrapping_mul(0x9E37_79B9_7F4A_7C15);
        word = (word ^ word >> 30).wrapping_mul(0xBF58_476D_1CE4_E5B9);
        word = (word ^ word >> 27).wrapping_mul(0x94D0_49BB_1331_11EB);
        word ^ word >> 31
    };
    let input = if call == 0 { [0; 25] } else { std::array::from_fn(lane) };
    Operation {
        timestamp: 4 * call + 1,
        address: 4096 + 200 * call,
        input,
        output: [0; 25],
        segment: 0,
    }
}

/// The state that a round row sends on: tuple 1, after the timestamp's two words and the round.
fn state_after(row: &[u64]) -> Result<[u64; 25], Refusal> {
    let mut values = [0; keccak_rnd::MAX_TUPLE_LENGTH];
    keccak_rnd::bus_interaction(row, 1, &mut values)?;
    let bytes = transposed(values[3..].first_chunk().expect("a state has 200 bytes"));
    Ok(std::array::from_fn(|lane| {
        bytes[8 * lane..][..8]
            .iter()
            .rev()
            .fold(0, |number, byte| number << 8 | byte)
    }))
}
