//! Pairs of which only the timestamps or the bus tell.

use keccak_tables::P;
use oracle::tables::keccak::cols as core_cols;
use oracle::tables::keccak_rnd::cols;

use super::Named;
use super::onward::{IOTA, onward};
use super::round_rows::set;
use super::tables::{CORE_WIDTH, Tables, WIDTH, exchange};
use crate::judge::Table::{Core, Round};
use crate::judge::Verdict::{Balance, Timestamp};

/// Rows that pass by themselves, and only the timestamps or the bus tell.
pub const BUS: &[Named] = &[
    ("core rows against nothing", |t, _| {
        t.round.clear();
        Balance(Core, 0, 2)
    }),
    ("round rows against nothing", |t, _| {
        t.core.clear();
        Balance(Round, 0, 0)
    }),
    ("INPUT", |t, _| {
        t.core_row(1)[core_cols::input_state(2, 2, 2)] ^= 1;
        Balance(Core, 1, 2)
    }),
    ("INPUT of p - 1", |t, _| {
        t.core_row(2)[core_cols::input_state(4, 4, 7)] = P - 1;
        Balance(Core, 2, 2)
    }),
    ("INPUT, its first and its last byte", |t, _| {
        let row = t.core_row(0);
        row[core_cols::INPUT_STATE] = 1;
        row[core_cols::INPUT_STATE + 199] ^= 2;
        Balance(Core, 0, 2)
    }),
    ("OUTPUT", |t, _| {
        t.core_row(1)[core_cols::output_state(0, 0, 0)] ^= 1;
        Balance(Core, 1, 3)
    }),
    ("OUTPUT's last byte of the last call", |t, _| {
        t.core_row(2)[core_cols::output_state(4, 4, 7)] ^= 128;
        Balance(Core, 2, 3)
    }),
    ("OUTPUT with 256 in place of a byte", |t, _| {
        t.core_row(1)[core_cols::output_state(1, 0, 0)] = 256;
        Balance(Core, 1, 3)
    }),
    ("a core timestamp's low word", |t, _| {
        t.core_row(1)[0] += 1;
        Balance(Core, 1, 2)
    }),
    ("a core timestamp's high word", |t, _| {
        t.core_row(1)[1] += 1;
        Balance(Core, 1, 2)
    }),
    ("a round row's timestamp, low word", |t, _| {
        t.round_row(30)[0] += 1;
        Balance(Round, 29, 1)
    }),
    ("a round row's timestamp, high word", |t, _| {
        t.round_row(30)[1] += 1;
        Balance(Round, 29, 1)
    }),
    ("the first round row's timestamp", |t, _| {
        t.round_row(24)[0] += 1;
        Balance(Core, 1, 2)
    }),
    ("MU 0 on a call", |t, _| {
        t.core_row(1)[core_cols::MU] = 0;
        Balance(Round, 24, 0)
    }),
    ("MU 0 on a call's first round", |t, _| {
        t.round_row(24)[cols::MU] = 0;
        Balance(Core, 1, 2)
    }),
    ("MU 0 on a round", |t, _| set(t, cols::MU, 0, Balance(Round, 29, 1))),
    ("MU 0 on a call's last round", |t, _| {
        t.round_row(47)[cols::MU] = 0;
        Balance(Core, 1, 3)
    }),
    ("a core padding row made active", |t, _| {
        t.core_row(3)[core_cols::MU] = 1;
        Balance(Core, 3, 2)
    }),
    ("a core row dropped", |t, _| {
        t.core.drain(CORE_WIDTH..2 * CORE_WIDTH);
        Balance(Round, 24, 0)
    }),
    ("a round row dropped", |t, _| {
        t.round.drain(30 * WIDTH..31 * WIDTH);
        Balance(Round, 29, 1)
    }),
    ("a call's round rows dropped", |t, _| {
        t.round.drain(24 * WIDTH..48 * WIDTH);
        Balance(Core, 1, 2)
    }),
    ("a core row doubled", |t, _| {
        t.core.extend_from_within(CORE_WIDTH..2 * CORE_WIDTH);
        Timestamp(4)
    }),
    ("a round row doubled", |t, _| {
        t.round.extend_from_within(30 * WIDTH..31 * WIDTH);
        Balance(Round, 29, 1)
    }),
    ("a call's round rows doubled", |t, _| {
        t.round.extend_from_within(24 * WIDTH..48 * WIDTH);
        Balance(Core, 1, 2)
    }),
    ("a call doubled, round rows and all", |t, _| {
        t.core.extend_from_within(CORE_WIDTH..2 * CORE_WIDTH);
        t.round.extend_from_within(24 * WIDTH..48 * WIDTH);
        Timestamp(4)
    }),
    ("one round of two calls exchanged, timestamps kept", |t, _| {
        exchange(&mut t.round, WIDTH, 30, 54);
        for word in 0..2 {
            t.round.swap(30 * WIDTH + word, 54 * WIDTH + word);
        }
        Balance(Round, 29, 1)
    }),
    ("the chain of another call", |t, _| {
        take_chain(t);
        Balance(Core, 1, 2)
    }),
    ("the chain of another call, and its output", |t, _| {
        take_chain(t);
        t.take_output(1, 47);
        Balance(Core, 1, 2)
    }),
    ("outputs of two calls exchanged", |t, _| {
        exchange_outputs(t);
        Balance(Core, 0, 3)
    }),
    // The scope's case.
    ("outputs of two calls exchanged under one timestamp", |t, words| {
        *t = Tables::at(&[7, 7], words);
        exchange_outputs(t);
        Timestamp(1)
    }),
    ("two calls under one timestamp, otherwise honest", |t, words| {
        *t = Tables::at(&[7, 9, 7, 9], words);
        Timestamp(2)
    }),
    ("a repeated timestamp, its rows not in order", |t, words| {
        *t = Tables::at(&[9, 8, 7, 5, 8, 3], words);
        exchange(&mut t.core, CORE_WIDTH, 0, 7);
        Timestamp(4)
    }),
    ("ROUND exchanged between 5 and 22", |t, _| {
        t.round.swap(5 * WIDTH + cols::ROUND, 22 * WIDTH + cols::ROUND);
        Balance(Round, 4, 1)
    }),
    ("ROUND exchanged between 6 and 20", |t, _| {
        t.round.swap(6 * WIDTH + cols::ROUND, 20 * WIDTH + cols::ROUND);
        Balance(Round, 5, 1)
    }),
    // The scope's case.
    ("a row of ROUND 24", |t, _| {
        t.round.copy_within(30 * WIDTH..31 * WIDTH, 72 * WIDTH);
        let row = t.round_row(72);
        row[cols::ROUND] = 24;
        row[cols::RC..cols::IOTA].fill(0);
        onward(row, IOTA);
        Balance(Round, 72, 0)
    }),
    ("a row of ROUND 24, and its output in place of the call's", |t, _| {
        t.round.copy_within(47 * WIDTH..48 * WIDTH, 72 * WIDTH);
        let output: Vec<u64> = t.core_row(1)[core_cols::OUTPUT_STATE..core_cols::STATE_PTR].to_vec();
        let row = t.round_row(72);
        row[cols::ROUND] = 24;
        row[cols::START..cols::CXZ].copy_from_slice(&output);
        row[cols::RC..cols::IOTA].fill(0);
        onward(row, 0);
        t.take_output(1, 72);
        Balance(Core, 1, 3)
    }),
    ("zero rows of ROUND 24 to 31", |t, _| {
        for round in 24..32 {
            let row = t.round_row(48 + round);
            row[cols::ROUND] = round as u64;
            row[cols::MU] = 1;
        }
        Balance(Round, 72, 0)
    }),
    ("a zero row of ROUND 31 after the padding", |t, _| {
        let row = t.round_row(127);
        row[cols::ROUND] = 31;
        row[cols::MU] = 1;
        Balance(Round, 127, 0)
    }),
    (
        "the last row of the last call dropped, the one before it doubled",
        |t, _| {
            t.round.copy_within(70 * WIDTH..71 * WIDTH, 71 * WIDTH);
            Balance(Core, 2, 3)
        },
    ),
    ("a call's chain begun anew in the middle", |t, _| {
        // Round 0 to 23 from another state under the same timestamp, sent on to where no core row takes it.
        t.round.extend_from_within(48 * WIDTH..72 * WIDTH);
        t.stamp_rounds(128, 1);
        Balance(Round, 128, 0)
    }),
];

/// The round rows of call 2 in place of those of call 1, under its timestamp.
fn take_chain(t: &mut Tables) {
    t.round.copy_within(48 * WIDTH..72 * WIDTH, 24 * WIDTH);
    t.stamp_rounds(24, 1);
}

/// Exchanges the outputs of the first two core rows.
fn exchange_outputs(t: &mut Tables) {
    for column in core_cols::OUTPUT_STATE..core_cols::STATE_PTR {
        t.core.swap(column, CORE_WIDTH + column);
    }
}
