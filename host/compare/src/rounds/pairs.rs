//! Pairs of tables of any number of rounds, honest and dishonest, each with the verdict that thought gives it.
//!
//! Where nothing else is said, a pair starts as three calls of nr rounds: core rows 0 to 2 and a padding row; round rows nr to a call, then
//! padding rows. Row nr is the first of call 1, and row 2 nr - 1 its last.

use keccak_tables::{keccak, keccak_rnd};
use oracle::lanes::State;
use oracle::tables::keccak::cols as core_cols;
use oracle::tables::keccak_rnd::cols;

use crate::by_rounds::{self, ALL};
use crate::dishonest::{Tables, shuffle};
use crate::inputs::{Words, number};
use crate::judge::Table::{Core, Round};
use crate::judge::Verdict::{self, Balance, Holds, Lookup, Refused, Timestamp, Value};

const CORE_WIDTH: usize = keccak::NUM_COLUMNS;
const WIDTH: usize = keccak_rnd::NUM_COLUMNS;

/// The tables of nr rounds, and the verdict by that number.
type Make = fn(u64, &mut Words) -> (Tables, Verdict);

/// The verdict on written tables of one call of nr rounds by another number: INPUT is sent where nobody takes it.
pub fn by_another(nr: u64, by: u64) -> Verdict {
    match by_rounds::refusal(by) {
        Some((number, detail)) => Refused(number, detail),
        None if nr == by => Holds(1),
        None => Balance(Core, 0, 2),
    }
}

/// Three calls, after something is done to them.
fn three(nr: u64, words: &mut Words, change: impl FnOnce(&mut Tables, usize) -> Verdict) -> (Tables, Verdict) {
    let mut tables = Tables::written_by(nr, 3, words);
    let verdict = change(&mut tables, nr as usize);
    (tables, verdict)
}

/// A number of rounds next to this one.
fn next_to(nr: u64) -> u64 {
    if nr < ALL { nr + 1 } else { nr - 1 }
}

/// Each of them, by name.
pub const NAMED: &[(&str, Make)] = &[
    ("as written", |nr, words| three(nr, words, |_, _| Holds(3))),
    ("no call", |nr, words| (Tables::written_by(nr, 0, words), Holds(0))),
    ("shuffled", |nr, words| {
        let (mut tables, holds) = three(nr, words, |_, _| Holds(3));
        shuffle(&mut tables.core, CORE_WIDTH, words);
        shuffle(&mut tables.round, WIDTH, words);
        (tables, holds)
    }),
    ("no padding rows", |nr, words| {
        three(nr, words, |t, rounds| {
            t.core.truncate(3 * CORE_WIDTH);
            t.round.truncate(3 * rounds * WIDTH);
            Holds(3)
        })
    }),
    ("core rows against nothing", |nr, words| {
        three(nr, words, |t, _| {
            t.round.clear();
            Balance(Core, 0, 2)
        })
    }),
    ("round rows against nothing", |nr, words| {
        three(nr, words, |t, _| {
            t.core.clear();
            Balance(Round, 0, 0)
        })
    }),
    ("INPUT", |nr, words| {
        three(nr, words, |t, _| {
            t.core_row(1)[core_cols::input_state(2, 2, 2)] ^= 1;
            Balance(Core, 1, 2)
        })
    }),
    ("OUTPUT", |nr, words| {
        three(nr, words, |t, _| {
            t.core_row(1)[core_cols::output_state(4, 0, 7)] ^= 1;
            Balance(Core, 1, 3)
        })
    }),
    ("OUTPUT of all 24 rounds", |nr, words| {
        three(nr, words, |t, _| {
            put_output(t, 0, ALL);
            if nr == ALL { Holds(3) } else { Balance(Core, 0, 3) }
        })
    }),
    ("OUTPUT by plain lanes", |nr, words| {
        three(nr, words, |t, _| {
            (0..3).for_each(|call| put_output(t, call, nr));
            Holds(3)
        })
    }),
    ("the first round of a call dropped", |nr, words| {
        three(nr, words, |t, rounds| {
            t.round.drain(rounds * WIDTH..(rounds + 1) * WIDTH);
            Balance(Core, 1, 2)
        })
    }),
    ("the last round of a call switched off", |nr, words| {
        three(nr, words, |t, rounds| {
            t.round_row(2 * rounds - 1)[cols::MU] = 0;
            // The only round is the first.
            Balance(Core, 1, if rounds == 1 { 2 } else { 3 })
        })
    }),
    ("the first round of a call doubled", |nr, words| {
        three(nr, words, |t, rounds| {
            t.round.extend_from_within(rounds * WIDTH..(rounds + 1) * WIDTH);
            Balance(Core, 1, 2)
        })
    }),
    ("a round before the first, and INPUT as it gives it", |nr, words| {
        earlier(nr, words, |_, _| if nr == ALL { Holds(3) } else { Balance(Core, 0, 2) })
    }),
    ("a round before the first, switched off", |nr, words| {
        earlier(nr, words, |t, first| {
            if nr < ALL {
                t.round_row(first)[cols::MU] = 0;
            }
            Holds(3)
        })
    }),
    ("one call of another number of rounds", |nr, words| {
        let list = Tables::list(3, words);
        let [mut tables, other] = [nr, next_to(nr)].map(|nr| Tables::by_rounds(nr, &list));
        let [rows, rows_other] = [nr, next_to(nr)].map(|nr| nr as usize * WIDTH);
        tables.round.truncate(2 * rows);
        tables.round.extend(&other.round[2 * rows_other..3 * rows_other]);
        tables.take_output(2, tables.round.len() / WIDTH - 1);
        (tables, Balance(Core, 2, 2))
    }),
    ("a repeated timestamp", |nr, words| {
        three(nr, words, |t, _| {
            let stamp = [t.core_row(1)[0], t.core_row(1)[1]];
            t.core_row(2)[..2].copy_from_slice(&stamp);
            Timestamp(2)
        })
    }),
    ("the first ROUND of a call one less", |nr, words| {
        three(nr, words, |t, rounds| {
            let row = t.round_row(rounds);
            row[cols::ROUND] = row[cols::ROUND].checked_sub(1).unwrap_or(keccak_tables::P - 1);
            Lookup(Round, rounds as u64, 2)
        })
    }),
    ("MU 2 on a call's last round", |nr, words| {
        three(nr, words, |t, rounds| {
            t.round_row(2 * rounds - 1)[cols::MU] = 2;
            Value(Round, 2 * rounds as u64 - 1, 140)
        })
    }),
    ("CHI in a call's first round", |nr, words| {
        three(nr, words, |t, rounds| {
            t.round_row(rounds)[cols::chi(3, 3, 3)] ^= 1;
            Lookup(Round, rounds as u64, 823 + 120 + 24 + 3)
        })
    }),
    ("a word of p", |nr, words| {
        three(nr, words, |t, _| {
            t.round[5] = keccak_tables::P;
            Refused(5, 5)
        })
    }),
    ("half a core row", |nr, words| {
        three(nr, words, |t, _| {
            t.core.truncate(CORE_WIDTH + 243);
            Refused(2, 0)
        })
    }),
];

/// OUTPUT of a core row is Keccak-p[1600, nr] of its INPUT, by plain lanes.
fn put_output(t: &mut Tables, call: usize, nr: u64) {
    let row = t.core_row(call);
    let input: State = std::array::from_fn(|lane| number(&row[core_cols::INPUT_STATE + 8 * lane..][..8]));
    let output = by_rounds::keccak_p(nr, &input);
    let bytes = output.iter().flat_map(|lane| lane.to_le_bytes());
    for (column, byte) in row[core_cols::OUTPUT_STATE..core_cols::STATE_PTR].iter_mut().zip(bytes) {
        *column = byte.into();
    }
}

/// The tables of one round more, where there is one, with the state after that round as INPUT; calls 1 and 2 have lost that row. The change
/// gets the one of call 0.
fn earlier(nr: u64, words: &mut Words, change: impl FnOnce(&mut Tables, usize) -> Verdict) -> (Tables, Verdict) {
    if nr == ALL {
        return three(nr, words, |t, _| change(t, 0));
    }
    let mut tables = Tables::written_by(nr + 1, 3, words);
    let more = nr as usize + 1;
    for call in 0..3 {
        let start = tables.round_row(more * call + 1)[cols::START..cols::CXZ].to_vec();
        tables.core_row(call)[core_cols::INPUT_STATE..core_cols::OUTPUT_STATE].copy_from_slice(&start);
    }
    for call in [2, 1] {
        tables.round.drain(more * call * WIDTH..(more * call + 1) * WIDTH);
    }
    let verdict = change(&mut tables, 0);
    (tables, verdict)
}
