//! Refusals: number and detail of each listed condition and of its neighbours, against the interface's list (the Rust
//! panics there or has no such call); and every lent word as it was.

use keccak_tables::keccak::LAST_ADDRESS;
use keccak_tables::{MAX_OPS, OP_WORDS, P, Parameters, SEGMENT_WORD, bitwise, is_wh, keccak, keccak_rc, keccak_rnd};

use crate::by_floor::{self, FLOORS, REFUSED};
use crate::by_rounds;
use crate::comparison::Comparison;
use crate::inputs::{LAST_ALIGNED, Words};
use crate::lent::Lent;
use crate::list_calls::{LAST_SEGMENT, LIST_CALLS, ListCall, TOO_MANY, of_operations};
use crate::refused::{on_slice, tuple_calls};
use crate::untouched::Untouched;

/// The refusals of the calls of this area.
pub fn compare(comparison: &mut Comparison, words: &mut Words) {
    comparison.group("refusals: bitwise rows, indexes and counters");
    bitwise_rows(comparison, words);
    bitwise_indexes(comparison);
    short_counters(comparison, words);
    counters_about_p(comparison, words);
    comparison.group("refusals: constant rows and tables");
    constant_rows(comparison, words);
    constant_tables(comparison, words);
    comparison.group("refusals: tuples");
    tuples_of_lookups(comparison, words);
    comparison.group("refusals: calls that take operations");
    operation_calls(comparison, words);
    comparison.group("refusals: round rows and numbers of operations");
    round_rows(comparison, words);
    counts(comparison);
}

/// Numbers of rounds about both ends of those that are accepted.
const ROUNDS: [u64; 9] = [0, 1, 12, 23, 24, 25, 26, 1 << 32, u64::MAX];

fn bitwise_rows(comparison: &mut Comparison, words: &mut Words) {
    let end = bitwise::NUM_ROWS;
    for index in [0, 1, end - 1, end, end + 1, usize::MAX] {
        for length in [0, 1, 10, 11, 12] {
            let expected = match (index, length) {
                _ if index >= end => Some((1, 1_048_576)),
                (_, 0..11) => Some((3, 11)),
                _ => None,
            };
            let what = ("generate_bitwise_row", || format!("generate_bitwise_row({index})"));
            on_slice(comparison, words, what, length, expected, |row| {
                bitwise::generate_bitwise_row(index, row)
            });
        }
    }
}

fn bitwise_indexes(comparison: &mut Comparison) {
    for z in [15, 16, 17, 255] {
        let input = || format!("row_index(1, 2, {z})");
        let expected = (z >= 16).then_some((1, 16));
        comparison.answered("bitwise_row_index", input, bitwise::row_index(1, 2, z), expected);
    }
}

fn short_counters(comparison: &mut Comparison, words: &mut Words) {
    let end = bitwise::NUM_COUNTERS;
    for kind in [0, 9, 10, 11, usize::MAX] {
        for z in [0, 15, 16, 255] {
            for length in [0, 1, 1000] {
                let expected = match (kind, z) {
                    (10.., _) => (1, 10),
                    (_, 16..) => (1, 16),
                    _ => (3, end as u64),
                };
                let what = ("bitwise_bump", || format!("bump of kind {kind}, z = {z}"));
                on_slice(comparison, words, what, length, Some(expected), |counters| {
                    bitwise::bump_numbered(counters, kind, 3, 4, z)
                });
            }
        }
    }
    let what = ("bitwise_bump", || "bump at 0".into());
    on_slice(comparison, words, what, end - 1, Some((3, end as u64)), |counters| {
        bitwise::bump_numbered(counters, 0, 0, 0, 0)
    });
}

/// A counter that is p or more, the first, one between and the last; then the same place holding p - 1.
fn counters_about_p(comparison: &mut Comparison, words: &mut Words) {
    for (kind, x, y, z) in [(0, 0, 0, 0), (6, 1, 2, 3), (9, 255, 255, 15)] {
        let place = (usize::from(x) + 256 * usize::from(y) + 65_536 * usize::from(z)) * 10 + kind;
        for (word, refused) in [(P, true), (P + 1, true), (u64::MAX, true), (P - 1, false)] {
            let mut counters = vec![0; bitwise::NUM_COUNTERS];
            counters[place] = word;
            let mut counters = Lent::new(&counters, words);
            let answer = bitwise::bump_numbered(counters.slice(), kind, x, y, z);
            let input = || format!("bump of the counter at {place}, which holds {word}");
            let expected = refused.then_some((5, place as u64));
            comparison.answered("bitwise_bump", input, answer, expected);
            if refused {
                counters.kept(comparison, |_| input());
            }
        }
    }
}

fn constant_rows(comparison: &mut Comparison, words: &mut Words) {
    for round in [0, 23, 24, 31, 32, 33, usize::MAX] {
        for length in [0, 8, 9, 10] {
            let expected = match (round, length) {
                (32.., _) => Some((1, 32)),
                (_, 0..9) => Some((3, 9)),
                _ => None,
            };
            let what = ("keccak_rc_generate_row", || format!("generate_row({round})"));
            on_slice(comparison, words, what, length, expected, |out| {
                keccak_rc::generate_row(round, out)
            });
        }
    }
}

fn constant_tables(comparison: &mut Comparison, words: &mut Words) {
    for length in [0, 319, 320, 321] {
        let short = (length < 320).then_some((3, 320));
        let what = ("generate_keccak_rc_trace", || "the constant table".into());
        let call = keccak_rc::generate_keccak_rc_trace;
        on_slice(comparison, words, what, length, short, call);
        for n in [0, 1, TOO_MANY - 1, TOO_MANY, TOO_MANY + 1, u64::MAX] {
            let many = (n >= TOO_MANY).then_some((1, TOO_MANY));
            for nr in ROUNDS {
                let expected = by_rounds::refusal(nr).or(many).or(short);
                let input = || format!("update_multiplicities to {n} by {nr} rounds");
                let what = ("keccak_rc_update_multiplicities", input);
                on_slice(comparison, words, what, length, expected, |table| {
                    keccak_rc::update_multiplicities_with(Parameters::default().rounds(nr), table, n)
                });
            }
        }
    }
}

fn tuples_of_lookups(comparison: &mut Comparison, words: &mut Words) {
    let lengths = [2, 2, 2, 2, 1, 1, 4, 4, 4, 4];
    let call = &bitwise::bus_interaction;
    let names = ("bitwise_bus_interaction", "bitwise");
    tuple_calls(comparison, words, names, bitwise::NUM_COLUMNS, &lengths, call);
    let call = &keccak_rc::bus_interaction;
    let names = ("keccak_rc_bus_interaction", "keccak_rc");
    tuple_calls(comparison, words, names, keccak_rc::NUM_COLUMNS, &[9], call);
    let call = &is_wh::bus_interaction;
    let names = ("is_wh_bus_interaction", "is_wh");
    tuple_calls(comparison, words, names, is_wh::NUM_COLUMNS, &[1, 1, 1, 1, 2], call);
}

fn operation_calls(comparison: &mut Comparison, words: &mut Words) {
    for call in &LIST_CALLS {
        for n in [0, 1, 3, 5] {
            lists_about_whole(comparison, words, call, n);
            refused_addresses(comparison, words, call, n);
            refused_segments(comparison, words, call, n);
        }
    }
    indexes(comparison, words);
    too_many(comparison, words);
}

/// Lists with and without words past the last operation, and slices about the length needed.
fn lists_about_whole(comparison: &mut Comparison, words: &mut Words, call: &ListCall, n: usize) {
    let none = (call.takes_index && n == 0).then_some((1, 0));
    let needed = call.needed(n);
    for past in [0, 1, OP_WORDS - 1] {
        let mut ops = words.operations(n);
        ops.extend(words.take(past));
        for length in [0, needed.saturating_sub(1), needed, needed + 1] {
            let expected = none
                .or((past > 0).then_some((2, 2)))
                .or((length < needed).then_some((3, needed as u64)));
            let input = || format!("{} on {n} operations and {past} words", call.name);
            let what = (call.name, input);
            on_slice(comparison, words, what, length, expected, |out| call.at_last(&ops, out));
        }
    }
}

/// Each operation in turn at an address about the last one or off the eight, and the last operation at another; shorter slices are refused
/// first.
fn refused_addresses(comparison: &mut Comparison, words: &mut Words, call: &ListCall, n: usize) {
    let needed = call.needed(n);
    for at in 0..n {
        for address in refused_or_not() {
            for last in [LAST_ALIGNED, 3, u64::MAX - 1] {
                let mut ops = words.operations(n);
                ops[(n - 1) * OP_WORDS + 1] = last;
                ops[at * OP_WORDS + 1] = address;
                let input = || {
                    format!(
                        "{}, operation {at} of {n} at address {address}, the last at {last}",
                        call.name
                    )
                };
                let short = Some((3, needed as u64));
                for (length, expected) in [(needed, of_operations(&ops)), (needed - 1, short)] {
                    let what = (call.name, input);
                    on_slice(comparison, words, what, length, expected, |out| call.at_last(&ops, out));
                }
            }
        }
    }
}

/// Each operation in turn with a segment word about the last that is accepted, the first with an address that is accepted, off the eight or
/// high, and the last with another segment word that is refused or not; shorter slices are refused first.
fn refused_segments(comparison: &mut Comparison, words: &mut Words, call: &ListCall, n: usize) {
    let needed = call.needed(n);
    for at in 0..n {
        for segment in [0, LAST_SEGMENT, LAST_SEGMENT + 1, 1 << 40, u64::MAX] {
            for (first, last) in [(8, 0), (8, 1 << 63), (4100, 0), (u64::MAX, 1 << 32)] {
                let mut ops = words.operations(n);
                ops[1] = first;
                ops[(n - 1) * OP_WORDS + SEGMENT_WORD] = last;
                ops[at * OP_WORDS + SEGMENT_WORD] = segment;
                let input = || {
                    format!(
                        "{}, operation {at} of {n} with segment word {segment}, the last with {last}, the first at {first}",
                        call.name
                    )
                };
                let short = Some((3, needed as u64));
                for (length, expected) in [(needed, of_operations(&ops)), (needed - 1, short)] {
                    let what = (call.name, input);
                    on_slice(comparison, words, what, length, expected, |out| call.at_last(&ops, out));
                }
            }
        }
    }
}

/// The highest accepted address and the next multiple of 8; what is between them and behind; and each rest by 8.
fn refused_or_not() -> Vec<u64> {
    let about_the_last = [LAST_ALIGNED, LAST_ADDRESS, LAST_ADDRESS + 1, LAST_ADDRESS + 2, u64::MAX];
    about_the_last.into_iter().chain(4096..4104).collect()
}

fn indexes(comparison: &mut Comparison, words: &mut Words) {
    let ops = words.operations(3);
    for index in [0, 2, 3, 4, usize::MAX] {
        let expected = (index >= 3).then_some((1, 3));
        let what = ("keccak_row", || format!("keccak_row({index}) of 3 operations"));
        on_slice(comparison, words, what, 486, expected, |row| {
            keccak::keccak_row(&ops, index, row)
        });
    }
}

/// More operations than a list may have, as many as it may have and a word, and as many: none of them is read, because a
/// check of the lengths refuses each.
fn too_many(comparison: &mut Comparison, words: &mut Words) {
    let Some(untouched) = Untouched::operations(MAX_OPS + 2) else {
        return;
    };
    for call in &LIST_CALLS {
        for (operations, past, expected) in [
            (MAX_OPS, 0, (3, call.needed(MAX_OPS) as u64)),
            (MAX_OPS, 1, (2, 2)),
            (MAX_OPS + 1, 0, (1, TOO_MANY)),
            (MAX_OPS + 1, 1, (1, TOO_MANY)),
            (MAX_OPS + 2, 0, (1, TOO_MANY)),
        ] {
            let ops = &untouched.words()[..operations * OP_WORDS + past];
            let input = || format!("{} on {operations} operations and {past} words", call.name);
            let what = (call.name, input);
            on_slice(comparison, words, what, 8, Some(expected), |out| call.at_last(ops, out));
        }
    }
}

fn round_rows(comparison: &mut Comparison, words: &mut Words) {
    for round in [0, 23, 24, 25, usize::MAX] {
        for lanes in [0, 24, 25, 26] {
            for length in [0, 1479, 1480, 1481] {
                let expected = match (round, lanes, length) {
                    (24.., _, _) => Some((1, 24)),
                    (_, 0..25, _) => Some((3, 25)),
                    (_, _, 0..1480) => Some((3, 1480)),
                    _ => None,
                };
                let mut start = Lent::drawn(lanes, words);
                let input = || format!("keccak_rnd_row of round {round} from {lanes} lanes");
                let what = ("keccak_rnd_row", input);
                on_slice(comparison, words, what, length, expected, |row| {
                    keccak_rnd::keccak_rnd_row(1, start.slice(), round, row)
                });
                start.kept(comparison, |_| format!("START, which is only read: {}", input()));
            }
        }
    }
}

/// Every floor and those that are none, numbers of rounds about both ends, and numbers of operations about the limit.
pub fn counts(comparison: &mut Comparison) {
    for n in [0, MAX_OPS, MAX_OPS + 1, MAX_OPS + 2, usize::MAX] {
        let many = (n > MAX_OPS).then_some((1, TOO_MANY));
        for floor in FLOORS.into_iter().chain(REFUSED) {
            let floored = by_floor::refusal(floor).or(many);
            let core = keccak::keccak_height_with(Parameters::default().floor(floor), n);
            comparison.answered(
                "keccak_height",
                || format!("keccak_height({floor}, {n})"),
                core,
                floored,
            );
            for nr in ROUNDS {
                let with = Parameters::default().rounds(nr).floor(floor);
                let expected = by_rounds::refusal(nr).or(floored);
                let height = keccak_rnd::keccak_rnd_height_with(with, n).map(drop);
                let padding = keccak_rnd::padding_are_bytes_with(with, n).map(drop);
                for (name, answer) in [("keccak_rnd_height", height), ("padding_are_bytes", padding)] {
                    comparison.answered(name, || format!("{name}({nr}, {floor}, {n})"), answer, expected);
                }
            }
        }
    }
}
