//! Core and round tables, their single rows, keys and heights.

use keccak_tables::{MAX_OPS, OP_WORDS, Operation, Parameters, Refusal, SEGMENT_WORD, keccak, keccak_rnd};

use crate::by_floor;
use crate::comparison::Comparison;
use crate::inputs::{Words, addresses, number, operation_of_row, states};
use crate::lent::Lent;
use crate::list_calls::LIST_CALLS;

pub fn compare(comparison: &mut Comparison, words: &mut Words, n: usize) {
    comparison.group("tables and keys of 0 to 40 drawn operations");
    for n in 0..=40 {
        let ops = words.operations(n);
        tables(comparison, words, &ops);
    }
    comparison.group("tables and keys of drawn operations, in lists of 1 to 40");
    let mut left = n;
    while left > 0 {
        let n = (1 + words.below(40) as usize).min(left);
        let ops = words.operations(n);
        tables(comparison, words, &ops);
        left -= n;
    }
    at_edges(comparison, words);
    comparison.group("lists with other segment numbers: the same words");
    for n in [1, 2, 5, 20] {
        segments(comparison, words, n);
    }
    comparison.group("core tables of 1,000 to 1,200 and of 3,000 operations");
    for n in (1000..=1200).step_by(40).chain([1078, 1079, 3000]) {
        let ops = words.operations(n);
        core_tables(comparison, words, &ops);
    }
    comparison.group("single core rows");
    for n in [1, 2, 7, 24] {
        let ops = words.operations(n);
        core_rows(comparison, words, &ops);
    }
    comparison.group("single round rows, every round, START as the Rust's rows have it");
    for _ in 0..12 {
        let ops = words.operations(1);
        round_rows(comparison, words, &ops);
    }
    comparison.group("single round rows, every round, START at every edge");
    for states in states().chunks(8) {
        rows_from(comparison, words, states);
    }
    comparison.group("single round rows, every round, START drawn");
    for _ in 0..n.div_ceil(8) {
        let states: [[u64; 25]; 8] = std::array::from_fn(|_| std::array::from_fn(|_| words.lane()));
        rows_from(comparison, words, &states);
    }
    comparison.group("heights and padding lookups");
    heights_of_tables(comparison);
    heights(comparison);
}

/// What each call on a list writes, the list's segment numbers being 0; and the same where they are the last, a bit and drawn.
fn segments(comparison: &mut Comparison, words: &mut Words, n: usize) {
    let ops = words.operations(n);
    let with = |segment: &mut dyn FnMut() -> u32| {
        let mut list = ops.clone();
        for operation in list.chunks_exact_mut(OP_WORDS) {
            operation[SEGMENT_WORD] = u64::from(segment());
        }
        list
    };
    let bit = 1 << words.below(32);
    let lists = [with(&mut || u32::MAX), with(&mut || bit), with(&mut || words.segment())];
    for call in &LIST_CALLS {
        let mut expected = vec![0; call.needed(n)];
        let none = with(&mut || 0);
        let input = || format!("{} of {n} operations of segment 0", call.name);
        comparison.done(input, call.at_last(&none, &mut expected));
        for list in &lists {
            let mut lent = Lent::drawn(expected.len(), words);
            let input = || format!("{} of the operations {list:?}", call.name);
            comparison.done(input, call.at_last(list, lent.slice()));
            lent.holds(comparison, |_| input(), &expected);
        }
    }
}

fn at_edges(comparison: &mut Comparison, words: &mut Words) {
    comparison.group("tables and keys at every edge of the address");
    let at = |words: &mut Words, address| Operation {
        address,
        ..words.operation()
    };
    let ops: Vec<u64> = addresses()
        .into_iter()
        .flat_map(|address| at(words, address).words())
        .collect();
    tables(comparison, words, &ops);

    comparison.group("tables of the zero state, all ones, single bits and single lanes");
    let of = |words: &mut Words, state| Operation {
        input: state,
        output: state,
        ..words.operation()
    };
    for states in states().chunks(32) {
        let ops: Vec<u64> = states.iter().flat_map(|&state| of(words, state).words()).collect();
        tables(comparison, words, &ops);
    }
}

/// Both tables, whole and their rows alone, and the keys of a list.
fn tables(comparison: &mut Comparison, words: &mut Words, ops: &[u64]) {
    core_tables(comparison, words, ops);
    let round = ("round table", keccak_rnd::NUM_COLUMNS, keccak_rnd::ROUNDS);
    let expected = oracle::round_table(ops);
    let call = keccak_rnd::generate_keccak_rnd_trace;
    table(comparison, words, round, ops, call, &expected);
    own_memory(comparison, round, ops, keccak_rnd::keccak_rnd_table, &expected);
    parts(comparison, words, round, ops, keccak_rnd::keccak_rnd_rows, &expected);
    let keys = ("keys", keccak::KEY_WORDS, 1);
    let expected = oracle::is_wh_keys(ops);
    table(comparison, words, keys, ops, keccak::is_wh_keys, &expected);
}

fn core_tables(comparison: &mut Comparison, words: &mut Words, ops: &[u64]) {
    let core = ("core table", keccak::NUM_COLUMNS, 1);
    let expected = oracle::core_table(ops);
    table(comparison, words, core, ops, keccak::generate_keccak_trace, &expected);
    own_memory(comparison, core, ops, keccak::keccak_table, &expected);
    parts(comparison, words, core, ops, keccak::keccak_rows, &expected);
}

/// A core table by the calls that take parameters: whole, and in memory of its own.
pub fn core_tables_by(comparison: &mut Comparison, words: &mut Words, with: Parameters, ops: &[u64]) {
    let expected = by_floor::core_table(with.floor, ops);
    let name = format!("core table with floor {}", with.floor);
    let core = (name.as_str(), keccak::NUM_COLUMNS, 1);
    let whole = |ops: &[u64], table: &mut [u64]| keccak::generate_keccak_trace_with(with, ops, table);
    table(comparison, words, core, ops, whole, &expected);
    let own = |ops: &[u64]| keccak::keccak_table_with(with, ops);
    own_memory(comparison, core, ops, own, &expected);
}

/// A round table by the calls that take parameters: whole, in memory of its own, and its rows in parts.
pub fn round_tables_by(comparison: &mut Comparison, words: &mut Words, with: Parameters, ops: &[u64]) {
    let expected = by_floor::round_table(with, ops);
    let name = format!("round table of {} rounds with floor {}", with.rounds, with.floor);
    let round = (name.as_str(), keccak_rnd::NUM_COLUMNS, with.rounds as usize);
    let whole = |ops: &[u64], table: &mut [u64]| keccak_rnd::generate_keccak_rnd_trace_with(with, ops, table);
    table(comparison, words, round, ops, whole, &expected);
    let own = |ops: &[u64]| keccak_rnd::keccak_rnd_table_with(with, ops);
    own_memory(comparison, round, ops, own, &expected);
    let rows = |ops: &[u64], table: &mut [u64]| keccak_rnd::keccak_rnd_rows_with(with, ops, table);
    parts(comparison, words, round, ops, rows, &expected);
}

/// A table in memory of its own, where a long list is written on all cores.
fn own_memory(
    comparison: &mut Comparison,
    (name, width, rows): (&str, usize, usize),
    ops: &[u64],
    call: impl Fn(&[u64]) -> Result<Vec<u64>, Refusal>,
    expected: &[u64],
) {
    let input = || format!("{name} of {} operations in memory of its own", ops.len() / OP_WORDS);
    if let Some(table) = comparison.done(input, call(ops)) {
        comparison.equal(in_table(name, ops, width, rows), &table, expected);
    }
}

/// The rows of a list alone, by one call; and by two calls for two parts of it, each into its own part of one slice.
fn parts(
    comparison: &mut Comparison,
    words: &mut Words,
    (name, width, rows): (&str, usize, usize),
    ops: &[u64],
    call: impl Fn(&[u64], &mut [u64]) -> Result<(), Refusal>,
    expected: &[u64],
) {
    let n = ops.len() / OP_WORDS;
    let expected = &expected[..n * rows * width];
    let name = &format!("rows of the {name}");
    table(comparison, words, (name, width, rows), ops, &call, expected);
    let cut = words.below(n as u64 + 1) as usize;
    let mut lent = Lent::drawn(expected.len() + words.below(9) as usize, words);
    let (early, late) = lent.slice().split_at_mut(cut * rows * width);
    for (ops, part) in [(&ops[..cut * OP_WORDS], early), (&ops[cut * OP_WORDS..], late)] {
        let answer = call(ops, part);
        comparison.done(|| format!("{name} of a part, {ops:?}"), answer);
    }
    lent.holds(comparison, in_table(name, ops, width, rows), expected);
}

/// One of them, by its name, its width and its rows to an operation, into a slice that is a little longer than it has to be.
fn table(
    comparison: &mut Comparison,
    words: &mut Words,
    (name, width, rows): (&str, usize, usize),
    ops: &[u64],
    call: impl Fn(&[u64], &mut [u64]) -> Result<(), Refusal>,
    expected: &[u64],
) {
    let mut table = Lent::drawn(expected.len() + words.below(9) as usize, words);
    let answer = call(ops, table.slice());
    comparison.done(
        || format!("{name} of {} operations {ops:?}", ops.len() / OP_WORDS),
        answer,
    );
    table.holds(comparison, in_table(name, ops, width, rows), expected);
}

/// Names the place in a table and the operation behind it.
fn in_table<'a>(name: &'a str, ops: &'a [u64], width: usize, rows: usize) -> impl FnOnce(usize) -> String + 'a {
    move |place| {
        let (row, column) = (place / width, place % width);
        format!(
            "{name}, row {row}, column {column}: {}",
            operation_of_row(ops, row, rows)
        )
    }
}

/// Each operation's row by itself.
fn core_rows(comparison: &mut Comparison, words: &mut Words, ops: &[u64]) {
    let expected = oracle::core_table(ops);
    for (index, expected) in expected
        .chunks_exact(keccak::NUM_COLUMNS)
        .take(ops.len() / OP_WORDS)
        .enumerate()
    {
        let mut row = Lent::drawn(keccak::NUM_COLUMNS + words.below(4) as usize, words);
        let input = || operation_of_row(ops, index, 1);
        comparison.done(input, keccak::keccak_row(ops, index, row.slice()));
        row.holds(comparison, |_| input(), expected);
    }
}

/// Each of the 24 rows by itself, from the lanes that stand in the Rust's row.
fn round_rows(comparison: &mut Comparison, words: &mut Words, ops: &[u64]) {
    let expected = oracle::round_table(ops);
    let rows = expected.chunks_exact(keccak_rnd::NUM_COLUMNS).take(keccak_rnd::ROUNDS);
    for (round, expected) in rows.enumerate() {
        let start: Vec<u64> = expected[3..203].chunks_exact(8).map(number).collect();
        round_row(comparison, words, ops[0], &start, round, expected);
    }
}

/// The rows of every round from each of some states. The Rust writes rows from round 0 on, so the rounds before are run
/// backwards: its table of what they give has the wanted START in that round's row.
fn rows_from(comparison: &mut Comparison, words: &mut Words, states: &[[u64; 25]]) {
    let wanted: Vec<(&[u64; 25], usize)> = (0..keccak_rnd::ROUNDS)
        .flat_map(|round| states.iter().map(move |start| (start, round)))
        .collect();
    let of = |words: &mut Words, start, round| Operation {
        input: oracle::lanes::input_of(start, round),
        ..words.operation()
    };
    let ops: Vec<u64> = wanted
        .iter()
        .flat_map(|&(start, round)| of(words, start, round).words())
        .collect();
    let expected = oracle::round_table(&ops);
    for (at, (start, round)) in wanted.into_iter().enumerate() {
        let row = at * keccak_rnd::ROUNDS + round;
        let expected = &expected[row * keccak_rnd::NUM_COLUMNS..][..keccak_rnd::NUM_COLUMNS];
        round_row(comparison, words, ops[at * OP_WORDS], start, round, expected);
    }
}

/// One round row, from lanes that are lent a little longer than they have to be.
fn round_row(
    comparison: &mut Comparison,
    words: &mut Words,
    timestamp: u64,
    start: &[u64],
    round: usize,
    expected: &[u64],
) {
    let start = [start, &words.take(words_past(round))].concat();
    let mut row = Lent::drawn(keccak_rnd::NUM_COLUMNS + words.below(4) as usize, words);
    let input = || format!("round {round} from {start:?}");
    comparison.done(input, keccak_rnd::keccak_rnd_row(timestamp, &start, round, row.slice()));
    row.holds(comparison, |_| input(), expected);
}

/// START may be lent longer than its 25 lanes.
fn words_past(round: usize) -> usize {
    round % 3
}

/// Heights against the Rust's tables, which are small.
fn heights_of_tables(comparison: &mut Comparison) {
    let mut words = Words::new(0);
    for n in [0, 1, 2, 3, 4, 5, 10, 11, 21, 22, 42, 43, 64, 65, 85, 86] {
        let ops = words.operations(n);
        let core = keccak::keccak_height(n).map_or(0, |rows| rows as u64);
        let round = keccak_rnd::keccak_rnd_height(n).map_or(0, |rows| rows as u64);
        let expected = [
            oracle::core_table(&ops).len() / keccak::NUM_COLUMNS,
            oracle::round_table(&ops).len() / keccak_rnd::NUM_COLUMNS,
        ];
        let input = |_| format!("heights for n = {n}");
        comparison.equal(input, &[core, round], &expected.map(|rows| rows as u64));
    }
}

/// Heights against the Rust's expression, padding lookups against its function.
fn heights(comparison: &mut Comparison) {
    for n in counts(24) {
        let input = |what| move || format!("{what} for n = {n}");
        let core = comparison.done(input("the core height"), keccak::keccak_height(n));
        let round = comparison.done(input("the round height"), keccak_rnd::keccak_rnd_height(n));
        let padding = comparison.done(input("padding lookups"), keccak_rnd::padding_are_bytes(n));
        let (Some(core), Some(round), Some(padding)) = (core, round, padding) else {
            continue;
        };
        comparison.equal(
            |_| format!("heights and padding lookups for n = {n}"),
            &[core as u64, round as u64, padding],
            &[
                n.next_power_of_two().max(4) as u64,
                (n * 24).next_power_of_two().max(4) as u64,
                oracle::padding_are_bytes(n),
            ],
        );
    }
}

/// Heights and padding lookups by these parameters, against the requests' words.
pub fn heights_by(comparison: &mut Comparison, with: Parameters) {
    for n in counts(with.rounds as usize) {
        let input = || format!("heights and padding lookups for n = {n}, {with:?}");
        let core = comparison.done(input, keccak::keccak_height_with(with, n));
        let round = comparison.done(input, keccak_rnd::keccak_rnd_height_with(with, n));
        let padding = comparison.done(input, keccak_rnd::padding_are_bytes_with(with, n));
        let [core, round] = [core, round].map(|rows| rows.unwrap_or(0) as u64);
        let expected = [
            by_floor::height(with.floor, n) as u64,
            by_floor::round_height(with, n) as u64,
            by_floor::padding_are_bytes(with, n),
        ];
        comparison.equal(|_| input(), &[core, round, padding.unwrap_or(0)], &expected);
    }
}

/// Numbers of operations of so many rounds about every change of either height, and at the limit.
fn counts(rounds: usize) -> Vec<usize> {
    let mut counts: Vec<usize> = (0..=200).collect();
    for power in 2..=31 {
        let rows = 1usize << power;
        for at in [rows, rows / rounds] {
            counts.extend(at.saturating_sub(2)..=at + 2);
        }
    }
    counts.extend(MAX_OPS - 2..=MAX_OPS);
    counts.retain(|&n| n <= MAX_OPS);
    counts
}
