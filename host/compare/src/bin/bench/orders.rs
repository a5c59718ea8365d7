//! The verdict in lent memory on the same calls in every order of `compare/src/orders.rs`, over that on the writer's order (`orders-CALLS-NAME`);
//! in the writer's order, over the verdict without memory of its own (`orders-CALLS`). A scratch is lent once and used in every run. Beside it
//! stands the time without memory of its own, where there are few enough rows that it does not take minutes. Then the same of 65,536 core
//! rows in falling order of timestamps, over the rising one (`orders-descending`), and of 16,384 equal round rows, over as many in the
//! writer's order (`orders-equal`), with no other table beside them. Each answer is checked in every run.

use std::hint::black_box;
use std::time::Duration;

use compare::dishonest::Tables;
use compare::inputs::Words;
use compare::orders::{ORDERS, reversed, written};
use compare::say;
use keccak_tables::verdict::{Table, Verdict, scratch_words, verdict_alone, verdict_within};
use keccak_tables::{OP_WORDS, keccak, keccak_rnd};

use crate::timing::{best, line, ratio, time, whole};

/// The calls where no number is given, one after the other.
const CALLS: [usize; 3] = [100, 1_000, 2_730];

/// With more rows the verdict without memory of its own is timed in the writer's order alone.
const MOST_ROWS: usize = 10_000;

/// The core rows, and the calls whose round rows and padding are 16,384 rows, of the two examples.
const CORE_ROWS: usize = 65_536;
const CALLS_OF_ROUNDS: usize = 682;

/// So many calls; where no number is given, each of several and the two examples.
pub fn run(calls: Option<usize>) {
    match calls {
        Some(calls) => every_order(calls),
        None => {
            CALLS.into_iter().for_each(every_order);
            descending();
            equal();
        }
    }
}

fn every_order(calls: usize) {
    let mut words = Words::new(7);
    let ordered = written(calls, &mut words);
    say!(
        "orders, {calls} calls, {} rows: time in all, and of a row",
        rows(&ordered)
    );
    let runs = (5_000 / calls).clamp(1, 5);
    let holds = |answer: Verdict| answer == Verdict::Holds { active: calls as u64 };
    let mut scratch = scratch_for(&ordered);
    let [within, alone] = best(
        runs,
        [
            Box::new(|| in_scratch(&ordered, &mut scratch, holds)),
            Box::new(|| without(&ordered, holds)),
        ],
    );
    told("in the writer's order", within, rows(&ordered));
    told("  without memory of its own", alone, rows(&ordered));
    ratio(&format!("orders-{calls}"), within, alone);
    for (name, order) in ORDERS {
        let mut tables = ordered.clone();
        order(&mut tables, calls, &mut words);
        one_order((name, &format!("orders-{calls}-{name}")), &tables, runs, within);
    }
}

/// An order over the writer's, whose time is known.
fn one_order((name, of_ratio): (&str, &str), tables: &Tables, runs: usize, writers: Duration) {
    let mut scratch = scratch_for(tables);
    let expected = verdict_within(&tables.core, &tables.round, &mut scratch).expect("a verdict");
    let as_expected = |answer| answer == expected;
    let [within] = best(runs, [Box::new(|| in_scratch(tables, &mut scratch, as_expected))]);
    say!("  {name}: '{expected}'");
    told(name, within, rows(tables));
    if rows(tables) <= MOST_ROWS {
        told(
            "  without memory of its own",
            without(tables, as_expected),
            rows(tables),
        );
    } else {
        say!("    without memory of its own: not run, more than {MOST_ROWS} rows");
    }
    ratio(of_ratio, within, writers);
}

/// Core rows alone, in rising and in falling order of their timestamps; with no round row the first is unbalanced.
fn descending() {
    let mut words = Words::new(7);
    let mut list = Vec::with_capacity(CORE_ROWS * OP_WORDS);
    for call in 1..=CORE_ROWS as u64 {
        list.extend([call << 2, call << 12]);
        list.extend((0..50).map(|_| words.lane()));
        list.push(0);
    }
    let core = keccak::keccak_table(&list).expect("the list is accepted");
    let falling = reversed(&core, keccak::NUM_COLUMNS);
    let [rising, falling] = [core, falling].map(|core| Tables { core, round: vec![] });
    example(
        "orders-descending",
        Table::Core,
        2,
        [("rising", &rising), ("falling", &falling)],
    );
}

/// Round rows alone, as they are written and each the same; the first receives what nobody sends.
fn equal() {
    let round = written(CALLS_OF_ROUNDS, &mut Words::new(7)).round;
    let same = round[..keccak_rnd::NUM_COLUMNS].repeat(round.len() / keccak_rnd::NUM_COLUMNS);
    let [ordered, same] = [round, same].map(|round| Tables { core: vec![], round });
    example(
        "orders-equal",
        Table::Round,
        0,
        [("as written", &ordered), ("all equal", &same)],
    );
}

/// Rows of one table alone, over the same number of them as written; of both the first is unbalanced.
fn example(name: &str, table: Table, index: u64, [ordered, other]: [(&str, &Tables); 2]) {
    say!(
        "{name}, {} rows of one table: time in all, and of a row",
        rows(ordered.1)
    );
    let first = |answer| answer == Verdict::Unbalanced { table, row: 0, index };
    let [mut scratch, mut other_scratch] = [ordered.1, other.1].map(scratch_for);
    let times = best(
        3,
        [
            Box::new(|| in_scratch(ordered.1, &mut scratch, first)),
            Box::new(|| in_scratch(other.1, &mut other_scratch, first)),
        ],
    );
    for ((what, tables), time) in [ordered, other].into_iter().zip(times) {
        told(what, time, rows(tables));
    }
    ratio(name, times[1], times[0]);
}

fn rows(tables: &Tables) -> usize {
    tables.core.len() / keccak::NUM_COLUMNS + tables.round.len() / keccak_rnd::NUM_COLUMNS
}

fn scratch_for(tables: &Tables) -> Vec<u64> {
    vec![0; scratch_words(&tables.core, &tables.round)]
}

fn told(what: &str, time: Duration, rows: usize) {
    whole(what, time);
    line(what, time, rows);
}

/// The time of a verdict in a scratch, which has to be as expected.
fn in_scratch(tables: &Tables, scratch: &mut [u64], expected: impl Fn(Verdict) -> bool) -> Duration {
    time(|| {
        let answer = verdict_within(black_box(&tables.core), black_box(&tables.round), scratch).expect("a verdict");
        assert!(expected(answer), "{answer}");
    })
}

/// That of one without memory of its own.
fn without(tables: &Tables, expected: impl Fn(Verdict) -> bool) -> Duration {
    time(|| {
        let answer = verdict_alone(black_box(&tables.core), black_box(&tables.round)).expect("a verdict");
        assert!(expected(answer), "{answer}");
    })
}
