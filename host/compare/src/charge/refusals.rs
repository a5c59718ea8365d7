//! Refusals of the two calls: every condition about its edge, several at once, and every lent word as it was.
//!
//! The long slices are lent again and again, as in `looked_up/refusals.rs`; that no refused call changed a word is seen at the end.

use keccak_tables::bitwise::NUM_COUNTERS;
use keccak_tables::segment::{self, LOOK_WORDS, Look};
use keccak_tables::{MAX_OPS, OP_WORDS, P, Parameters, SEGMENT_WORD};

use crate::by_floor;
use crate::by_rounds;
use crate::comparison::Comparison;
use crate::inputs::Words;
use crate::lent::Lent;
use crate::list_calls::{PUT, list_with, of_list};
use crate::looked_up::refusals::{SPOILT_COUNTERS, Spoilt, first_not_element, not_element, short, spoiling};
use crate::refusals::first;
use crate::untouched::Untouched;

/// How parameters are drawn.
type Draw = fn(&mut Words) -> Parameters;

/// The refusals of the calls of this area.
pub fn compare(comparison: &mut Comparison, words: &mut Words) {
    comparison.group("refusals: charges and looks, every set of conditions");
    let mut long = Long::new(words, Words::any_parameters);
    for n in [0, 1, 3] {
        lists(comparison, words, &mut long, n);
    }
    accepted(comparison, words);
    comparison.group("refusals: charges and looks of lists about the limit");
    too_many(comparison, words, &mut long);
    long.kept(comparison);
}

/// The same of short lists alone, by parameters that are drawn so.
pub fn compare_by(comparison: &mut Comparison, words: &mut Words, draw: Draw) {
    let mut long = Long::new(words, draw);
    for n in [0, 1] {
        lists(comparison, words, &mut long, n);
    }
    long.kept(comparison);
}

/// Lists of so many operations, whole or not, with and without words that are refused.
fn lists(comparison: &mut Comparison, words: &mut Words, long: &mut Long, n: usize) {
    for past in [0, 1, OP_WORDS - 1] {
        for put in PUT {
            let ops = list_with(words, n, past, put);
            let mut lent = Lent::new(&ops, words);
            every_set(comparison, words, long, lent.slice());
            lent.kept(comparison, |_| "the list, which is only read".into());
        }
    }
}

/// How parameters are drawn; and counters that are all p - 1, a copy and twenty words, each a word longer than it has to be.
struct Long {
    draw: Draw,
    counters: Lent,
    copy: Lent,
    out: Lent,
}

impl Long {
    fn new(words: &mut Words, draw: Draw) -> Self {
        let mut counters = vec![P - 1; NUM_COUNTERS];
        counters.push(u64::MAX);
        Self {
            draw,
            counters: Lent::new(&counters, words),
            copy: Lent::drawn(NUM_COUNTERS + 1, words),
            out: Lent::drawn(LOOK_WORDS + 1, words),
        }
    }

    fn kept(&self, comparison: &mut Comparison) {
        for (what, lent) in [("counters", &self.counters), ("copy", &self.copy), ("out", &self.out)] {
            lent.kept(comparison, |place| format!("word {place} of {what} that is refused"));
        }
    }
}

/// What is refused, in order: the rounds, the floor, the list with the slices, and a counter.
fn refusal(with: Parameters, ops: &[u64], slices: &[(bool, u64, u64)], spoilt: Spoilt) -> Option<(u64, u64)> {
    by_rounds::refusal(with.rounds)
        .or(by_floor::refusal(with.floor))
        .or_else(|| of_list(ops, slices))
        .or_else(|| first(&[not_element(first_not_element(spoilt, NUM_COUNTERS))]))
}

/// Each slice empty, a word short, just long enough and longer, with some counters that are no elements.
fn every_set(comparison: &mut Comparison, words: &mut Words, long: &mut Long, ops: &[u64]) {
    let lengths = [0, NUM_COUNTERS - 1, NUM_COUNTERS, NUM_COUNTERS + 1];
    for counters in lengths {
        for spoilt in [SPOILT_COUNTERS[0], drawn(words)] {
            charge(comparison, words, long, ops, counters, spoilt);
        }
        for copy in lengths {
            for out in [0, LOOK_WORDS - 1, LOOK_WORDS, LOOK_WORDS + 1] {
                let spoilt = drawn(words);
                look(comparison, words, long, ops, [counters, copy, out], spoilt);
            }
        }
    }
}

fn drawn(words: &mut Words) -> Spoilt<'static> {
    SPOILT_COUNTERS[words.below(7) as usize]
}

fn charge(comparison: &mut Comparison, words: &mut Words, long: &mut Long, ops: &[u64], length: usize, spoilt: Spoilt) {
    let with = (long.draw)(words);
    let expected = refusal(with, ops, &[short(length, NUM_COUNTERS)], spoilt);
    // What is accepted charges, so it is tried elsewhere.
    if expected.is_none() {
        return;
    }
    let answer = spoiling(&mut long.counters, spoilt, |counters| {
        segment::charge_with(with, ops, &mut counters[..length])
    });
    let input = || {
        let operations = ops.len();
        format!("{operations} words of operations on {length} counters, {spoilt:?}, {with:?}")
    };
    comparison.answered("charge", input, answer, expected);
}

fn look(
    comparison: &mut Comparison,
    words: &mut Words,
    long: &mut Long,
    ops: &[u64],
    [counters, copy, out]: [usize; 3],
    spoilt: Spoilt,
) {
    let slices = [
        short(counters, NUM_COUNTERS),
        short(copy, NUM_COUNTERS),
        short(out, LOOK_WORDS),
    ];
    let with = (long.draw)(words);
    let expected = refusal(with, ops, &slices, spoilt);
    if expected.is_none() {
        return;
    }
    let answer = spoiling(&mut long.counters, spoilt, |lent| {
        let (copy, out) = (&mut long.copy.slice()[..copy], &mut long.out.slice()[..out]);
        segment::look_with(with, ops, &lent[..counters], copy, out)
    });
    let input = || {
        let operations = ops.len();
        format!(
            "a look, {operations} words of operations on {counters} counters, {copy} of a copy, {out} words, {spoilt:?}, {with:?}"
        )
    };
    comparison.answered("look", input, answer, expected);
}

/// Slices just long enough, and a word past the counters that is no element. What is written is compared elsewhere.
fn accepted(comparison: &mut Comparison, words: &mut Words) {
    let ops = words.operations(1);
    for more in [0, 1] {
        let mut counters = vec![P - 1; NUM_COUNTERS];
        counters.extend(vec![u64::MAX; more]);
        let (mut copy, mut out) = (vec![0; NUM_COUNTERS], [0; LOOK_WORDS]);
        let answer = segment::look(&ops, &counters, &mut copy, &mut out);
        comparison.answered("look", || "a look that is accepted".into(), answer, None);
        let answer = segment::charge(&ops, &mut counters);
        comparison.answered("charge", || "a charge that is accepted".into(), answer, None);
        comparison.equal(
            |_| "the words past the counters".into(),
            &counters[NUM_COUNTERS..],
            &vec![u64::MAX; more],
        );
    }
    let refused = Look::new(&ops[1..], &[]).map(drop);
    comparison.answered(
        "look",
        || "a look of its own, of a list that is cut".into(),
        refused,
        Some((2, 2)),
    );
}

/// As many operations as a list may have, one more and two more, whole or not, the first operation refused or not. A slice is short or the
/// list too long, so nothing but the first operation could be read.
fn too_many(comparison: &mut Comparison, words: &mut Words, long: &mut Long) {
    let Some(mut untouched) = Untouched::operations(MAX_OPS + 3) else {
        return;
    };
    for (address, segment) in [(0, 0), (4100, 0), (u64::MAX, 0), (0, 1 << 32)] {
        untouched.words_mut()[1] = address;
        untouched.words_mut()[SEGMENT_WORD] = segment;
        for n in [MAX_OPS, MAX_OPS + 1, MAX_OPS + 2] {
            for past in [0, 1, OP_WORDS - 1] {
                let ops = &untouched.words()[..n * OP_WORDS + past];
                for spoilt in SPOILT_COUNTERS {
                    charge(comparison, words, long, ops, NUM_COUNTERS - 1, spoilt);
                    look(comparison, words, long, ops, [NUM_COUNTERS - 1, 0, 0], spoilt);
                    look(
                        comparison,
                        words,
                        long,
                        ops,
                        [NUM_COUNTERS, NUM_COUNTERS - 1, 0],
                        spoilt,
                    );
                    look(comparison, words, long, ops, [NUM_COUNTERS, NUM_COUNTERS, 19], spoilt);
                    if n > MAX_OPS {
                        charge(comparison, words, long, ops, NUM_COUNTERS, spoilt);
                    }
                }
            }
        }
    }
}
