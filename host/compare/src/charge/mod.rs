//! What a segment charges to the counters of the bitwise table, and the look at it before: against a histogram over the published tuples
//! of the published tables, through the Rust's own `BitwiseHistogram`. It adds to a `u64`; to counters about p what it counts is added mod
//! p here, by `u128`.

pub mod refusals;

use keccak_tables::bitwise::{NUM_COUNTERS, NUM_LOOKUP_TYPES};
use keccak_tables::segment::{self, KindLook, LOOK_WORDS, Look};
use keccak_tables::{OP_WORDS, P, Parameters};
use oracle::{Bus, CORE_COLUMNS, Counters, Lookup, ROUND_COLUMNS, Side, Tuple};

use crate::by_floor;
use crate::by_rounds;
use crate::comparison::Comparison;
use crate::inputs::Words;
use crate::lent::Lent;
use crate::looked_up::{at_counter, charged, counters, longer};
use crate::tally::drawn_mode;

/// The lists have 0 to so many operations.
const MOST: usize = 90;

/// The whole area: the empty list in both modes, `n` / 20 lists of 0 to 90 operations, of numbers that follow each other from a drawn one on,
/// so that every number comes where `n` is 1,820 or more; and refusals.
pub fn compare(comparison: &mut Comparison, seed: u64, n: usize) {
    let mut words = Words::new(seed);
    comparison.group("charges and looks of an empty list, in both modes");
    for parameters in [Parameters::default(), Parameters::default().shipped()] {
        of_list(comparison, &mut words, parameters, &[]);
    }
    comparison.group("charges and looks of lists of 0 to 90 operations");
    let start = words.below(MOST as u64 + 1) as usize;
    for i in 0..n.div_ceil(20).min(MOST + 1) {
        let ops = words.operations((start + i) % (MOST + 1));
        let parameters = drawn_mode(&mut words);
        of_list(comparison, &mut words, parameters, &ops);
    }
    comparison.group("charges of an operation over and over, one list after the other");
    again(comparison, &mut words);
    refusals::compare(comparison, &mut words);
}

/// By the place of its counter, how often the published rows of a list send each lookup; of an empty list only where its tables are
/// shipped. A higher floor has more padding rows, of which each sends what one sends.
pub fn sent(parameters: Parameters, ops: &[u64]) -> Vec<u64> {
    let mut counters = Counters::new();
    if parameters.shipped || !ops.is_empty() {
        let (core, round) = (oracle::core_table(ops), by_rounds::round_table(parameters.rounds, ops));
        for row in core.chunks_exact(CORE_COLUMNS) {
            bump(&mut counters, &oracle::core_tuples(row, 0), 1);
        }
        for row in round.chunks_exact(ROUND_COLUMNS) {
            bump(&mut counters, &oracle::round_tuples(row), 1);
        }
        let n = ops.len() / OP_WORDS;
        let more = by_floor::height(parameters.floor, n) - core.len() / CORE_COLUMNS;
        bump(&mut counters, &oracle::core_tuples(&by_floor::core_padding(), 0), more);
        let more = by_floor::round_height(parameters, n) - round.len() / ROUND_COLUMNS;
        bump(&mut counters, &oracle::round_tuples(&[0; ROUND_COLUMNS]), more);
    }
    counters.words()
}

/// Counts the tuples that so many like rows send to the bitwise table.
fn bump(counters: &mut Counters, tuples: &[Tuple], rows: usize) {
    for tuple in tuples.iter().filter(|tuple| tuple.side == Side::Sender) {
        let byte = |at: usize| u8::try_from(tuple.values[at]).expect("an operand is a byte");
        let (kind, x, y) = match tuple.bus {
            Bus::ByteAlu => (7 + tuple.values[0] as usize, byte(1), byte(2)),
            Bus::AreBytes => (3, byte(0), byte(1)),
            Bus::IsHalfword => {
                let half = u16::try_from(tuple.values[0]).expect("a halfword");
                (4, half as u8, (half >> 8) as u8)
            }
            _ => continue,
        };
        let lookup = Lookup { kind, x, y, z: 0 };
        match tuple.multiplicity * rows as u64 {
            1 => counters.bump(lookup),
            times => counters.bump_n(lookup, times),
        }
    }
}

/// The words of a look: by kind the sum of what is added, a whole number, and the largest counter afterwards.
pub(crate) fn look_words(counts: &[u64], after: &[u64]) -> [u64; LOOK_WORDS] {
    let mut sums = [0u128; NUM_LOOKUP_TYPES];
    let mut largest = [0; NUM_LOOKUP_TYPES];
    for (place, (&count, &counter)) in counts.iter().zip(after).enumerate() {
        let kind = place % NUM_LOOKUP_TYPES;
        sums[kind] += u128::from(count);
        largest[kind] = counter.max(largest[kind]);
    }
    std::array::from_fn(|at| match at % 2 {
        0 => u64::try_from(sums[at / 2]).expect("a sum is far below p"),
        _ => largest[at / 2],
    })
}

fn of_list(comparison: &mut Comparison, words: &mut Words, parameters: Parameters, ops: &[u64]) {
    let list = List::new(parameters, ops);
    let mut ops = Lent::new(ops, words);
    let returning = returning(words, &list.counts);
    // On zeros, on counters of which half are just below p, and on such as return to zero there.
    for before in [vec![0; NUM_COUNTERS], counters(words)] {
        list.look(comparison, words, &mut ops, &before);
        list.charge(comparison, words, &mut ops, before);
    }
    list.look(comparison, words, &mut ops, &returning);
    list.look_of_its_own(comparison, &mut ops, &returning);
    ops.kept(comparison, |_| format!("the list, which is only read: {}", list.what));
}

/// One look and one charge of a list.
pub fn once(comparison: &mut Comparison, words: &mut Words, parameters: Parameters, ops: &[u64]) {
    let list = List::new(parameters, ops);
    let mut ops = Lent::new(ops, words);
    let before = returning(words, &list.counts);
    list.look(comparison, words, &mut ops, &before);
    list.charge(comparison, words, &mut ops, before);
    ops.kept(comparison, |_| format!("the list, which is only read: {}", list.what));
}

/// Counters that are small, but for the first of each kind that is charged: it is just below p, and returns to zero, so that another is the
/// largest afterwards.
fn returning(words: &mut Words, counts: &[u64]) -> Vec<u64> {
    let mut counters: Vec<u64> = (0..NUM_COUNTERS)
        .map(|place| words.below(1000 + place as u64 % 10))
        .collect();
    for kind in 0..NUM_LOOKUP_TYPES {
        let charged = (kind..NUM_COUNTERS)
            .step_by(NUM_LOOKUP_TYPES)
            .find(|&place| counts[place] > 0);
        if let Some(place) = charged {
            counters[place] = P - 1 - words.below(counts[place]);
        }
    }
    counters
}

/// A list of operations, how often it sends each lookup, and its name.
struct List {
    what: String,
    parameters: Parameters,
    counts: Vec<u64>,
}

impl List {
    fn new(parameters: Parameters, ops: &[u64]) -> Self {
        Self {
            what: format!("{} operations, {parameters:?}", ops.len() / OP_WORDS),
            parameters,
            counts: sent(parameters, ops),
        }
    }

    /// Whether the calls without parameters do.
    fn is_today(&self) -> bool {
        self.parameters == Parameters::default()
    }

    fn charge(&self, comparison: &mut Comparison, words: &mut Words, ops: &mut Lent, before: Vec<u64>) {
        let expected = charged(&before, &self.counts);
        let mut lent = Lent::new(&longer(words, before), words);
        let answer = match self.is_today() {
            false => segment::charge_with(self.parameters, ops.slice(), lent.slice()),
            true => segment::charge(ops.slice(), lent.slice()),
        };
        comparison.done(|| self.what.clone(), answer);
        lent.holds(comparison, |place| at_counter(&self.what, place), &expected);
    }

    fn look(&self, comparison: &mut Comparison, words: &mut Words, ops: &mut Lent, before: &[u64]) {
        let after = charged(before, &self.counts);
        let mut read = Lent::new(&longer(words, before.to_vec()), words);
        let mut copy = Lent::drawn(NUM_COUNTERS + words.below(5) as usize, words);
        let mut out = Lent::drawn(LOOK_WORDS + words.below(3) as usize, words);
        let answer = match self.is_today() {
            false => segment::look_with(self.parameters, ops.slice(), read.slice(), copy.slice(), out.slice()),
            true => segment::look(ops.slice(), read.slice(), copy.slice(), out.slice()),
        };
        let what = |part: &str| format!("{part} of a look, {}", self.what);
        comparison.done(|| what("the answer"), answer);
        copy.holds(comparison, |place| at_counter(&what("the copy"), place), &after);
        let expected = look_words(&self.counts, &after);
        out.holds(
            comparison,
            |place| format!("kind {}, {}", place / 2, what("the words")),
            &expected,
        );
        read.kept(comparison, |place| at_counter(&what("the counters"), place));
    }

    /// The same in memory of its own.
    fn look_of_its_own(&self, comparison: &mut Comparison, ops: &mut Lent, before: &[u64]) {
        let after = charged(before, &self.counts);
        let what = || format!("a look of its own, {}", self.what);
        if let Some(look) = comparison.done(what, Look::with(self.parameters, ops.slice(), before)) {
            comparison.equal(|place| at_counter(&what(), place), look.counters(), &after);
            let kinds = look.kinds().map(|KindLook { sum, largest, .. }| [sum, largest]);
            let expected = look_words(&self.counts, &after);
            comparison.equal(
                |place| format!("kind {} of {}", place / 2, what()),
                &kinds.concat(),
                &expected,
            );
        }
    }
}

/// One operation, its list charged three times, and the list of it twice: each adds what it adds from zero.
fn again(comparison: &mut Comparison, words: &mut Words) {
    let one = words.operations(1);
    let two = [&one[..], &one].concat();
    let mut expected = counters(words);
    let mut lent = Lent::new(&longer(words, expected.clone()), words);
    for ops in [&one, &one, &two, &one] {
        expected = charged(&expected, &sent(Parameters::default(), ops));
        comparison.done(|| "one operation again".into(), segment::charge(ops, lent.slice()));
    }
    lent.holds(comparison, |place| at_counter("one operation again", place), &expected);
}
