//! Charges of several registers to one table of counters: drawn histories against a plain model, call by call, and what the requests says of a
//! whole history; and refusals.

mod model;
pub mod refusals;

use keccak_tables::bitwise::NUM_COUNTERS;
use keccak_tables::registers::{self, LEDGER_WORDS, REGISTER_LOOK_WORDS, RegisterLook};
use keccak_tables::segment;

use crate::charge::look_words;
use crate::comparison::Comparison;
use crate::inputs::Words;
use crate::lent::Lent;
use crate::looked_up::{at_counter, counters};
use model::{Charge, Model};

/// The lengths of ledgers with which every run begins: none, a word less than one, one, a word less than 16, 16, a word more, and 17.
pub const LENGTHS: [usize; 7] = [0, 9, 10, 159, 160, 161, 170];

/// How many calls a history has.
const CALLS: usize = 12;

/// A call: through a register or through none.
#[derive(Clone, Copy)]
struct Call<'a> {
    register: Option<u64>,
    charge: &'a Charge,
}

/// The whole area: a history with ledgers of each of the lengths, and `n` / 50 of drawn lengths, each with another history in which one of its
/// registers makes the same calls; and refusals.
pub fn compare(comparison: &mut Comparison, seed: u64, n: usize) {
    let mut words = Words::new(seed);
    comparison.group("histories of up to 16 registers, and others in which one of them makes the same calls");
    for i in 0..LENGTHS.len() + n.div_ceil(50) {
        let drawn = 10 * (1 + words.below(17)) as usize + words.below(10) as usize;
        let length = LENGTHS.get(i).copied().unwrap_or(drawn);
        history(comparison, &mut words, length, i % 2 == 0);
    }
    refusals::compare(comparison, &mut words);
}

/// A history from zero, through registers alone, or from drawn counters and ledgers, with charges through none among them.
fn history(comparison: &mut Comparison, words: &mut Words, length: usize, from_zero: bool) {
    let charges = Charge::some(words);
    let start = match from_zero {
        true => Model::new(vec![0; NUM_COUNTERS], vec![0; length]),
        false => Model::new(counters(words), ledgers(words, length)),
    };
    let mut drawn = || {
        let none = !from_zero && words.below(5) == 0;
        Call {
            register: (!none).then(|| register(words, length)),
            charge: &charges[words.below(charges.len() as u64) as usize],
        }
    };
    let calls: Vec<Call> = (0..CALLS).map(|_| drawn()).collect();
    let chosen = calls[0].register.unwrap_or(0);
    // The chosen register's calls in their order, and among them others, more or fewer than there were.
    let mut others = Vec::new();
    for call in calls.iter().filter(|call| call.register == Some(chosen)) {
        let between: Vec<Call> = (0..3).map(|_| drawn()).collect();
        others.extend(between.into_iter().filter(|call| call.register != Some(chosen)));
        others.push(*call);
    }
    let (end, answers) = run(comparison, words, &start, &calls, true);
    if from_zero {
        adds_up(comparison, &end);
    }
    let (again, same) = run(comparison, words, &start, &others, false);
    let input = |_| format!("register {chosen} of {length} ledger words, with other calls of the others");
    comparison.equal(input, &told(&others, &same, chosen), &told(&calls, &answers, chosen));
    comparison.equal(input, again.ledger(chosen), end.ledger(chosen));
}

/// A register's number: most are in use or next to that, some are far from it.
fn register(words: &mut Words, length: usize) -> u64 {
    let far = [15, 16, 17, 1 << 32, (1 << 60) + 1, u64::MAX];
    match words.below(8) {
        0 => far[words.below(6) as usize],
        1 => length as u64 / 10,
        _ => words.below((length as u64 / 10).clamp(1, 16)),
    }
}

/// Drawn ledgers, many of their words just below p; now and then a word that is no element, in whosever ledger.
fn ledgers(words: &mut Words, length: usize) -> Vec<u64> {
    let word = |words: &mut Words| match words.below(24) {
        0 => u64::MAX - words.below(1 << 32),
        1..12 => keccak_tables::P - 1 - words.below(20_000),
        _ => words.element(),
    };
    (0..length).map(|_| word(words)).collect()
}

/// Runs the calls, each after its look, and compares what each answers and leaves with the model. Answers the end and the answers.
fn run(
    comparison: &mut Comparison,
    words: &mut Words,
    start: &Model,
    calls: &[Call],
    with_looks: bool,
) -> (Model, Vec<[u64; 2]>) {
    let mut model = start.clone();
    let mut counters = Lent::new(&start.counters, words);
    let mut ledgers = Lent::new(&start.ledgers, words);
    let mut answers = Vec::new();
    for (place, &Call { register, charge }) in calls.iter().enumerate() {
        let what = format!(
            "call {place}, register {register:?} of {} ledger words, {}",
            start.ledgers.len(),
            charge.what
        );
        if let Some(register) = register.filter(|_| with_looks && place % 3 == 0) {
            look(comparison, words, &model, register, charge, &what);
        }
        let expected = model.refusal(register, charge);
        let (with, ops) = (charge.with, &charge.ops[..]);
        let answer = match register {
            Some(register) => registers::charge_with(with, register, ops, counters.slice(), ledgers.slice()),
            None => segment::charge_with(with, ops, counters.slice()),
        };
        let name = if register.is_some() {
            "register_charge"
        } else {
            "charge"
        };
        comparison.answered(name, || what.clone(), answer, expected);
        answers.push(expected.map_or([0, 0], |(number, detail)| [number, detail]));
        model.charge(register, charge);
        counters.holds(comparison, |place| at_counter(&what, place), &model.counters);
        ledgers.holds(
            comparison,
            |place| format!("ledger word {place}, {what}"),
            &model.ledgers,
        );
    }
    (model, answers)
}

/// The look at a charge: what it leaves in its copy and in its words, and that nothing else changes.
fn look(comparison: &mut Comparison, words: &mut Words, model: &Model, register: u64, charge: &Charge, what: &str) {
    let (expected, mut after) = (model.refusal(Some(register), charge), model.clone());
    after.charge(Some(register), charge);
    let mut counters = Lent::new(&model.counters, words);
    let mut ledgers = Lent::new(&model.ledgers, words);
    let mut copy = Lent::drawn(NUM_COUNTERS + words.below(2) as usize, words);
    let mut out = Lent::drawn(REGISTER_LOOK_WORDS + words.below(3) as usize, words);
    let (with, ops) = (charge.with, &charge.ops[..]);
    let answer = registers::look_with(
        with,
        register,
        ops,
        counters.slice(),
        ledgers.slice(),
        copy.slice(),
        out.slice(),
    );
    comparison.answered("register_look", || format!("a look, {what}"), answer, expected);
    let (shown, seen) = match expected {
        Some(_) => (vec![], vec![]),
        None => {
            let counts = charge.counts();
            let words = [&look_words(&counts, &after.counters)[..], after.ledger(register)].concat();
            (after.counters, words)
        }
    };
    copy.holds(
        comparison,
        |place| at_counter(&format!("the copy, {what}"), place),
        &shown,
    );
    out.holds(comparison, |place| format!("word {place} of a look, {what}"), &seen);
    counters.kept(comparison, |place| at_counter(&format!("a look, {what}"), place));
    ledgers.kept(comparison, |place| format!("ledger word {place} of a look, {what}"));
    if let Ok(look) = RegisterLook::with(with, register, ops, &model.counters, &model.ledgers) {
        comparison.equal(
            |place| format!("word {place} of a look of its own"),
            look.ledger(),
            &seen[20..],
        );
        comparison.equal(
            |place| at_counter("a look of its own", place),
            look.look().counters(),
            &shown,
        );
    }
}

/// Each kind's counters and its sums over the ledgers in use, as whole numbers.
fn adds_up(comparison: &mut Comparison, end: &Model) {
    let used = registers::in_use(end.ledgers.len()) * LEDGER_WORDS;
    for kind in 0..LEDGER_WORDS {
        let of_kind =
            |words: &[u64]| -> u128 { words.iter().skip(kind).step_by(10).map(|&word| u128::from(word)).sum() };
        let (ours, theirs) = (of_kind(&end.counters), of_kind(&end.ledgers[..used]));
        let halves = |sum: u128| [(sum >> 64) as u64, sum as u64];
        comparison.equal(
            |_| format!("what kind {kind} adds up to"),
            &halves(ours),
            &halves(theirs),
        );
    }
}

/// The answers to a register, one after the other.
fn told(calls: &[Call], answers: &[[u64; 2]], register: u64) -> Vec<u64> {
    let own = calls.iter().zip(answers);
    let own = own.filter(|(call, _)| call.register == Some(register));
    own.flat_map(|(_, answer)| *answer).collect()
}

#[cfg(test)]
mod tests {
    use keccak_tables::Parameters;

    use super::*;

    #[test]
    fn registers_are_drawn_in_use_and_not() {
        let mut words = Words::new(3);
        for length in LENGTHS {
            let drawn: Vec<u64> = (0..500).map(|_| register(&mut words, length)).collect();
            let used = registers::in_use(length) as u64;
            assert!(drawn.contains(&u64::MAX) && drawn.contains(&16) && drawn.iter().any(|&register| register >= used));
            assert!((0..used).all(|register| drawn.contains(&register)), "{length} words");
        }
    }

    #[test]
    fn a_charge_is_a_sum_of_what_is_sent() {
        let charges = Charge::some(&mut Words::new(5));
        assert!(
            charges
                .iter()
                .all(|charge| charge.with != Parameters::default() || charge.counts().len() == NUM_COUNTERS)
        );
        assert!(
            charges
                .iter()
                .any(|charge| charge.sums[3] == 880 && charge.ops.is_empty())
        );
    }
}
