//! Refusals of the two calls: registers about those in use, ledgers of every length about whole ones, words that are no elements in the own and
//! in another ledger; with these drawn, what a charge without a register refuses. Every lent word is as it was.

use keccak_tables::bitwise::NUM_COUNTERS;
use keccak_tables::registers::{self, REGISTER_LOOK_WORDS};
use keccak_tables::{MAX_OPS, OP_WORDS, P, Parameters};

use super::LENGTHS;
use crate::comparison::Comparison;
use crate::inputs::Words;
use crate::lent::Lent;
use crate::list_calls::{PUT, list_with, of_list};
use crate::looked_up::refusals::{SPOILT_COUNTERS, Spoilt, first_not_element, not_element, short, spoiling};
use crate::refusals::first;
use crate::untouched::Untouched;
use crate::{by_floor, by_rounds};

/// The refusals of the calls of this area.
pub fn compare(comparison: &mut Comparison, words: &mut Words) {
    comparison.group("refusals: charges and looks through registers, ledgers of every length");
    let mut long = Long::new(words);
    for length in LENGTHS {
        for register in [0, 1, 14, 15, 16, 17, 1 << 60, u64::MAX] {
            for large in larges(length, register) {
                for _ in 0..3 {
                    let (n, past) = (words.below(3) as usize, [0, 0, 1, 51][words.below(4) as usize]);
                    let put = PUT[words.below(PUT.len() as u64) as usize];
                    let ops = list_with(words, n, past, put);
                    let spoilt = SPOILT_COUNTERS[words.below(7) as usize];
                    let lengths = Lengths::drawn(words, length);
                    let with = match words.below(3) {
                        0 => words.any_parameters(),
                        _ => Parameters::default(),
                    };
                    tried(comparison, &mut long, with, register, &ops, &lengths, spoilt, &large);
                }
            }
        }
    }
    accepted(comparison, words);
    too_many(comparison, &mut long);
    long.kept(comparison);
}

/// Counters that are all p - 1, ledgers that are all p - 1, a copy and thirty words, each as long as any call has them.
struct Long {
    counters: Lent,
    ledgers: Lent,
    copy: Lent,
    out: Lent,
}

impl Long {
    fn new(words: &mut Words) -> Self {
        let mut counters = vec![P - 1; NUM_COUNTERS];
        counters.push(u64::MAX);
        Self {
            counters: Lent::new(&counters, words),
            ledgers: Lent::new(&[P - 1; 170], words),
            copy: Lent::drawn(NUM_COUNTERS + 1, words),
            out: Lent::drawn(REGISTER_LOOK_WORDS + 1, words),
        }
    }

    fn kept(&self, comparison: &mut Comparison) {
        let slices = [
            ("counters", &self.counters),
            ("ledgers", &self.ledgers),
            ("copy", &self.copy),
            ("out", &self.out),
        ];
        for (what, lent) in slices {
            lent.kept(comparison, |place| format!("word {place} of {what} that is refused"));
        }
    }
}

/// The lengths of the slices of a call.
struct Lengths {
    counters: usize,
    ledgers: usize,
    copy: usize,
    out: usize,
}

impl Lengths {
    /// Each of the others is most often long enough.
    fn drawn(words: &mut Words, ledgers: usize) -> Self {
        let mut about = |end: usize| match words.below(6) {
            0 => 0,
            1 => end - 1,
            2 => end + 1,
            _ => end,
        };
        Self {
            counters: about(NUM_COUNTERS),
            ledgers,
            copy: about(NUM_COUNTERS),
            out: about(REGISTER_LOOK_WORDS),
        }
    }
}

/// What may be wrong with ledgers: nothing; the register's first word, its last, two of them; a word of each neighbour; one past the sixteenth.
fn larges(length: usize, register: u64) -> Vec<Vec<(usize, u64)>> {
    let at = usize::try_from(register).map_or(0, |register| register.min(17) * 10);
    let mut places = vec![
        vec![],
        vec![(at, P)],
        vec![(at + 9, u64::MAX), (at + 4, P + 1)],
        vec![(at + 10, P), (160, u64::MAX)],
    ];
    if at > 0 {
        places.push(vec![(at - 1, P)]);
    }
    places.retain(|places| places.iter().all(|&(place, _)| place < length.max(1)));
    places
}

/// Both calls, where they are to be refused; what is accepted is tried elsewhere.
#[allow(clippy::too_many_arguments)]
fn tried(
    comparison: &mut Comparison,
    long: &mut Long,
    with: Parameters,
    register: u64,
    ops: &[u64],
    lengths: &Lengths,
    spoilt: Spoilt,
    large: Spoilt,
) {
    let input = || {
        let Lengths {
            counters,
            ledgers,
            copy,
            out,
        } = lengths;
        format!(
            "register {register} of {ledgers} ledger words, {} words of operations on {counters} counters, {copy} of a copy, {out} words, \
             {spoilt:?}, {large:?}, {with:?}",
            ops.len()
        )
    };
    let used = (lengths.ledgers / 10).min(16) as u64;
    let own = |place: usize| place as u64 / 10 == register;
    let ledger: Vec<(usize, u64)> = large.iter().copied().filter(|&(place, _)| own(place)).collect();
    let refusal = |slices: &[(bool, u64, u64)]| {
        by_rounds::refusal(with.rounds)
            .or(by_floor::refusal(with.floor))
            .or((register >= used).then_some((10, register)))
            .or_else(|| of_list(ops, slices))
            .or_else(|| first(&[not_element(first_not_element(spoilt, NUM_COUNTERS))]))
            .or_else(|| first(&[not_element(first_not_element(&ledger, lengths.ledgers))]))
    };
    let counted = short(lengths.counters, NUM_COUNTERS);
    if let Some(expected) = refusal(&[counted]) {
        let Long { counters, ledgers, .. } = &mut *long;
        let answer = spoiling(counters, spoilt, |counters| {
            spoiling(ledgers, large, |ledgers| {
                let (counters, ledgers) = (&mut counters[..lengths.counters], &mut ledgers[..lengths.ledgers]);
                registers::charge_with(with, register, ops, counters, ledgers)
            })
        });
        comparison.answered("register_charge", input, answer, Some(expected));
    }
    let slices = [
        counted,
        short(lengths.copy, NUM_COUNTERS),
        short(lengths.out, REGISTER_LOOK_WORDS),
    ];
    if let Some(expected) = refusal(&slices) {
        let Long {
            counters,
            ledgers,
            copy,
            out,
        } = long;
        let answer = spoiling(counters, spoilt, |counters| {
            spoiling(ledgers, large, |ledgers| {
                let (counters, ledgers) = (&counters[..lengths.counters], &ledgers[..lengths.ledgers]);
                let (copy, out) = (&mut copy.slice()[..lengths.copy], &mut out.slice()[..lengths.out]);
                registers::look_with(with, register, ops, counters, ledgers, copy, out)
            })
        });
        comparison.answered("register_look", input, answer, Some(expected));
    }
}

/// Slices just long enough, with words that are no elements in every other ledger and past the sixteenth. What is written is compared elsewhere.
fn accepted(comparison: &mut Comparison, words: &mut Words) {
    let ops = words.operations(1);
    for register in [0, 7, 15] {
        let mut counters = vec![P - 1; NUM_COUNTERS];
        let mut ledgers = [u64::MAX; 170];
        ledgers[10 * register..10 * register + 10].fill(P - 1);
        let (mut copy, mut out) = (vec![0; NUM_COUNTERS], [0; REGISTER_LOOK_WORDS]);
        let answer = registers::look(register as u64, &ops, &counters, &ledgers, &mut copy, &mut out);
        comparison.answered("register_look", || "a look that is accepted".into(), answer, None);
        let answer = registers::charge(register as u64, &ops, &mut counters, &mut ledgers);
        comparison.answered("register_charge", || "a charge that is accepted".into(), answer, None);
        let kept = ledgers.iter().filter(|&&word| word == u64::MAX).count() as u64;
        comparison.equal(|_| "the words of the other ledgers".into(), &[kept], &[160]);
        let own = &ledgers[10 * register..10 * register + 10];
        comparison.equal(|_| "the register's own ledger".into(), own, &out[20..]);
    }
}

/// A list that is too long, whole or not, through a register that is in use and one that is not: nothing of it is read.
fn too_many(comparison: &mut Comparison, long: &mut Long) {
    let Some(untouched) = Untouched::operations(MAX_OPS + 2) else {
        return;
    };
    for past in [0, 1] {
        let ops = &untouched.words()[..(MAX_OPS + 1) * OP_WORDS + past];
        for register in [0, 15, 16] {
            let lengths = Lengths {
                counters: NUM_COUNTERS - 1,
                ledgers: 170,
                copy: 0,
                out: 0,
            };
            let large = [(10 * register.min(15) as usize, P)];
            tried(
                comparison,
                long,
                Parameters::default(),
                register,
                ops,
                &lengths,
                SPOILT_COUNTERS[1],
                &large,
            );
        }
    }
}
