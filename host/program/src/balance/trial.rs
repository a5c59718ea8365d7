//! The bounds on how many pairs of challenges pass (`few-pass`, `most-pass`), tried on lists of a few tuples: over the field of 31
//! elements every pair is tried.

use std::collections::HashSet;

use super::super::field::Field;
use super::{Challenges, Fractions};
use keccak_tables::Side;

const PRIME: u64 = 31;

/// A number mod 31.
#[derive(Debug, Clone, Copy, PartialEq, Eq)]
struct Small(u64);

impl Field for Small {
    const NONE: Self = Self(0);
    const ONE: Self = Self(1);

    fn number(word: u64) -> Self {
        Self(word % PRIME)
    }

    fn plus(self, other: Self) -> Self {
        Self((self.0 + other.0) % PRIME)
    }

    fn minus(self, other: Self) -> Self {
        Self((self.0 + PRIME - other.0) % PRIME)
    }

    fn times(self, other: Self) -> Self {
        Self(self.0 * other.0 % PRIME)
    }

    fn times_number(self, word: u64) -> Self {
        Self(self.0 * (word % PRIME) % PRIME)
    }

    fn inverse(self) -> Self {
        (1..PRIME)
            .map(Self)
            .find(|&other| self.times(other) == Self::ONE)
            .expect("it is not 0")
    }
}

/// A tuple as a prover sees it: side, multiplicity, and words, the first of which is the bus. Bus 1 has two values, bus 2 one.
type Entry = (Side, u64, Vec<u64>);

/// The most values of a tuple.
const K: u64 = 2;

/// A fingerprint at α.
type Fingerprint = fn(Small, &[u64]) -> Small;

/// c0 + c1 x + c2 x² + ..
fn eval(words: &[u64], x: Small) -> Small {
    match words {
        [] => Small::NONE,
        [first, rest @ ..] => Small::number(*first).plus(x.times(eval(rest, x))),
    }
}

fn fingerprint(alpha: Small, words: &[u64]) -> Small {
    eval(words, alpha)
}

fn denominator(z: Small, fractions: &[(Small, Small)]) -> Small {
    fractions
        .iter()
        .fold(Small::ONE, |product, &(_, below)| product.times(z.minus(below)))
}

/// The sum of the fractions with the denominators multiplied out, which has a value at every z.
fn numerator(z: Small, fractions: &[(Small, Small)]) -> Small {
    match fractions {
        [] => Small::NONE,
        [(above, below), rest @ ..] => above
            .times(denominator(z, rest))
            .plus(z.minus(*below).times(numerator(z, rest))),
    }
}

/// Whether a list passes at α and z.
fn passes(entries: &[Entry], [alpha, z]: [Small; 2], fingerprint: Fingerprint) -> bool {
    let fraction = |(side, multiplicity, words): &Entry| {
        let number = Small::number(*multiplicity);
        let above = match side {
            Side::Sender => number,
            Side::Receiver => Small::NONE.minus(number),
        };
        (above, fingerprint(alpha, words))
    };
    let fractions: Vec<(Small, Small)> = entries.iter().map(fraction).collect();
    numerator(z, &fractions) == Small::NONE
}

fn pairs() -> impl Iterator<Item = [Small; 2]> {
    (0..PRIME * PRIME).map(|at| [Small(at / PRIME), Small(at % PRIME)])
}

/// How many pairs pass.
fn passing(entries: &[Entry], fingerprint: Fingerprint) -> u64 {
    pairs().filter(|&pair| passes(entries, pair, fingerprint)).count() as u64
}

/// Whether every tuple is as often sent as received, mod 31.
fn agree(entries: &[Entry]) -> bool {
    let total = |side: Side, words: &[u64]| -> u64 {
        let same = entries
            .iter()
            .filter(|entry| entry.0 == side && entry.2.as_slice() == words);
        same.map(|entry| entry.1).sum::<u64>() % PRIME
    };
    entries
        .iter()
        .all(|(_, _, words)| total(Side::Sender, words) == total(Side::Receiver, words))
}

/// The least and the most pairs that may pass of a list whose sums agree, or don't.
fn bounds(entries: &[Entry]) -> (u64, u64) {
    let (n, all) = (entries.len() as u64, PRIME * PRIME);
    match agree(entries) {
        true => (all - PRIME * n, all),
        false => (0, n * K * PRIME + PRIME * n),
    }
}

/// Words by a rule: those of a linear congruence, their upper half.
fn drawn(state: &mut u64, below: u64) -> u64 {
    *state = state
        .wrapping_mul(6_364_136_223_846_793_005)
        .wrapping_add(1_442_695_040_888_963_407);
    (*state >> 33) % below
}

fn drawn_words(state: &mut u64) -> Vec<u64> {
    let bus = 1 + drawn(state, 2);
    let values = (bus..3).map(|_| drawn(state, PRIME));
    [bus].into_iter().chain(values).collect()
}

/// Up to five tuples: some are drawn, some are sent and received, once or in two parts, which may add up to 31.
fn drawn_list(state: &mut u64) -> Vec<Entry> {
    let (mut list, count) = (Vec::new(), 1 + drawn(state, 5) as usize);
    while list.len() < count {
        let (words, many) = (drawn_words(state), 1 + drawn(state, PRIME - 1));
        match drawn(state, 4) {
            0 => list.push((Side::Sender, many, words)),
            1 => list.extend([(Side::Sender, many, words.clone()), (Side::Receiver, many, words)]),
            2 => list.extend([
                (Side::Receiver, many, words.clone()),
                (Side::Receiver, PRIME - many, words),
            ]),
            _ => list.extend([
                (Side::Receiver, many, words.clone()),
                (Side::Sender, 1, words.clone()),
                (Side::Sender, many - 1, words),
            ]),
        }
    }
    list
}

/// As many pairs pass as the two statements allow; both kinds of lists are among those that are tried, and of both some that come near.
#[test]
fn pairs_that_pass_are_within_the_bounds() {
    let (mut state, mut kinds) = (7, [0, 0]);
    for _ in 0..400 {
        let list = drawn_list(&mut state);
        let (found, (least, most)) = (passing(&list, fingerprint), bounds(&list));
        assert!(
            (least..=most).contains(&found),
            "{found} of {least} to {most}: {list:?}"
        );
        kinds[usize::from(agree(&list))] += 1;
    }
    assert!(kinds.iter().all(|&kind| kind > 50), "{kinds:?}");
}

/// The sum of quotients, as the command adds it up, is 0 exactly where a pair passes, wherever all quotients are there.
#[test]
fn the_sum_of_quotients_is_the_check() {
    let (mut state, mut tried) = (11, HashSet::new());
    for _ in 0..20 {
        let list = drawn_list(&mut state);
        for [alpha, z] in pairs() {
            let mut fractions = Fractions::new(Challenges::new(alpha, z));
            for (side, many, words) in &list {
                fractions.fraction(*side, *many, words[0], &words[1..]);
            }
            let meets = list.iter().any(|entry| fingerprint(alpha, &entry.2) == z);
            let sum = fractions.sum();
            assert_eq!(sum.is_none(), meets);
            if let Some(sum) = sum {
                let holds = passes(&list, [alpha, z], fingerprint);
                assert_eq!(sum == Small::NONE, holds, "{alpha:?} {z:?}: {list:?}");
                tried.insert(holds);
            }
        }
    }
    assert_eq!(tried.len(), 2);
}

/// Definitions that are wrong: where tuples of two buses, or of two widths, have one fingerprint at every α, all pairs pass, far more than the
/// bound allows of lists whose sums differ.
#[test]
fn a_wrong_fingerprint_lets_every_pair_pass() {
    let list = |one: &[u64], other: &[u64]| [(Side::Sender, 1, one.to_vec()), (Side::Receiver, 1, other.to_vec())];
    let without_bus: Fingerprint = |alpha, words| eval(&words[1..], alpha);
    let first_without_alpha: Fingerprint = |alpha, words| Small::number(words[0]).plus(eval(&words[1..], alpha));
    for (list, wrong) in [
        (list(&[1, 3, 0], &[2, 3]), without_bus),
        (list(&[1, 3, 0], &[2, 2]), first_without_alpha),
    ] {
        let (_, most) = bounds(&list);
        assert!(!agree(&list) && most < PRIME * PRIME);
        assert!(passing(&list, fingerprint) <= most, "{list:?}");
        assert_eq!(passing(&list, wrong), PRIME * PRIME, "{list:?}");
    }
    // On one bus all tuples have one width: a zero at the end is not seen.
    let widths = list(&[1, 3], &[1, 3, 0]);
    assert!(!agree(&widths) && passing(&widths, fingerprint) == PRIME * PRIME);
}

/// What is received counts negatively: counted as sent, a tuple that is sent and received would pass at few pairs.
#[test]
fn received_counts_negatively() {
    let (sent, words) = ((Side::Sender, 3, vec![2, 5]), vec![2, 5]);
    let right = [sent.clone(), (Side::Receiver, 3, words)];
    let (least, _) = bounds(&right);
    assert!(passing(&right, fingerprint) >= least);
    assert!(passing(&[sent.clone(), sent], fingerprint) < least);
}
