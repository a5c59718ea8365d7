//! What a prover adds up: for each tuple a fraction, its multiplicity over z less its fingerprint, received ones counted negatively.

use super::field::{Cubic, Field};
use super::sums::is_outside;
use super::tables::{Adder, Place};
use keccak_tables::message::Digest;
use keccak_tables::{BusInteraction, P, Side, keccak_rnd};

/// How many denominators are inverted at once.
const BATCH: usize = 512;

/// Two challenges, and the powers of the first: 1, α, α² .. as far as the longest tuple needs.
#[derive(Debug, Clone)]
pub struct Challenges<F> {
    /// α.
    pub alpha: F,
    /// z.
    pub z: F,
    powers: Vec<F>,
}

impl<F: Field> Challenges<F> {
    /// The challenges α and z.
    pub fn new(alpha: F, z: F) -> Self {
        let powers = std::iter::successors(Some(F::ONE), |power| Some(power.times(alpha)));
        Self {
            alpha,
            z,
            powers: powers.take(1 + keccak_rnd::MAX_TUPLE_LENGTH).collect(),
        }
    }

    /// w0 + α w1 + α² w2 + .. of a tuple's words, the first of which is its bus.
    pub fn fingerprint(&self, bus: u64, values: &[u64]) -> F {
        let terms = self.powers[1..].iter().zip(values);
        terms.fold(F::number(bus), |sum, (power, &value)| {
            sum.plus(power.times_number(value))
        })
    }
}

impl Challenges<Cubic> {
    /// Challenges drawn from a seed: the words of SHA3-256 of a text with the seed and a count, in order, those that are not below p left
    /// out. A prover draws them likewise, from all that it has committed to before.
    #[must_use]
    pub fn drawn(seed: u64) -> Self {
        let words = (0..).flat_map(|count| {
            let text = format!("keccak-tables balance {seed} {count}");
            let digest = Digest::new(text.as_bytes(), 0, 0).expect("a short text").bytes();
            let (words, _) = digest.as_chunks();
            let words: Vec<u64> = words.iter().map(|&word| u64::from_le_bytes(word)).collect();
            words
        });
        let mut words = words.filter(|&word| word < P);
        let mut element = || Cubic(std::array::from_fn(|_| words.next().expect("there is no end")));
        let alpha = element();
        Self::new(alpha, element())
    }
}

/// A fraction whose denominator is not inverted yet.
struct Waiting<F> {
    side: Side,
    above: u64,
    below: F,
}

/// The sum of the fractions at two challenges.
pub struct Fractions<F> {
    challenges: Challenges<F>,
    waiting: Vec<Waiting<F>>,
    sum: F,
    met: bool,
    /// How many fractions there are of these tables.
    pub count: u64,
    /// How many were added as those of tables outside.
    pub mirrored: u64,
}

impl<F: Field> Fractions<F> {
    /// No fraction yet.
    pub fn new(challenges: Challenges<F>) -> Self {
        Self {
            challenges,
            waiting: Vec::with_capacity(BATCH),
            sum: F::NONE,
            met: false,
            count: 0,
            mirrored: 0,
        }
    }

    /// One fraction more.
    pub fn fraction(&mut self, side: Side, above: u64, bus: u64, values: &[u64]) {
        let below = self.challenges.z.minus(self.challenges.fingerprint(bus, values));
        if below == F::NONE {
            self.met = true;
            return;
        }
        self.waiting.push(Waiting { side, above, below });
        if self.waiting.len() >= BATCH {
            self.invert();
        }
    }

    /// Adds the waiting fractions, with one inversion for all: of the product of the denominators, from which those of each come one by one.
    fn invert(&mut self) {
        let before: Vec<F> = self
            .waiting
            .iter()
            .scan(F::ONE, |product, fraction| {
                let before = *product;
                *product = before.times(fraction.below);
                Some(before)
            })
            .collect();
        let (Some(last), Some(product)) = (self.waiting.last(), before.last()) else {
            return;
        };
        let mut inverse = product.times(last.below).inverse();
        for (fraction, before) in self.waiting.drain(..).zip(before).rev() {
            let quotient = inverse.times(before).times_number(fraction.above);
            self.sum = match fraction.side {
                Side::Sender => self.sum.plus(quotient),
                Side::Receiver => self.sum.minus(quotient),
            };
            inverse = inverse.times(fraction.below);
        }
    }

    /// The sum, where z is no tuple's fingerprint: there a fraction has no value.
    pub fn sum(mut self) -> Option<F> {
        self.invert();
        (!self.met).then_some(self.sum)
    }
}

impl<F: Field> Adder for Fractions<F> {
    /// What ends in a table outside is added a second time, as that table's.
    fn add(&mut self, _: Place, tuple: BusInteraction, values: &[u64]) {
        self.fraction(tuple.side, tuple.multiplicity, tuple.bus.number(), values);
        self.count += 1;
        if is_outside(tuple.bus) {
            let other = match tuple.side {
                Side::Sender => Side::Receiver,
                Side::Receiver => Side::Sender,
            };
            self.fraction(other, tuple.multiplicity, tuple.bus.number(), values);
            self.mirrored += 1;
        }
    }

    fn join(&mut self, mut other: Self) {
        other.invert();
        self.sum = self.sum.plus(other.sum);
        self.met |= other.met;
        self.count += other.count;
        self.mirrored += other.mirrored;
    }
}

#[cfg(test)]
#[path = "trial.rs"]
mod trial;
