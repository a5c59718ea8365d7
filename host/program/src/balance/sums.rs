//! How often each tuple is sent and received, over a hash map for each bus.

use std::collections::HashMap;

use super::field::plus;
use super::tables::{Adder, Place};
use keccak_tables::{Bus, BusInteraction, Side};

/// How often a tuple is sent and how often received, mod p, and where it stands first.
#[derive(Debug, Clone, Copy, PartialEq, Eq)]
pub struct Sum {
    /// Sent, mod p.
    pub sent: u64,
    /// Received, mod p.
    pub received: u64,
    /// Its first place.
    pub first: Place,
}

impl Sum {
    /// As often sent as received, mod p.
    #[must_use]
    pub const fn agrees(&self) -> bool {
        self.sent == self.received
    }

    /// No sum yet of what stands there.
    const fn none(&self) -> Self {
        Self {
            sent: 0,
            received: 0,
            first: self.first,
        }
    }

    fn join(&mut self, other: &Self) {
        self.sent = plus(self.sent, other.sent);
        self.received = plus(self.received, other.received);
        self.first = self.first.min(other.first);
    }
}

/// The tuples of one bus, by their values.
#[derive(Debug, Default)]
pub struct OfBus {
    /// How many multiplicities are sent in all, as a whole number.
    pub sent: u128,
    /// How many are received in all.
    pub received: u128,
    // Nearly all tuples are a few bytes, of which a map is much quicker that has them in a word.
    short: HashMap<u64, Sum>,
    long: HashMap<Box<[u64]>, Sum>,
}

/// A word for at most four values below 2^15: each has 15 bits, and their number those above.
fn packed(values: &[u64]) -> Option<u64> {
    let fits = values.len() <= 4 && values.iter().all(|&value| value < 1 << 15);
    let pack = |key, &value| key << 15 | value;
    fits.then(|| values.iter().fold(values.len() as u64, pack))
}

/// The values of such a word.
fn unpacked(key: u64) -> Vec<u64> {
    let count = (0..4).find(|count| key >> (15 * count) == *count).unwrap_or(4);
    (0..count).rev().map(|at| key >> (15 * at) & 0x7FFF).collect()
}

impl OfBus {
    /// How many tuples there are, equal ones once.
    #[must_use]
    pub fn tuples(&self) -> usize {
        self.short.len() + self.long.len()
    }

    /// How many of them are not as often sent as received.
    #[must_use]
    pub fn differ(&self) -> usize {
        let sums = self.short.values().chain(self.long.values());
        sums.filter(|sum| !sum.agrees()).count()
    }

    /// The values and sums of the tuple that stands first of those that are not.
    fn first(&self) -> Option<(Vec<u64>, Sum)> {
        let short = self.short.iter().filter(|(_, sum)| !sum.agrees());
        let long = self.long.iter().filter(|(_, sum)| !sum.agrees());
        let short = short.map(|(&key, sum)| (unpacked(key), *sum));
        let both = short.chain(long.map(|(values, sum)| (values.to_vec(), *sum)));
        both.min_by_key(|(_, sum)| sum.first)
    }

    fn add(&mut self, values: &[u64], sum: Sum) {
        let before = match packed(values) {
            Some(key) => Some(self.short.entry(key).or_insert(sum.none())),
            None => self.long.get_mut(values),
        };
        match before {
            Some(before) => before.join(&sum),
            None => drop(self.long.insert(values.into(), sum)),
        }
    }

    fn join(&mut self, other: Self) {
        self.sent += other.sent;
        self.received += other.received;
        for (key, sum) in other.short {
            self.short.entry(key).or_insert(sum.none()).join(&sum);
        }
        for (values, sum) in other.long {
            self.long.entry(values).or_insert(sum.none()).join(&sum);
        }
    }
}

/// All sums.
#[derive(Debug, Default)]
pub struct Sums {
    buses: [OfBus; Bus::ALL.len()],
}

impl Sums {
    /// The sums of a bus.
    #[must_use]
    pub fn of(&self, bus: Bus) -> &OfBus {
        &self.buses[bus.number() as usize]
    }

    /// The tuple that stands first of those whose sums do not agree: its bus, values and sums. Buses that end in tables outside have no part.
    #[must_use]
    pub fn first(&self) -> Option<(Bus, Vec<u64>, Sum)> {
        let within = Bus::ALL.into_iter().filter(|&bus| !is_outside(bus));
        within
            .filter_map(|bus| self.of(bus).first().map(|(values, sum)| (bus, values, sum)))
            .min_by_key(|(_, _, sum)| sum.first)
    }
}

/// Whether the other end of a bus is in tables outside.
#[must_use]
pub fn is_outside(bus: Bus) -> bool {
    [Bus::Memw, Bus::Ecall].contains(&bus)
}

impl Adder for Sums {
    fn add(&mut self, first: Place, tuple: BusInteraction, values: &[u64]) {
        let bus = &mut self.buses[tuple.bus.number() as usize];
        let (sent, received) = match tuple.side {
            Side::Sender => (tuple.multiplicity, 0),
            Side::Receiver => (0, tuple.multiplicity),
        };
        bus.sent += u128::from(sent);
        bus.received += u128::from(received);
        bus.add(values, Sum { sent, received, first });
    }

    fn join(&mut self, other: Self) {
        for (bus, more) in self.buses.iter_mut().zip(other.buses) {
            bus.join(more);
        }
    }
}

#[cfg(test)]
mod tests {
    use super::*;

    #[test]
    fn short_tuples_are_words() {
        for values in [
            &[][..],
            &[0],
            &[0, 0],
            &[1],
            &[32_767],
            &[2, 255, 254, 1],
            &[0, 0, 0, 0],
            &[32_767, 0, 4, 32_767],
            &[0, 3, 4],
        ] {
            assert_eq!(packed(values).map(unpacked).as_deref(), Some(values));
        }
        assert_eq!((packed(&[1 << 15]), packed(&[0; 5])), (None, None));
    }
}
