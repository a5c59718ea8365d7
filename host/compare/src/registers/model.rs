//! A plain model of registers: the request read a second time, over whole numbers.

use keccak_tables::bitwise::NUM_COUNTERS;
use keccak_tables::registers::{LEDGER_WORDS, MAX_REGISTERS};
use keccak_tables::{OP_WORDS, P, Parameters};

use crate::charge::sent;
use crate::inputs::Words;
use crate::list_calls::of_list;
use crate::looked_up::refusals::short;
use crate::{by_floor, by_rounds};

/// A list with its parameters, what it adds to each counter that it charges, and of each kind in all.
pub struct Charge {
    pub what: String,
    pub with: Parameters,
    pub ops: Vec<u64>,
    added: Vec<(usize, u64)>,
    pub sums: [u64; LEDGER_WORDS],
}

impl Charge {
    /// Without operations in either mode, one with drawn rounds, three with a drawn floor; and some that are refused, by 8, 9, 2, 4 and 7.
    pub fn some(words: &mut Words) -> Vec<Self> {
        let today = Parameters::default();
        let (one, three) = (words.operations(1), words.operations(3));
        let (rounds, floor) = (words.rounds(), by_floor::FLOORS[words.below(6) as usize]);
        let mut high = three.clone();
        high[OP_WORDS + 1] = u64::MAX;
        let mut off = three.clone();
        off[1] = words.unaligned_address();
        vec![
            Self::new(today, &[]),
            Self::new(today.shipped(), &[]),
            Self::new(today.rounds(rounds), &one),
            Self::new(today.shipped().rounds(rounds).floor(floor), &three),
            Self::new(today, &three),
            Self::new(today.rounds(25), &one),
            Self::new(today.floor(words.refused_floor()), &one),
            Self::new(today, &three[1..]),
            Self::new(today, &high),
            Self::new(today, &off),
        ]
    }

    fn new(with: Parameters, ops: &[u64]) -> Self {
        let taken = refusal_of(with).or_else(|| of_list(ops, &[])).is_none();
        let counts = if taken { sent(with, ops) } else { vec![] };
        let mut sums = [0; LEDGER_WORDS];
        for (place, count) in counts.iter().enumerate() {
            sums[place % 10] += count;
        }
        let charged = counts.into_iter().enumerate().filter(|(_, count)| *count > 0);
        Self {
            what: format!("{} words of operations, {with:?}", ops.len()),
            with,
            ops: ops.to_vec(),
            added: charged.collect(),
            sums,
        }
    }

    /// What it adds to every counter.
    pub fn counts(&self) -> Vec<u64> {
        let mut counts = vec![0; NUM_COUNTERS];
        for &(place, count) in &self.added {
            counts[place] = count;
        }
        counts
    }
}

/// What stands in the lent words.
#[derive(Clone)]
pub struct Model {
    pub counters: Vec<u64>,
    pub ledgers: Vec<u64>,
}

impl Model {
    pub fn new(counters: Vec<u64>, ledgers: Vec<u64>) -> Self {
        Self { counters, ledgers }
    }

    /// A register's ledger; what there is of one that is not in use.
    pub fn ledger(&self, register: u64) -> &[u64] {
        let start = usize::try_from(register).map_or(usize::MAX, |register| register.saturating_mul(10));
        let words = self.ledgers.get(start..).unwrap_or(&[]);
        &words[..words.len().min(10)]
    }

    /// What a call is refused by: the parameters, the register, the list and the slices, a counter, a word of the register's own ledger.
    pub fn refusal(&self, register: Option<u64>, charge: &Charge) -> Option<(u64, u64)> {
        let used = (self.ledgers.len() / 10).min(MAX_REGISTERS) as u64;
        let unused = register.filter(|&register| register >= used);
        refusal_of(charge.with)
            .or(unused.map(|register| (10, register)))
            .or_else(|| of_list(&charge.ops, &[short(self.counters.len(), NUM_COUNTERS)]))
            .or_else(|| first_large(&self.counters[..NUM_COUNTERS], 0))
            .or_else(|| first_large(self.ledger(register?), register? * 10))
    }

    /// What an accepted call leaves, and else nothing new.
    pub fn charge(&mut self, register: Option<u64>, charge: &Charge) {
        if self.refusal(register, charge).is_some() {
            return;
        }
        for &(place, count) in &charge.added {
            add(&mut self.counters[place], count);
        }
        if let Some(register) = register {
            let ledger = self
                .ledgers
                .chunks_mut(10)
                .nth(register as usize)
                .expect("a ledger in use");
            for (word, sum) in ledger.iter_mut().zip(charge.sums) {
                add(word, sum);
            }
        }
    }
}

fn refusal_of(with: Parameters) -> Option<(u64, u64)> {
    by_rounds::refusal(with.rounds).or(by_floor::refusal(with.floor))
}

/// 5 for the first of these words that is p or more, which stand from a place on.
fn first_large(words: &[u64], from: u64) -> Option<(u64, u64)> {
    let place = words.iter().position(|&word| word >= P)?;
    Some((5, from + place as u64))
}

fn add(word: &mut u64, sum: u64) {
    *word = ((u128::from(*word) + u128::from(sum)) % u128::from(P)) as u64;
}
