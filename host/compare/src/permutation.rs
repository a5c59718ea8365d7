//! The permutation of a state by itself: by every number of rounds against plain lanes, and by 24 against what the published round table sends
//! and against a plain `Keccak-f[1600]`.

use keccak_tables::permutation::{self, LANES};
use keccak_tables::{Operation, Parameters};
use oracle::sample;

use crate::by_rounds;
use crate::comparison::Comparison;
use crate::inputs::{Words, states};
use crate::lent::Lent;
use crate::plain_sha3;
use crate::refusals::first;
use crate::refused::on_slice;

/// The whole area; `n` states are drawn for each number of rounds.
pub fn compare(comparison: &mut Comparison, seed: u64, n: usize) {
    let mut words = Words::new(seed);
    comparison.group("states of every number of rounds, by plain lanes");
    for nr in 1..=by_rounds::ALL {
        let drawn: Vec<[u64; LANES]> = (0..n).map(|_| std::array::from_fn(|_| words.lane())).collect();
        for state in states().into_iter().chain(drawn) {
            permuted(comparison, &mut words, nr, &state, &by_rounds::keccak_p(nr, &state));
        }
    }
    comparison.group("states of 24 rounds, by the published round table and by a plain Keccak-f[1600]");
    for state in states() {
        published(comparison, &mut words, state);
    }
    for _ in 0..n {
        let state = std::array::from_fn(|_| words.lane());
        published(comparison, &mut words, state);
    }
    refusals(comparison, &mut words);
}

/// A state at the front of a slice, which is as long as it has to be or longer.
fn permuted(comparison: &mut Comparison, words: &mut Words, nr: u64, state: &[u64; LANES], expected: &[u64; LANES]) {
    let more = words.below(3) as usize * 7;
    let slice = [&state[..], &words.take(more)].concat();
    let mut lent = Lent::new(&slice, words);
    let answer = permutation::keccak_f_with(Parameters::default().rounds(nr), lent.slice());
    let input = || format!("{nr} rounds of the state {state:?}");
    comparison.done(input, answer);
    lent.holds(comparison, |_| input(), expected);
}

fn published(comparison: &mut Comparison, words: &mut Words, state: [u64; LANES]) {
    let operation = Operation {
        timestamp: 5,
        address: 4096,
        input: state,
        output: [0; 25],
        segment: 0,
    };
    permuted(comparison, words, 24, &state, &sample::permuted(&operation.words()));
    permuted(comparison, words, 24, &state, &plain_sha3::permuted(state));
}

/// Numbers of rounds and lengths about their edges: 8, then 3.
pub fn refusals(comparison: &mut Comparison, words: &mut Words) {
    comparison.group("refusals: the permutation, every set of conditions");
    for nr in (0..=26).chain([u64::MAX / 2, u64::MAX]) {
        for length in [0, 1, LANES - 1, LANES, LANES + 1, 2 * LANES] {
            let expected = by_rounds::refusal(nr).or(first(&[(length < LANES, 3, LANES as u64)]));
            let call = ("keccak_f", || format!("{nr} rounds"));
            on_slice(comparison, words, call, length, expected, |state| {
                permutation::keccak_f_with(Parameters::default().rounds(nr), state)
            });
        }
    }
}
