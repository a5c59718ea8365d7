//! Every tuple of a row, by our call for one of them and by the Rust's list.

use keccak_tables::{BusInteraction, Refusal};

use crate::comparison::Comparison;
use crate::inputs::Words;
use crate::lent::Lent;

/// A call for a tuple of a row by its index.
pub trait TupleCall: Fn(&[u64], usize, &mut [u64]) -> Result<BusInteraction, Refusal> {}

impl<T: Fn(&[u64], usize, &mut [u64]) -> Result<BusInteraction, Refusal>> TupleCall for T {}

/// Bus, side, multiplicity, length and values of every tuple of a row, each into a slice of its own. `what` names the row.
pub fn tuples(
    comparison: &mut Comparison,
    words: &mut Words,
    what: impl Fn() -> String,
    row: &[u64],
    call: impl TupleCall,
    expected: &[oracle::Tuple],
) {
    for (index, theirs) in expected.iter().enumerate() {
        let input = || format!("tuple {index} of {}: {row:?}", what());
        let room = theirs.values.len() + words.below(3) as usize;
        let mut out = Lent::drawn(room, words);
        if let Some(ours) = comparison.done(input, call(row, index, out.slice())) {
            comparison.equal(|_| input(), &answer_numbers(&ours), &expected_numbers(theirs));
            out.holds(comparison, |_| input(), &theirs.values);
        }
    }
}

/// The call for all tuples of a row, against the same list.
pub fn at_once(
    comparison: &mut Comparison,
    words: &mut Words,
    what: impl Fn() -> String,
    row: &[u64],
    call: impl Fn(&[u64], &mut [u64]) -> Result<(), Refusal>,
    expected: &[oracle::Tuple],
) {
    let expected: Vec<u64> = expected.iter().flat_map(words_of).collect();
    let mut out = Lent::drawn(expected.len() + words.below(3) as usize, words);
    let input = || format!("all tuples of {}: {row:?}", what());
    comparison.done(input, call(row, out.slice()));
    out.holds(comparison, |_| input(), &expected);
}

/// The numbers of a tuple's answer: bus, side, multiplicity, length.
fn answer_numbers(tuple: &BusInteraction) -> [u64; 4] {
    [
        tuple.bus.number(),
        tuple.side.number(),
        tuple.multiplicity,
        tuple.length as u64,
    ]
}

/// A tuple of the Rust's as words: bus, side, length, multiplicity, values.
pub fn words_of(tuple: &oracle::Tuple) -> Vec<u64> {
    let [bus, side, multiplicity, length] = expected_numbers(tuple);
    [&[bus, side, length, multiplicity], &tuple.values[..]].concat()
}

/// The same of a tuple of the Rust's.
fn expected_numbers(tuple: &oracle::Tuple) -> [u64; 4] {
    [
        tuple.bus.into(),
        tuple.side as u64,
        tuple.multiplicity,
        tuple.values.len() as u64,
    ]
}

#[cfg(test)]
mod tests {
    use keccak_tables::Bus;

    /// Neither the host nor the oracle depends on the other, so each has its own list of the buses.
    #[test]
    fn the_buses_have_the_names_and_numbers_of_the_oracle() {
        let [ours, theirs] = [
            Bus::ALL.map(|bus| format!("{bus:?} {}", bus.number())),
            oracle::Bus::ALL.map(|bus| format!("{bus:?} {}", bus.number())),
        ];
        assert_eq!(ours, theirs);
    }
}
