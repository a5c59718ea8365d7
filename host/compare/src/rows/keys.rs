//! IS_WH: the key of a number, and the tuples of a row of keys.

use keccak_tables::is_wh::{self, IsWhKey};

use crate::comparison::Comparison;
use crate::inputs::{Words, addresses, unaligned_addresses};
use crate::tuple_list::tuples;

pub fn compare(comparison: &mut Comparison, words: &mut Words) {
    comparison.group("keys of numbers");
    // A key is of any number.
    let mut numbers = [addresses(), unaligned_addresses()].concat();
    numbers.extend((0..64).flat_map(|bit| [1 << bit, (1 << bit) - 1, u64::MAX << bit]));
    numbers.push(u64::MAX);
    numbers.extend(words.take(2000));
    for number in numbers {
        let key = IsWhKey::of_dword(number);
        comparison.called();
        comparison.equal(
            |_| format!("the key of {number}"),
            &[key.word, key.half],
            &oracle::is_wh_key(number),
        );
    }

    comparison.group("tuples of rows of keys");
    for _ in 0..400 {
        let row: Vec<u64> = (0..is_wh::NUM_COLUMNS).map(|_| words.element()).collect();
        let (call, expected) = (is_wh::bus_interaction, oracle::is_wh_tuples(&row));
        tuples(comparison, words, || "a row of keys".into(), &row, call, &expected);
    }
}
