//! Floors that are none: whatever else is wrong but the rounds, that is told, and nothing is written.

use keccak_tables::OP_WORDS;
use keccak_tables::keccak::LAST_ADDRESS;

use crate::by_floor::REFUSED;
use crate::charge;
use crate::comparison::Comparison;
use crate::inputs::Words;
use crate::lent::{Lent, LentBytes};
use crate::list_calls::{PUT, list_with};
use crate::plain_file::{file_of, records};
use crate::refusals::OnList;
use crate::rows;
use crate::tally::{drawn_mode, read};

/// The refusals of every call that takes a floor.
pub fn compare(comparison: &mut Comparison, words: &mut Words) {
    comparison.group("refusals: floors that are none, lists with several faults at once");
    for floor in REFUSED {
        lists(comparison, words, floor);
    }
    comparison.group("refusals: floors and others, heights and padding lookups");
    rows::refusals::counts(comparison);
    comparison.group("refusals: floors that are none, charges and looks with several faults at once");
    charge::refusals::compare_by(comparison, words, |words| {
        let (rounds, floor) = (words.any_rounds(), words.refused_floor());
        drawn_mode(words).rounds(rounds).floor(floor)
    });
    comparison.group("refusals: floors that are none, files with and without faults");
    for floor in REFUSED {
        files(comparison, words, floor);
    }
}

/// Lists, whole or not, with and without words that are refused, and slices that are short or not.
fn lists(comparison: &mut Comparison, words: &mut Words, floor: u64) {
    for (n, past) in [(0, 0), (1, OP_WORDS - 1), (3, 0), (3, 1)] {
        let put = PUT[words.below(PUT.len() as u64) as usize];
        let list = list_with(words, n, past, put);
        let what = format!("{n} operations and {past} words, {put:?} among them");
        let mut lent = Lent::new(&list, words);
        for rounds in [24, 1, 0, 25, u64::MAX] {
            let on_list = OnList {
                ops: &*lent.slice(),
                index: words.below(5) as usize,
                with: drawn_mode(words).rounds(rounds).floor(floor),
                what: &what,
            };
            for off in [isize::MIN, -1, 0] {
                on_list.write_words(comparison, words, off);
            }
        }
        lent.kept(comparison, |_| format!("the list, which is only read: {what}"));
    }
}

/// A file that is empty, whole, off the eight, high, marked wrongly or cut: none of this is told.
fn files(comparison: &mut Comparison, words: &mut Words, floor: u64) {
    let whole = file_of(&words.operations(2));
    let second = records(&whole)[1].0;
    let with_bytes = |at: usize, bytes: &[u8]| {
        let mut file = whole.clone();
        file[at..at + bytes.len()].copy_from_slice(bytes);
        file
    };
    let cases = [
        Vec::new(),
        whole.clone(),
        with_bytes(10, &4100u64.to_le_bytes()),
        with_bytes(second + 10, &(LAST_ADDRESS + 1).to_le_bytes()),
        with_bytes(second, b"N"),
        whole[..second + 1].to_vec(),
    ];
    for file in cases {
        for rounds in [24, 0] {
            let with = drawn_mode(words).rounds(rounds).floor(floor);
            let mut lent = LentBytes::new(&file, words);
            let answer = read(words, with, lent.slice());
            let input = || format!("{with:?}, the file {file:?}");
            comparison.answered("tally_finish", input, answer, Some((9, floor)));
            lent.holds(comparison, input, &[]);
        }
    }
}
