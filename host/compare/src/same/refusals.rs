//! Refusals of the call: tables that are cut or have words about p, damaged files, and both at once.

use keccak_tables::P;
use keccak_tables::keccak::{LAST_ADDRESS, NUM_COLUMNS};

use super::drawn::Pair;
use super::one;
use crate::comparison::Comparison;
use crate::inputs::Words;

/// The refusals of the call of this area.
pub fn compare(comparison: &mut Comparison, words: &mut Words) {
    comparison.group("refusals: tables and files, every set of conditions");
    for calls in [0, 1, 3] {
        let pair = Pair::drawn(words, calls, 2);
        for damage_file in FILES {
            let mut file = pair.file();
            damage_file(words, &mut file);
            for off in [-1, 0, 1, NUM_COLUMNS as isize - 1] {
                for spoilt in [0, 1, 2] {
                    let core = damaged(words, pair.core(), off, spoilt);
                    one(comparison, words, "refused", &core, &file);
                }
            }
        }
    }
    comparison.group("refusals: a word about p at each place of a row");
    let pair = Pair::drawn(words, 2, 2);
    for place in 0..2 * NUM_COLUMNS {
        for word in [P - 1, P, u64::MAX] {
            let mut core = pair.core();
            core[place] = word;
            one(comparison, words, "a word about p", &core, &pair.file());
        }
    }
}

/// The table longer or shorter by some words, and with so many that are no elements.
fn damaged(words: &mut Words, mut core: Vec<u64>, off: isize, spoilt: usize) -> Vec<u64> {
    core.resize(core.len().saturating_add_signed(off), 0);
    for _ in 0..spoilt.min(core.len()) {
        let place = words.below(core.len() as u64) as usize;
        core[place] = [P, P + 1, u64::MAX][words.below(3) as usize];
    }
    core
}

/// Bytes that are set in a file, where it has them.
fn set(file: &mut [u8], at: usize, bytes: &[u8]) {
    if let Some(part) = file.get_mut(at..at + bytes.len()) {
        part.copy_from_slice(bytes);
    }
}

/// What is done to a file: nothing, one fault or two, in the first record, the last, or anywhere.
const FILES: [fn(&mut Words, &mut Vec<u8>); 9] = [
    |_, _| {},
    |words, file| set(file, 0, &[words.mark()]),
    |words, file| set(file, 1, &[words.mark()]),
    |words, file| set(file, 10, &(LAST_ADDRESS + words.below(2)).to_le_bytes()),
    |words, file| set(file, 10, &words.unaligned_address().to_le_bytes()),
    |words, file| file.truncate(words.below(file.len() as u64 + 1) as usize),
    |words, file| file.push(words.mark()),
    |_, file| {
        set(file, 10, &u64::MAX.to_le_bytes());
        file.pop();
    },
    |_, file| {
        set(file, 10, &u64::MAX.to_le_bytes());
        set(file, 0, &[0]);
    },
];
