//! A slice lent to a call, with guards before and after it.

use crate::comparison::Comparison;
use crate::inputs::Words;

/// Guard words on either side.
const GUARDS: usize = 64;

/// A slice of old words, with guards.
pub struct Lent {
    before: Vec<u64>,
    words: Vec<u64>,
}

impl Lent {
    /// `length` words to lend, all drawn.
    pub fn drawn(length: usize, words: &mut Words) -> Self {
        Self::new(&words.take(length), words)
    }

    /// These words to lend.
    pub fn new(lent: &[u64], words: &mut Words) -> Self {
        let mut all = words.take(GUARDS);
        all.extend_from_slice(lent);
        all.extend(words.take(GUARDS));
        Self {
            before: all.clone(),
            words: all,
        }
    }

    /// The slice that is lent.
    pub fn slice(&mut self) -> &mut [u64] {
        let end = self.words.len() - GUARDS;
        &mut self.words[GUARDS..end]
    }

    /// The first words are to be these, and every word past them and every guard as it was.
    pub fn holds(&self, comparison: &mut Comparison, input: impl FnOnce(usize) -> String, expected: &[u64]) {
        let mut all = self.before.clone();
        all[GUARDS..GUARDS + expected.len()].copy_from_slice(expected);
        self.is(comparison, input, &all);
    }

    /// The slice with its guards is to be this.
    fn is(&self, comparison: &mut Comparison, input: impl FnOnce(usize) -> String, all: &[u64]) {
        let place_in_slice = |place: usize| {
            if place < GUARDS {
                "a guard before the slice".to_string()
            } else {
                format!("word {} of the slice", place - GUARDS)
            }
        };
        comparison.equal(
            |place| format!("{}, {}", place_in_slice(place), input(place.saturating_sub(GUARDS))),
            &self.words,
            all,
        );
    }

    /// Every guard is to be as it was, whatever the slice holds.
    pub fn guards_kept(&self, comparison: &mut Comparison, input: impl Fn() -> String) {
        let end = self.words.len() - GUARDS;
        for guards in [0..GUARDS, end..end + GUARDS] {
            let (now, before) = (&self.words[guards.clone()], &self.before[guards]);
            comparison.equal(|_| format!("a guard, {}", input()), now, before);
        }
    }

    /// Every word is to be as it was.
    pub fn kept(&self, comparison: &mut Comparison, input: impl FnOnce(usize) -> String) {
        self.is(comparison, input, &self.before);
    }
}

/// The same of bytes.
pub struct LentBytes {
    before: Vec<u8>,
    bytes: Vec<u8>,
}

impl LentBytes {
    /// `length` bytes to lend, all drawn.
    pub fn drawn(length: usize, words: &mut Words) -> Self {
        let lent: Vec<u8> = (0..length).map(|_| words.word() as u8).collect();
        Self::new(&lent, words)
    }

    /// These bytes to lend.
    pub fn new(lent: &[u8], words: &mut Words) -> Self {
        let mut guards = || (0..GUARDS).map(|_| words.word() as u8).collect::<Vec<_>>();
        let bytes = [guards(), lent.to_vec(), guards()].concat();
        Self {
            before: bytes.clone(),
            bytes,
        }
    }

    /// The slice that is lent.
    pub fn slice(&mut self) -> &mut [u8] {
        let end = self.bytes.len() - GUARDS;
        &mut self.bytes[GUARDS..end]
    }

    /// The first bytes are to be these, and every byte past them and every guard as it was.
    pub fn holds(&self, comparison: &mut Comparison, input: impl FnOnce() -> String, expected: &[u8]) {
        let mut all = self.before.clone();
        all[GUARDS..GUARDS + expected.len()].copy_from_slice(expected);
        let [now, all] = [&self.bytes, &all].map(|bytes| bytes.iter().map(|&byte| byte.into()).collect::<Vec<u64>>());
        comparison.equal(
            |place| format!("byte {place} from the guards on, {}", input()),
            &now,
            &all,
        );
    }
}

#[cfg(test)]
mod tests {
    use super::*;

    fn differences(change: impl FnOnce(&mut Lent), expected: &[u64]) -> u64 {
        let mut comparison = Comparison::default();
        comparison.group("test");
        let mut lent = Lent::new(&[1, 2, 3], &mut Words::new(1));
        change(&mut lent);
        lent.holds(&mut comparison, |_| "test".into(), expected);
        comparison.differences()
    }

    #[test]
    fn words_past_the_expected_and_guards_are_compared() {
        assert_eq!(differences(|lent| lent.slice()[0] = 9, &[9]), 0);
        assert_eq!(differences(|lent| lent.slice()[0] = 8, &[9]), 1);
        assert_eq!(differences(|lent| lent.slice()[2] = 9, &[1]), 1);
        assert_eq!(differences(|lent| lent.words[GUARDS - 1] ^= 1, &[]), 1);
        assert_eq!(differences(|lent| lent.words[GUARDS + 3] ^= 1, &[]), 1);
    }
}
