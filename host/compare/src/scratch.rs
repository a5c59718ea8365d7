//! The scratch that a verdict is lent: drawn words with guards, as many as are needed, more or fewer; what is refused for it, and what it
//! holds afterwards.

use keccak_tables::verdict::{LINE_MOST, scratch_words};

use crate::comparison::Comparison;
use crate::inputs::Words;
use crate::judge::Verdict;
use crate::lent::Lent;

/// A scratch for the verdict on two tables.
pub struct Scratch {
    lent: Lent,
    needed: usize,
    room: usize,
}

impl Scratch {
    /// Drawn words, so many.
    fn of(core: &[u64], round: &[u64], room: usize, words: &mut Words) -> Self {
        Self {
            lent: Lent::drawn(room, words),
            needed: scratch_words(core, round),
            room,
        }
    }

    /// Each scratch with which two tables are tried: of just the length, and longer; and where rows need one, one word short and drawn
    /// shorter, most often so that the first of the two slices into which it is cut is short too.
    pub fn each(core: &[u64], round: &[u64], words: &mut Words) -> Vec<Self> {
        let needed = scratch_words(core, round);
        let mut rooms = vec![needed, needed + 1 + words.below(70) as usize];
        if needed > 0 {
            rooms.extend([needed - 1, words.below(needed as u64) as usize]);
        }
        rooms
            .into_iter()
            .map(|room| Self::of(core, round, room, words))
            .collect()
    }

    /// The slice that is lent.
    pub fn slice(&mut self) -> &mut [u64] {
        self.lent.slice()
    }

    /// How many words are lent.
    pub fn room(&self) -> usize {
        self.room
    }

    /// The refusal of a scratch that is too short, which comes before those by 5 and after those by 8, 2, and 3 of another slice: by what
    /// would be answered with room enough.
    pub fn refusal(&self, with_room: Option<(u64, u64)>) -> Option<(u64, u64)> {
        match with_room {
            Some((2 | 3 | 8, _)) => with_room,
            _ if self.room < self.needed => Some((3, self.needed as u64)),
            _ => with_room,
        }
    }

    /// The refusal of a line in this scratch: lent fewer bytes than any line may need, it is refused before the scratch.
    pub fn line_refusal(&self, room: usize, with_room: Option<(u64, u64)>) -> Option<(u64, u64)> {
        let line = match with_room {
            Some((2 | 8, _)) => with_room,
            _ if room < LINE_MOST => Some((3, LINE_MOST as u64)),
            _ => with_room,
        };
        self.refusal(line)
    }

    /// The verdict with this scratch, by the verdict with room enough.
    pub fn verdict(&self, with_room: Verdict) -> Verdict {
        let refusal = match with_room {
            Verdict::Refused(number, detail) => Some((number, detail)),
            _ => None,
        };
        match self.refusal(refusal) {
            Some((number, detail)) => Verdict::Refused(number, detail),
            None => with_room,
        }
    }

    /// The words that are needed are to be 0 where it was used, and all others and every guard as they were.
    pub fn left(&self, comparison: &mut Comparison, input: impl Fn() -> String, was_used: bool) {
        let zeros = vec![0; if was_used { self.needed } else { 0 }];
        let input = |_| format!("a scratch of {} words, {}", self.room, input());
        self.lent.holds(comparison, input, &zeros);
    }
}

#[cfg(test)]
mod tests {
    use super::*;
    use keccak_tables::{keccak, keccak_rnd};

    #[test]
    fn a_short_scratch_is_refused_between_2_and_5() {
        let (core, round) = (vec![0; keccak::NUM_COLUMNS], vec![0; 2 * keccak_rnd::NUM_COLUMNS]);
        let mut words = Words::new(1);
        for (room, short) in [(0, true), (11, true), (12, false), (13, false)] {
            let scratch = Scratch::of(&core, &round, room, &mut words);
            for (with_room, always) in [
                (None, false),
                (Some((5, 7)), false),
                (Some((2, 1)), true),
                (Some((8, 0)), true),
            ] {
                let expected = if short && !always { Some((3, 12)) } else { with_room };
                assert_eq!(scratch.refusal(with_room), expected, "{room} words");
                assert_eq!(scratch.line_refusal(LINE_MOST, with_room), expected, "{room} words");
                let line = if always { with_room } else { Some((3, LINE_MOST as u64)) };
                assert_eq!(scratch.line_refusal(LINE_MOST - 1, with_room), line, "{room} words");
            }
            let holds = scratch.verdict(Verdict::Holds(1));
            assert_eq!(holds == Verdict::Refused(3, 12), short);
        }
    }

    /// Of both tables each length is tried, and without rows the empty one alone can't be shorter.
    #[test]
    fn lengths_about_the_one_that_is_needed() {
        let core = vec![0; keccak::NUM_COLUMNS];
        let mut words = Words::new(1);
        let rooms = |core: &[u64], words: &mut Words| -> Vec<usize> {
            Scratch::each(core, &[], words).iter().map(Scratch::room).collect()
        };
        let one = rooms(&core, &mut words);
        assert!(one[0] == 4 && one[1] > 4 && one[2] == 3 && one[3] < 4, "{one:?}");
        let none = rooms(&[], &mut words);
        assert!(none.len() == 2 && none[0] == 0 && none[1] > 0, "{none:?}");
    }
}
