//! What a call answers where it refuses.

use std::fmt;

use crate::P;
use crate::bitwise::NUM_LOOKUP_TYPES;
use crate::is_wh::MAX_KEYS;
use crate::keccak_rnd::ROUNDS as MAX_ROUNDS;
use crate::message::MAX_MESSAGE;
use crate::month::MAX_FILES;
use crate::operation::MAX_OPS;
use crate::parameters::{FLOOR as LEAST_FLOOR, MAX_FLOOR};
use crate::registers::MAX_REGISTERS;

// The refusals' numbers.
pub(crate) const PAST_END: u64 = 1;
pub(crate) const NOT_WHOLE: u64 = 2;
pub(crate) const TOO_SHORT: u64 = 3;
const HIGH_ADDRESS: u64 = 4;
pub(crate) const NOT_ELEMENT: u64 = 5;
const BAD_RECORD: u64 = 6;
const UNALIGNED: u64 = 7;
const ROUNDS: u64 = 8;
const FLOOR: u64 = 9;
const REGISTER: u64 = 10;
const SEGMENT: u64 = 11;
const LONG_MESSAGE: u64 = 12;
const LATE_TIMESTAMP: u64 = 13;
const FILES: u64 = 14;

/// Which of the lent slices is not whole.
#[derive(Debug, Clone, Copy, PartialEq, Eq, Hash)]
pub enum Lent {
    /// A core table.
    Core,
    /// A round table.
    Round,
    /// A list of operations, lookups, keys, rows of keys or row counts.
    List,
}

/// Why a call did nothing. A call's checks are made in the order of the numbers, but for 8, 9, 10 and 14, which come before all others, 7
/// and then 11, which come between 4 and 5, and 12 and then 13, which come between 1 and 2; each over all its arguments. But a file is read before the slice that takes its words is looked at, record by
/// record, and there 6 comes before 4; a core table that a file is held against is looked at before the file.
///
/// `argument` is the name of the argument in the call's signature; of a [`Tally`](crate::operation_file::Tally) it is that of `feed`.
///
/// Later versions may refuse for further reasons, so a `match` needs an arm for the rest.
#[non_exhaustive]
#[derive(Debug, Clone, Copy, PartialEq, Eq, Hash)]
pub enum Refusal {
    /// 1: an index, kind, count or round past its end.
    PastEnd {
        /// The number, or the list that has too many entries or such a word.
        argument: &'static str,
        /// The least number refused.
        limit: u64,
    },
    /// 2: a table or list that is not whole rows, operations, lookups or keys; or row counts that do not split a job's tables.
    NotWhole {
        /// The table or list.
        argument: &'static str,
        /// Which one it is.
        which: Lent,
    },
    /// 3: a lent slice that is too short.
    TooShort {
        /// The slice.
        argument: &'static str,
        /// The length needed, in words, or in bytes where the slice is one of bytes.
        needed: u64,
    },
    /// 4: an operation's last lane would start past 2^64 - 1.
    HighAddress {
        /// The first such address.
        address: u64,
    },
    /// 5: a word that is not below p; or one of a list of lookups, keys or rows of keys that is more than it can be.
    NotElement {
        /// The slice that it stands in.
        argument: &'static str,
        /// Its place there.
        place: u64,
    },
    /// 6: a wrong mark or a cut record in an operation file.
    BadRecord {
        /// The byte where the record starts.
        start: u64,
    },
    /// 7: an operation's address is no multiple of 8, so that its row could never pass its lookups. A file with such records is read all the
    /// same; what takes their list refuses it.
    Unaligned {
        /// The first such address.
        address: u64,
    },
    /// 8: a number of rounds that is 0 or above 24.
    Rounds {
        /// That number.
        rounds: u64,
    },
    /// 9: a floor of the tables' heights that is no power of two from 4 to 65,536.
    Floor {
        /// That floor.
        floor: u64,
    },
    /// 10: a register that is not in use: its ledger does not stand whole in the lent words, or is not one of the first 16.
    Register {
        /// The register's number.
        register: u64,
    },
    /// 11: the segment word of an operation in a list is 2^32 or more.
    Segment {
        /// The first such word.
        word: u64,
    },
    /// 12: a message of more than 65,536 bytes.
    LongMessage {
        /// How many it has.
        length: u64,
    },
    /// 13: the timestamps of a message's operations would pass 2^64 - 1.
    LateTimestamp {
        /// The first of them.
        timestamp: u64,
    },
    /// 14: a month of more than 4,096 files.
    Files {
        /// Their number.
        files: u64,
    },
}

impl Refusal {
    /// The number by which the interface knows the refusal.
    #[must_use]
    pub const fn number(self) -> u64 {
        match self {
            Self::PastEnd { .. } => PAST_END,
            Self::NotWhole { .. } => NOT_WHOLE,
            Self::TooShort { .. } => TOO_SHORT,
            Self::HighAddress { .. } => HIGH_ADDRESS,
            Self::NotElement { .. } => NOT_ELEMENT,
            Self::BadRecord { .. } => BAD_RECORD,
            Self::Unaligned { .. } => UNALIGNED,
            Self::Rounds { .. } => ROUNDS,
            Self::Floor { .. } => FLOOR,
            Self::Register { .. } => REGISTER,
            Self::Segment { .. } => SEGMENT,
            Self::LongMessage { .. } => LONG_MESSAGE,
            Self::LateTimestamp { .. } => LATE_TIMESTAMP,
            Self::Files { .. } => FILES,
        }
    }

    /// The detail that goes with it.
    #[must_use]
    pub const fn detail(self) -> u64 {
        match self {
            Self::PastEnd { limit, .. } => limit,
            Self::NotWhole { which, .. } => which as u64,
            Self::TooShort { needed, .. } => needed,
            Self::HighAddress { address } => address,
            Self::NotElement { place, .. } => place,
            Self::BadRecord { start } => start,
            Self::Unaligned { address } => address,
            Self::Rounds { rounds } => rounds,
            Self::Floor { floor } => floor,
            Self::Register { register } => register,
            Self::Segment { word } => word,
            Self::LongMessage { length } => length,
            Self::LateTimestamp { timestamp } => timestamp,
            Self::Files { files } => files,
        }
    }

    /// What a flat answer says: nothing where it is done.
    ///
    /// # Panics
    ///
    /// Where it is neither done nor refused, as words of zeros are: no call answers that.
    pub(crate) fn unless_done(
        done: u64,
        number: u64,
        detail: u64,
        name: impl FnOnce(u64, u64) -> &'static str,
    ) -> Result<(), Self> {
        let answer = Self::from_flat(number, detail, name);
        assert_eq!(
            answer.is_ok(),
            done == 1,
            "an answer is done exactly where it is not refused"
        );
        answer
    }

    /// The refusal of a number and a detail, or nothing by number 0.
    ///
    /// Of a refusal `name` says the argument, by its number and detail. Where several arguments of a call can have one number, it makes
    /// the call's checks of that number again, in their order, up to the last, which is what is left.
    pub(crate) fn from_flat(number: u64, detail: u64, name: impl FnOnce(u64, u64) -> &'static str) -> Result<(), Self> {
        if number == 0 {
            return Ok(());
        }
        let argument = name(number, detail);
        Err(match number {
            PAST_END => Self::PastEnd {
                argument,
                limit: detail,
            },
            NOT_WHOLE => Self::NotWhole {
                argument,
                which: match detail {
                    0 => Lent::Core,
                    1 => Lent::Round,
                    _ => Lent::List,
                },
            },
            TOO_SHORT => Self::TooShort {
                argument,
                needed: detail,
            },
            HIGH_ADDRESS => Self::HighAddress { address: detail },
            NOT_ELEMENT => Self::NotElement {
                argument,
                place: detail,
            },
            BAD_RECORD => Self::BadRecord { start: detail },
            UNALIGNED => Self::Unaligned { address: detail },
            ROUNDS => Self::Rounds { rounds: detail },
            FLOOR => Self::Floor { floor: detail },
            REGISTER => Self::Register { register: detail },
            SEGMENT => Self::Segment { word: detail },
            LONG_MESSAGE => Self::LongMessage { length: detail },
            LATE_TIMESTAMP => Self::LateTimestamp { timestamp: detail },
            FILES => Self::Files { files: detail },
            _ => unreachable!("the definition of the answers has no refusal {number}"),
        })
    }
}

/// Whether these words have one at that place that is p or more.
pub(crate) fn is_large_at(place: u64, words: &[u64]) -> bool {
    word_at(place, words).is_some_and(|word| word >= P)
}

/// The word at a place, where there is one.
pub(crate) fn word_at(place: u64, words: &[u64]) -> Option<u64> {
    words.get(usize::try_from(place).ok()?).copied()
}

impl fmt::Display for Refusal {
    fn fmt(&self, f: &mut fmt::Formatter<'_>) -> fmt::Result {
        match *self {
            Self::PastEnd { argument, limit } => past_end(f, argument, limit),
            Self::NotWhole { which: Lent::Core, .. } => write!(f, "the core table is not whole rows"),
            Self::NotWhole { which: Lent::Round, .. } => write!(f, "the round table is not whole rows"),
            Self::NotWhole { argument: "counts", .. } => {
                write!(f, "counts are not pairs whose sums are the rows of the two tables")
            }
            Self::NotWhole { argument, .. } => write!(f, "the last entry of the list {argument} is not whole"),
            Self::TooShort { argument, needed } => {
                // No other slice of bytes is written to.
                let unit = if matches!(argument, "file" | "line") {
                    "bytes"
                } else {
                    "words"
                };
                write!(f, "{argument} is shorter than the {needed} {unit} that are needed")
            }
            Self::HighAddress { address } => write!(
                f,
                "the last of the 25 lanes from address {address} would start past 2^64 - 1"
            ),
            // The lists, whose words have ends of their own; what other slices hold is below p.
            Self::NotElement {
                argument: argument @ ("ops" | "keys" | "rows"),
                place,
            } => write!(f, "word {place} of the list {argument} is more than it can be"),
            Self::NotElement { argument, place } => write!(f, "word {place} of {argument} is not below p"),
            Self::BadRecord { start } => write!(f, "the record that starts at byte {start} is cut or has a wrong mark"),
            Self::Unaligned { address } => write!(
                f,
                "address {address} is not a multiple of 8, and the row of an operation there can't be proved"
            ),
            Self::Rounds { rounds } => write!(f, "an operation has 1 to {MAX_ROUNDS} rounds, and not {rounds}"),
            Self::Floor { floor } => write!(
                f,
                "a floor of the tables' heights is a power of two from {LEAST_FLOOR} to {MAX_FLOOR}, and not {floor}"
            ),
            Self::Register { register } => write!(
                f,
                "register {register} is not in use: its ledger is not a whole one of the first {MAX_REGISTERS}"
            ),
            Self::Segment { word } => write!(f, "a segment number has 32 bits, and {word} has more"),
            Self::LongMessage { length } => {
                write!(f, "a message has at most {MAX_MESSAGE} bytes, and this one {length}")
            }
            Self::LateTimestamp { timestamp } => {
                write!(f, "the timestamps from {timestamp} on would pass 2^64 - 1")
            }
            Self::Files { files } => write!(f, "a month has at most {MAX_FILES} files, and not {files}"),
        }
    }
}

/// The words of refusal 1. No other argument has the ends of the first three sentences.
fn past_end(f: &mut fmt::Formatter<'_>, argument: &str, limit: u64) -> fmt::Result {
    if argument == "counts" {
        write!(f, "a file of the list counts has more than {MAX_OPS} operations")
    } else if limit == MAX_OPS as u64 + 1 {
        write!(f, "there are more than {MAX_OPS} operations")
    } else if limit == MAX_KEYS as u64 + 1 {
        write!(f, "there are more than {MAX_KEYS} keys or rows of keys")
    } else if argument == "ops" {
        let word = if limit == NUM_LOOKUP_TYPES as u64 { "kind" } else { "Z" };
        write!(f, "a {word} in the list ops is past its end: {limit} or more")
    } else {
        write!(f, "{argument} is past its end: {limit} or more")
    }
}

impl std::error::Error for Refusal {}

#[cfg(test)]
mod tests {
    use super::*;

    fn told(number: u64, detail: u64, argument: &'static str) -> Refusal {
        let refused = Refusal::from_flat(number, detail, |told, with| {
            assert_eq!((told, with), (number, detail));
            argument
        });
        refused.expect_err("a refusal")
    }

    #[test]
    fn each_refusal_has_its_number_its_detail_and_its_argument() {
        let argument = "rows";
        let whole = |argument, which| Refusal::NotWhole { argument, which };
        let cases = [
            (1, 16, argument, Refusal::PastEnd { argument, limit: 16 }),
            (2, 0, "core", whole("core", Lent::Core)),
            (2, 1, "round", whole("round", Lent::Round)),
            (2, 2, argument, whole(argument, Lent::List)),
            (3, 486, argument, Refusal::TooShort { argument, needed: 486 }),
            (4, 9, argument, Refusal::HighAddress { address: 9 }),
            (5, 7, argument, Refusal::NotElement { argument, place: 7 }),
            (6, 418, argument, Refusal::BadRecord { start: 418 }),
            (7, 4100, argument, Refusal::Unaligned { address: 4100 }),
            (8, 25, argument, Refusal::Rounds { rounds: 25 }),
            (9, 2, argument, Refusal::Floor { floor: 2 }),
            (10, 16, argument, Refusal::Register { register: 16 }),
            (11, 1 << 32, argument, Refusal::Segment { word: 1 << 32 }),
            (12, 65_537, argument, Refusal::LongMessage { length: 65_537 }),
            (13, u64::MAX, argument, Refusal::LateTimestamp { timestamp: u64::MAX }),
            (14, 4097, argument, Refusal::Files { files: 4097 }),
        ];
        for (number, detail, argument, refusal) in cases {
            assert_eq!(told(number, detail, argument), refusal);
            assert_eq!((refusal.number(), refusal.detail()), (number, detail));
        }
        let none = Refusal::from_flat(0, 0, |_, _| unreachable!("nothing is refused"));
        assert_eq!(none, Ok(()));
    }

    #[test]
    fn each_refusal_has_its_words() {
        let cases = [
            (1, 10, "kind", "kind is past its end: 10 or more"),
            (1, 1_048_576, "index", "index is past its end: 1048576 or more"),
            (1, 10, "ops", "a kind in the list ops is past its end: 10 or more"),
            (1, 16, "ops", "a Z in the list ops is past its end: 16 or more"),
            (1, 89_478_486, "ops", "there are more than 89478485 operations"),
            (1, 89_478_486, "n", "there are more than 89478485 operations"),
            (
                1,
                89_478_486,
                "counts",
                "a file of the list counts has more than 89478485 operations",
            ),
            (
                1,
                2_236_962_126,
                "keys",
                "there are more than 2236962125 keys or rows of keys",
            ),
            (2, 0, "core", "the core table is not whole rows"),
            (2, 1, "round", "the round table is not whole rows"),
            (2, 2, "keys", "the last entry of the list keys is not whole"),
            (
                2,
                2,
                "counts",
                "counts are not pairs whose sums are the rows of the two tables",
            ),
            (3, 486, "row", "row is shorter than the 486 words that are needed"),
            (3, 418, "file", "file is shorter than the 418 bytes that are needed"),
            (
                4,
                9,
                "ops",
                "the last of the 25 lanes from address 9 would start past 2^64 - 1",
            ),
            (5, 20, "row", "word 20 of row is not below p"),
            (5, 2, "ops", "word 2 of the list ops is more than it can be"),
            (
                6,
                418,
                "file",
                "the record that starts at byte 418 is cut or has a wrong mark",
            ),
            (
                7,
                4100,
                "ops",
                "address 4100 is not a multiple of 8, and the row of an operation there can't be proved",
            ),
            (8, 0, "ops", "an operation has 1 to 24 rounds, and not 0"),
            (
                9,
                6,
                "ops",
                "a floor of the tables' heights is a power of two from 4 to 65536, and not 6",
            ),
            (
                10,
                2,
                "ledgers",
                "register 2 is not in use: its ledger is not a whole one of the first 16",
            ),
            (
                11,
                1 << 32,
                "ops",
                "a segment number has 32 bits, and 4294967296 has more",
            ),
            (
                12,
                65_537,
                "ops",
                "a message has at most 65536 bytes, and this one 65537",
            ),
            (13, 7, "ops", "the timestamps from 7 on would pass 2^64 - 1"),
            (14, 4097, "counts", "a month has at most 4096 files, and not 4097"),
        ];
        for (number, detail, argument, words) in cases {
            assert_eq!(told(number, detail, argument).to_string(), words);
        }
    }

    #[test]
    fn a_word_is_large_from_p_on_and_where_there_is_one() {
        let words = [P - 1, P, u64::MAX];
        assert_eq!(
            [0, 1, 2, 3, u64::MAX].map(|at| is_large_at(at, &words)),
            [false, true, true, false, false]
        );
    }
}
