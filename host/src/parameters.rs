//! What a verifier may want otherwise than the default.

use crate::keccak_rnd::ROUNDS;

/// The floor of both tables' heights where [`Parameters`] say nothing else, and the least that it can be.
pub const FLOOR: u64 = 4;

/// The highest floor.
pub const MAX_FLOOR: u64 = 65_536;

/// How a segment's tables are written, judged and counted. A caller who wants the default writes none of it.
///
/// ```
/// use keccak_tables::Parameters;
///
/// let usual = Parameters::default();
/// assert_eq!((usual.rounds, usual.floor, usual.shipped), (24, 4, false));
/// let other = usual.rounds(12).floor(64).shipped();
/// assert_eq!((other.rounds, other.floor, other.shipped), (12, 64, true));
/// ```
#[non_exhaustive]
#[derive(Debug, Clone, Copy, PartialEq, Eq, Hash)]
pub struct Parameters {
    /// The rounds nr of each operation of the segment, 1 to 24: its OUTPUT is to be `Keccak-p[1600, nr]` of its INPUT, whose rounds run
    /// from 24 - nr to 23. Any other number is refused by the calls ([`Rounds`](crate::Refusal::Rounds)).
    pub rounds: u64,
    /// The floor, which is the least height of the core and of the round table: a power of two from [`FLOOR`] to [`MAX_FLOOR`]. Any other
    /// number is refused by the calls ([`Floor`](crate::Refusal::Floor)), after the rounds.
    pub floor: u64,
    /// Whether the tables of a segment without operations are shipped: then what their rows send is counted, which are zero
    /// round rows, as many as the floor, with 220 AreBytes tuples each.
    pub shipped: bool,
}

impl Parameters {
    /// The same with so many rounds.
    #[must_use]
    pub const fn rounds(mut self, rounds: u64) -> Self {
        self.rounds = rounds;
        self
    }

    /// The same with this floor.
    #[must_use]
    pub const fn floor(mut self, floor: u64) -> Self {
        self.floor = floor;
        self
    }

    /// The same, and the tables of a segment without operations are shipped.
    #[must_use]
    pub const fn shipped(mut self) -> Self {
        self.shipped = true;
        self
    }
}

/// 24 rounds, `Keccak-f[1600]`, the floor 4, and nothing shipped without operations.
impl Default for Parameters {
    fn default() -> Self {
        Self {
            rounds: ROUNDS as u64,
            floor: FLOOR,
            shipped: false,
        }
    }
}
