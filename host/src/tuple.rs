//! What a call for a tuple answers.

use crate::ffi::FlatTuple;
use crate::refusal::{PAST_END, Refusal, TOO_SHORT};

/// The buses of the Keccak tables and of the tables that they look up.
#[non_exhaustive]
#[derive(Debug, Clone, Copy, PartialEq, Eq, Hash)]
#[repr(u64)]
pub enum Bus {
    /// AND, OR, XOR of two bytes: the first value is 0, 1 or 2.
    ByteAlu,
    /// Two bytes.
    AreBytes,
    /// A halfword.
    IsHalfword,
    /// A 32-bit word and a halfword.
    IsWh,
    /// A round and its constant's bytes.
    KeccakRc,
    /// A timestamp's two words, a round and a state's 200 bytes. The bytes run by lane 5x + y, not by lane x + 5y as columns do:
    /// byte b of lane (x, y) is value 3 + 8 (5x + y) + b. [`transposed`] turns the one order into the other.
    Keccak,
    /// A memory access.
    Memw,
    /// A system call.
    Ecall,
    /// The top bit of a byte.
    Msb8,
    /// The top bit of a halfword.
    Msb16,
    /// Whether a number is zero.
    Zero,
    /// A number below 2^20.
    IsB20,
    /// A halfword shifted left.
    Hwsl,
}

impl Bus {
    /// Every bus, at its number.
    pub const ALL: [Self; 13] = [
        Self::ByteAlu,
        Self::AreBytes,
        Self::IsHalfword,
        Self::IsWh,
        Self::KeccakRc,
        Self::Keccak,
        Self::Memw,
        Self::Ecall,
        Self::Msb8,
        Self::Msb16,
        Self::Zero,
        Self::IsB20,
        Self::Hwsl,
    ];

    /// Its place in [`Bus::ALL`].
    #[must_use]
    pub const fn number(self) -> u64 {
        self as u64
    }
}

/// Whether a row sends or receives a tuple.
#[derive(Debug, Clone, Copy, PartialEq, Eq, Hash)]
#[repr(u64)]
pub enum Side {
    /// The row sends it; number 0.
    Sender,
    /// The row receives it; number 1.
    Receiver,
}

impl Side {
    /// 0 for a sender, 1 for a receiver.
    #[must_use]
    pub const fn number(self) -> u64 {
        self as u64
    }
}

/// A tuple but for its values, which are in the lent slice.
#[derive(Debug, Clone, Copy, PartialEq, Eq, Hash)]
pub struct BusInteraction {
    /// The bus.
    pub bus: Bus,
    /// Whether the row sends or receives it.
    pub side: Side,
    /// How many values were written.
    pub length: usize,
    /// How often, below p.
    pub multiplicity: u64,
}

impl BusInteraction {
    /// What a call for a tuple of this row answered, which has so many columns.
    pub(crate) fn from_flat(flat: FlatTuple, row: &[u64], columns: usize) -> Result<Self, Refusal> {
        Refusal::unless_done(flat.done, flat.refusal, flat.detail, |number, _| {
            of_row(number, row, columns)
        })?;
        let header = [flat.bus, flat.side, flat.length, flat.multiplicity];
        Ok(Self::from_header(&header).expect("the definition of the answers has no other bus or side"))
    }

    /// A tuple by the words of its header: bus, side, length, multiplicity.
    fn from_header(&[bus, side, length, multiplicity]: &[u64; 4]) -> Option<Self> {
        Some(Self {
            bus: *Bus::ALL.get(usize::try_from(bus).ok()?)?,
            side: match side {
                0 => Side::Sender,
                1 => Side::Receiver,
                _ => return None,
            },
            length: usize::try_from(length).ok()?,
            multiplicity,
        })
    }
}

/// The argument of a refusal by a call that reads a row of so many columns and writes to `out`: the row's length is checked before
/// that of `out`.
pub(crate) fn of_row(number: u64, row: &[u64], columns: usize) -> &'static str {
    match number {
        PAST_END => "index",
        TOO_SHORT if row.len() >= columns => "out",
        _ => "row",
    }
}

/// The tuples that a call for all tuples of a row wrote, each with its values: [`keccak::bus_interactions`] and
/// [`keccak_rnd::bus_interactions`]. Ends where the words do, or where they are no tuple.
///
/// ```
/// use keccak_tables::{Bus, Refusal, keccak_rnd, tuples};
///
/// let mut row = [0; keccak_rnd::NUM_COLUMNS];
/// keccak_rnd::keccak_rnd_row(5, &[0; 25], 0, &mut row)?;
/// let mut words = [0; keccak_rnd::TUPLE_WORDS];
/// keccak_rnd::bus_interactions(&row, &mut words)?;
/// let sent = tuples(&words).filter(|(tuple, _)| tuple.bus == Bus::ByteAlu);
/// assert_eq!(sent.count(), 808);
/// # Ok::<(), Refusal>(())
/// ```
///
/// [`keccak::bus_interactions`]: crate::keccak::bus_interactions
/// [`keccak_rnd::bus_interactions`]: crate::keccak_rnd::bus_interactions
pub fn tuples(words: &[u64]) -> impl Iterator<Item = (BusInteraction, &[u64])> {
    let mut rest = words;
    std::iter::from_fn(move || {
        let (header, after) = rest.split_first_chunk()?;
        let tuple = BusInteraction::from_header(header)?;
        let (values, after) = after.split_at_checked(tuple.length)?;
        rest = after;
        Some((tuple, values))
    })
}

/// A state's 200 bytes in the other of the two orders. A tuple on [`Bus::Keccak`] has byte b of lane (x, y) at 8 (5x + y) + b, a row's
/// columns at 8 (x + 5y) + b; turning twice gives the state back.
///
/// ```
/// use keccak_tables::keccak_rnd::{self, cols};
/// use keccak_tables::{Refusal, transposed};
///
/// let start: [u64; 25] = std::array::from_fn(|lane| lane as u64);
/// let mut row = [0; keccak_rnd::NUM_COLUMNS];
/// keccak_rnd::keccak_rnd_row(5, &start, 0, &mut row)?;
/// let mut values = [0; keccak_rnd::MAX_TUPLE_LENGTH];
/// keccak_rnd::bus_interaction(&row, 0, &mut values)?;
///
/// // Lane (1, 0) is lane 1 of START and comes sixth in the tuple.
/// assert_eq!((row[cols::start(1, 0, 0)], values[3 + 8 * 5]), (1, 1));
/// let state = values[3..].first_chunk().expect("200 values");
/// assert_eq!(transposed(state), row[cols::START..][..200]);
/// # Ok::<(), Refusal>(())
/// ```
#[must_use]
pub fn transposed(state: &[u64; 200]) -> [u64; 200] {
    std::array::from_fn(|at| {
        let (lane, byte) = (at / 8, at % 8);
        state[8 * (lane % 5 * 5 + lane / 5) + byte]
    })
}

#[cfg(test)]
mod tests {
    use super::*;

    #[test]
    fn buses_and_sides_stand_at_their_numbers() {
        assert!((0..).zip(Bus::ALL).all(|(number, bus)| bus.number() == number));
        assert_eq!([Side::Sender, Side::Receiver].map(Side::number), [0, 1]);
    }

    #[test]
    fn words_are_read_as_tuples_up_to_what_is_none() {
        let words = [1, 0, 2, 9, 7, 8, 5, 1, 0, 3];
        let read: Vec<_> = tuples(&words).collect();
        let tuple = |bus, side, length, multiplicity| BusInteraction {
            bus,
            side,
            length,
            multiplicity,
        };
        assert_eq!(
            read,
            [
                (tuple(Bus::AreBytes, Side::Sender, 2, 9), &[7, 8][..]),
                (tuple(Bus::Keccak, Side::Receiver, 0, 3), &[][..]),
            ]
        );
        for none in [
            &[13, 0, 0, 0][..],
            &[0, 2, 0, 0],
            &[0, 0, 2, 0, 7],
            &[0, 0, u64::MAX, 0],
            &[0, 0, 0],
        ] {
            assert_eq!(tuples(none).count(), 0);
        }
    }
}
