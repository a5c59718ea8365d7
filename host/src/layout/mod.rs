//! What the columns, values and tuples of a row are: group, place in the group, bus and operands.
//!
//! This is for people who read a verdict. Nothing here is used to write or to judge a table; the tests hold every value
//! and every tuple against the proved code.
//!
//! ```
//! use keccak_tables::layout;
//! use keccak_tables::verdict::Table;
//!
//! assert_eq!(layout::named(Table::Round, "CHI_ANDS[0][3][7]"), Some(1190));
//! let (place, tuple) = layout::tuple(Table::Round, 654).expect("a round row has 1,031 tuples");
//! assert_eq!((place.group, place.words().as_str()), ("AND of chi", "x 0, y 3, byte 7"));
//! assert_eq!(tuple.values.len(), 4);
//! ```

mod core_row;
mod group;
mod round_row;
mod sum;
#[cfg(test)]
mod tests;

pub use group::{Axis, Group, Place};
pub use sum::Sum;

use crate::keccak::cols::lane;
use crate::tuple::{Bus, Side};
use crate::verdict::Table;

/// What stands in a tuple.
#[derive(Debug, Clone, PartialEq, Eq)]
pub enum Operand {
    /// A sum of columns and a constant.
    Sum(Sum),
    /// Half 0 or 1, low or high, of the number of the Keccak system call.
    Syscall(usize),
    /// The first round, 24 less the number of rounds ([`Parameters::rounds`](crate::Parameters::rounds)).
    FirstRound,
}

/// A tuple of a row.
#[derive(Debug, Clone, PartialEq, Eq)]
pub struct Tuple {
    /// On which bus.
    pub bus: Bus,
    /// Whether it is sent or received.
    pub side: Side,
    /// Whether this is done MU times; otherwise once, in any row.
    pub by_mu: bool,
    /// Its values.
    pub values: Vec<Operand>,
}

/// A constraint value of a row. The constraint holds where it is 0 mod p.
#[derive(Debug, Clone, PartialEq, Eq)]
pub enum Value {
    /// c * (1 - c) of a column c.
    Bit(usize),
    /// MU * (2^by * input - 2^16 * right - left).
    Shift {
        /// By how many bits.
        by: u32,
        /// The halfword that is shifted.
        input: Sum,
        /// Its low sixteen bits, shifted.
        left: Sum,
        /// What went out at the top.
        right: Sum,
    },
    /// MU * c * (1 - c), where c is low / 2^32, or (high + low / 2^32) / 2^32 where there is a high difference.
    CarryBit {
        /// The difference of the low 32 bits.
        low: Sum,
        /// The difference of the high 32 bits.
        high: Option<Sum>,
    },
    /// MU * (high + low / 2^32) / 2^32.
    NoCarry {
        /// The difference of the low 32 bits.
        low: Sum,
        /// The difference of the high 32 bits.
        high: Sum,
    },
}

/// The groups of a table's columns.
pub fn columns(table: Table) -> &'static [Group<()>] {
    match table {
        Table::Core => &core_row::COLUMNS,
        Table::Round => &round_row::COLUMNS,
    }
}

/// The column at an index.
pub fn column(table: Table, index: usize) -> Option<Place> {
    Some(group::find(columns(table), index)?.1)
}

/// The index of a column by its name, as in `THETA[1][2][3]`.
pub fn named(table: Table, name: &str) -> Option<usize> {
    let places = (0..).map_while(|index| column(table, index));
    places.map(|place| place.to_string()).position(|other| other == name)
}

/// The value at an index, and where it stands among the values of its kind.
pub fn value(table: Table, index: usize) -> Option<(Place, Value)> {
    match table {
        Table::Core => group::made(&core_row::VALUES, index),
        Table::Round => group::made(&round_row::VALUES, index),
    }
}

/// The tuple at an index, and where it stands among the tuples of its kind.
pub fn tuple(table: Table, index: usize) -> Option<(Place, Tuple)> {
    match table {
        Table::Core => group::made(&core_row::TUPLES, index),
        Table::Round => group::made(&round_row::TUPLES, index),
    }
}

/// A sender of MU.
fn sends(bus: Bus, values: Vec<Operand>) -> Tuple {
    Tuple {
        bus,
        side: Side::Sender,
        by_mu: true,
        values,
    }
}

/// A receiver of MU.
fn receives(bus: Bus, values: Vec<Operand>) -> Tuple {
    Tuple {
        bus,
        side: Side::Receiver,
        by_mu: true,
        values,
    }
}

/// Two bytes that are looked up in every row.
fn always_bytes(low: usize, high: usize) -> Tuple {
    Tuple {
        bus: Bus::AreBytes,
        side: Side::Sender,
        by_mu: false,
        values: cells([low, high]),
    }
}

/// A ByteAlu tuple: the operation's number, then its two operands and its result.
fn byte_alu(operation: u64, left: Sum, right: Sum, result: Sum) -> Tuple {
    sends(
        Bus::ByteAlu,
        vec![
            constant(operation),
            Operand::Sum(left),
            Operand::Sum(right),
            Operand::Sum(result),
        ],
    )
}

/// Numbers of the ByteAlu operations.
const AND: u64 = 0;
const XOR: u64 = 2;

fn constant(number: u64) -> Operand {
    Operand::Sum(Sum::constant(number as i64))
}

fn cells(columns: impl IntoIterator<Item = usize>) -> Vec<Operand> {
    columns
        .into_iter()
        .map(|column| Operand::Sum(Sum::column(column)))
        .collect()
}

/// A state's 200 bytes as the Keccak bus has them: x outermost, then y, then the byte.
fn state(start: usize) -> impl Iterator<Item = usize> {
    (0..200).map(move |at| lane(start, at / 40, at / 8 % 5, at % 8))
}
