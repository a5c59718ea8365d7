//! Tuples: the published bus interactions evaluated on one row.

use stark::lookup::{BusInteraction, BusValue, LinearTerm, Multiplicity, Packing};

use crate::row::elements;
use crate::tables::types::{FE, alu_op};

/// The buses that the compiled files name, numbered as in this project's definitions.
#[derive(Debug, Clone, Copy, PartialEq, Eq, PartialOrd, Ord, Hash)]
pub enum Bus {
    /// AND, OR, XOR of two bytes.
    ByteAlu,
    /// Two bytes.
    AreBytes,
    /// A halfword.
    IsHalfword,
    /// A 32-bit word and a halfword.
    IsWh,
    /// A round and its constant's bytes.
    KeccakRc,
    /// A timestamp, a round and a state.
    Keccak,
    /// A memory access.
    Memw,
    /// A system call.
    Ecall,
    /// The top bit of a byte.
    Msb8,
    /// The top bit of a halfword.
    Msb16,
    /// Whether a number is zero.
    Zero,
    /// A number below 2^20.
    IsB20,
    /// A halfword shifted left.
    Hwsl,
}

impl Bus {
    /// Every bus, at its number.
    pub const ALL: [Self; 13] = [
        Self::ByteAlu,
        Self::AreBytes,
        Self::IsHalfword,
        Self::IsWh,
        Self::KeccakRc,
        Self::Keccak,
        Self::Memw,
        Self::Ecall,
        Self::Msb8,
        Self::Msb16,
        Self::Zero,
        Self::IsB20,
        Self::Hwsl,
    ];

    /// This bus's place in [`Bus::ALL`].
    pub const fn number(self) -> usize {
        self as usize
    }
}

impl From<Bus> for u64 {
    fn from(bus: Bus) -> Self {
        bus.number() as u64
    }
}

/// Whether a row sends or receives a tuple.
#[derive(Debug, Clone, Copy, PartialEq, Eq, PartialOrd, Ord, Hash)]
pub enum Side {
    /// The row sends it; number 0.
    Sender,
    /// The row receives it; number 1.
    Receiver,
}

/// A bus interaction of one row.
#[derive(Debug, Clone, PartialEq, Eq, PartialOrd, Ord, Hash)]
pub struct Tuple {
    /// The bus.
    pub bus: Bus,
    /// Whether the row sends or receives it.
    pub side: Side,
    /// How often, below p.
    pub multiplicity: u64,
    /// The values, each below p. On [`Bus::ByteAlu`] the first is 0 AND, 1 OR, 2 XOR.
    pub values: Vec<u64>,
}

/// The tuples of `interactions` on a row, in their order.
pub(crate) fn tuples(interactions: &[BusInteraction], row: &[u64]) -> Vec<Tuple> {
    let row = elements(row);
    interactions
        .iter()
        .map(|interaction| {
            let bus = bus(interaction);
            let mut values: Vec<u64> = interaction.values.iter().map(|v| value(v, &row).value()).collect();
            if bus == Bus::ByteAlu {
                values[0] = operation_number(values[0]);
            }
            Tuple {
                bus,
                side: side(interaction),
                multiplicity: multiplicity(interaction, &row).value(),
                values,
            }
        })
        .collect()
}

/// Evaluates one interaction on a row of elements: its values, ByteAlu's markers as they are, go to the front of `out`, and
/// its multiplicity is answered. For a benchmark, which allocates nothing for a tuple.
pub fn evaluate(interaction: &BusInteraction, row: &[FE], out: &mut [FE]) -> FE {
    for (place, bus_value) in out.iter_mut().zip(&interaction.values) {
        *place = value(bus_value, row);
    }
    multiplicity(interaction, row)
}

/// Per bus and side, the sum of the multiplicities over every row of a table, as a whole number.
#[derive(Debug, Clone, Copy, Default, PartialEq, Eq)]
pub struct BusSums {
    sent: [u128; Bus::ALL.len()],
    received: [u128; Bus::ALL.len()],
}

impl BusSums {
    /// What the rows send on a bus.
    pub fn sent(&self, bus: Bus) -> u128 {
        self.sent[bus.number()]
    }

    /// What the rows receive on a bus.
    pub fn received(&self, bus: Bus) -> u128 {
        self.received[bus.number()]
    }
}

/// The sums of `interactions` over a table's rows of `width` columns.
pub(crate) fn bus_sums(interactions: &[BusInteraction], table: &[u64], width: usize) -> BusSums {
    assert!(
        table.len().is_multiple_of(width),
        "{} words are no whole rows of {width}",
        table.len()
    );
    let mut sums = BusSums::default();
    for row in table.chunks_exact(width) {
        let row = elements(row);
        for interaction in interactions {
            let side = match side(interaction) {
                Side::Sender => &mut sums.sent,
                Side::Receiver => &mut sums.received,
            };
            side[bus(interaction).number()] += u128::from(multiplicity(interaction, &row).value());
        }
    }
    sums
}

fn bus(interaction: &BusInteraction) -> Bus {
    Bus::ALL[interaction.bus as usize]
}

fn side(interaction: &BusInteraction) -> Side {
    if interaction.is_sender {
        Side::Sender
    } else {
        Side::Receiver
    }
}

fn multiplicity(interaction: &BusInteraction, row: &[FE]) -> FE {
    match interaction.multiplicity {
        Multiplicity::One => FE::one(),
        Multiplicity::Column(column) => row[column],
    }
}

fn value(value: &BusValue, row: &[FE]) -> FE {
    match value {
        BusValue::Packed {
            start_column,
            packing: Packing::Direct,
        } => row[*start_column],
        BusValue::Linear(terms) => terms.iter().fold(FE::zero(), |sum, term| {
            sum + match *term {
                LinearTerm::Column { coefficient, column } => FE::from_signed(coefficient) * row[column],
                LinearTerm::Constant(number) => FE::from_signed(number),
            }
        }),
        BusValue::Constant(number) => FE::from(*number),
    }
}

/// This project's number for the Rust's marker of an operation.
fn operation_number(marker: u64) -> u64 {
    [alu_op::AND, alu_op::OR, alu_op::XOR]
        .iter()
        .position(|&operation| u64::from(operation) == marker)
        .expect("a ByteAlu tuple starts with an operation's marker") as u64
}
