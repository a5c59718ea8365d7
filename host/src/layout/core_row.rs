//! The core row. Orders are those of the published keccak.rs.

use super::group::{Axis, Group, LANES, Make};
use super::{AND, Operand, Sum, Tuple, Value, byte_alu, cells, constant, receives, sends, state};
use crate::keccak::cols::{self, ADDR, INPUT_STATE, MU, OUTPUT_STATE, TIMESTAMP_0, TIMESTAMP_1};
use crate::tuple::Bus;

pub static COLUMNS: [Group<()>; 6] = [
    Group::columns(
        "TIMESTAMP",
        &[(Axis::Word, 2)],
        "when the call was made, low and high 32 bits",
    ),
    Group::columns("ADDRESS", &[(Axis::Byte, 8)], "a byte of the address of the state"),
    Group::columns("INPUT", LANES, "a byte of the state before"),
    Group::columns("OUTPUT", LANES, "a byte of the state after"),
    Group::columns(
        "POINTER",
        &[(Axis::Lane, 25), (Axis::Limb, 3)],
        "the address of a lane, in limbs of 16, 16 and 32 bits",
    ),
    Group::columns("MU", &[], "1 in an active row, 0 in a padding row"),
];

pub static VALUES: [Group<Make<Value>>; 3] = [
    Group {
        name: "pointer",
        axes: &[(Axis::Lane, 25), (Axis::Word, 2)],
        says: "a lane's pointer is ADDRESS + 8 * lane: the carry out of 32 bits is 0 or 1",
        make: pointer_carry,
    },
    Group {
        name: "last pointer",
        axes: &[],
        says: "the last lane's pointer does not pass 2^64: the carry out of its high 32 bits is 0",
        make: |_| Value::NoCarry {
            low: low_difference(24),
            high: high_difference(24),
        },
    },
    Group {
        name: "MU",
        axes: &[],
        says: "MU is 0 or 1",
        make: |_| Value::Bit(MU),
    },
];

fn pointer_carry(at: &[usize]) -> Value {
    let (lane, word) = (at[0], at[1]);
    Value::CarryBit {
        low: low_difference(lane),
        high: (word == 1).then(|| high_difference(lane)),
    }
}

/// The low 32 bits of the pointer, from its limbs.
fn pointer_low(lane: usize) -> Sum {
    let start = cols::state_ptr(lane, 0);
    Sum {
        constant: 0,
        terms: vec![(1, start), (1 << 16, start + 1)],
    }
}

fn pointer_high(lane: usize) -> usize {
    cols::state_ptr(lane, 2)
}

fn low_difference(lane: usize) -> Sum {
    let offset = Sum::constant(8 * lane as i64);
    Sum::bytes(ADDR, 4).plus(offset).minus(pointer_low(lane))
}

fn high_difference(lane: usize) -> Sum {
    Sum::bytes(ADDR + 4, 4).minus(Sum::column(pointer_high(lane)))
}

pub static TUPLES: [Group<Make<Tuple>>; 8] = [
    Group {
        name: "system call",
        axes: &[],
        says: "the call that the processor made",
        make: |_| ecall(),
    },
    Group {
        name: "address register",
        axes: &[],
        says: "the address is what register x10 holds",
        make: |_| register(),
    },
    Group {
        name: "state before",
        axes: &[],
        says: "INPUT is given to the first round",
        make: |_| sends(Bus::Keccak, keccak(Operand::FirstRound, INPUT_STATE)),
    },
    Group {
        name: "state after",
        axes: &[],
        says: "OUTPUT is taken after round 23",
        make: |_| receives(Bus::Keccak, keccak(constant(24), OUTPUT_STATE)),
    },
    Group {
        name: "pointer's limbs",
        axes: &[(Axis::Lane, 25), (Axis::Limb, 2)],
        says: "the limbs of a lane's pointer are in range: first the upper two, then the lowest",
        make: limbs,
    },
    Group {
        name: "alignment",
        axes: &[],
        says: "the address is a multiple of 8",
        make: |_| byte_alu(AND, Sum::column(ADDR), Sum::constant(7), Sum::constant(0)),
    },
    Group {
        name: "address bytes",
        axes: &[(Axis::Pair, 4)],
        says: "the parts of the address are bytes",
        make: |at| sends(Bus::AreBytes, cells([ADDR + 2 * at[0], ADDR + 2 * at[0] + 1])),
    },
    Group {
        name: "lane in memory",
        axes: &[(Axis::Lane, 25)],
        says: "a lane of INPUT is read and the same lane of OUTPUT written at its pointer",
        make: |at| memory(at[0]),
    },
];

fn ecall() -> Tuple {
    let mut values = cells([TIMESTAMP_0, TIMESTAMP_1]);
    values.extend([Operand::Syscall(0), Operand::Syscall(1)]);
    receives(Bus::Ecall, values)
}

fn register() -> Tuple {
    let mut address = vec![Operand::Sum(Sum::bytes(ADDR, 4)), Operand::Sum(Sum::bytes(ADDR + 4, 4))];
    address.extend([0; 6].map(constant));
    let mut values = address.clone();
    values.extend([1, 20, 0].map(constant));
    values.extend(address);
    values.extend(cells([TIMESTAMP_0, TIMESTAMP_1]));
    values.extend([1, 0, 0].map(constant));
    sends(Bus::Memw, values)
}

fn keccak(round: Operand, start: usize) -> Vec<Operand> {
    let mut values = cells([TIMESTAMP_0, TIMESTAMP_1]);
    values.push(round);
    values.extend(cells(state(start)));
    values
}

fn limbs(at: &[usize]) -> Tuple {
    let start = cols::state_ptr(at[0], 0);
    match at[1] {
        0 => sends(Bus::IsWh, cells([start + 2, start + 1])),
        _ => sends(Bus::IsHalfword, cells([start])),
    }
}

fn memory(number: usize) -> Tuple {
    let (x, y) = (number % 5, number / 5);
    let mut values = cells((0..8).map(|byte| cols::input_state(x, y, byte)));
    values.push(constant(0));
    values.push(Operand::Sum(pointer_low(number)));
    values.extend(cells([pointer_high(number)]));
    values.extend(cells((0..8).map(|byte| cols::output_state(x, y, byte))));
    values.extend(cells([TIMESTAMP_0, TIMESTAMP_1]));
    values.extend([0, 0, 1].map(constant));
    sends(Bus::Memw, values)
}
