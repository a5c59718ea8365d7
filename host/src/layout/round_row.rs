//! The round row. Orders are those of the published keccak_rnd.rs.

use super::group::{Axes, Axis, Group, LANES, Make};
use super::{AND, Operand, Sum, Tuple, Value, XOR, always_bytes, byte_alu, cells, receives, sends, state};
use crate::keccak_rnd::cols::{self, CHI, IOTA, MU, RC, ROUND, START, TIMESTAMP_0, TIMESTAMP_1};
use crate::tuple::Bus;

/// A state where x is slowest, as in the order of values and tuples.
const BY_X: Axes = &[(Axis::X, 5), (Axis::Y, 5), (Axis::Byte, 8)];
const SHEETS: Axes = &[(Axis::X, 5), (Axis::Byte, 8)];
const HALVES: Axes = &[(Axis::X, 5), (Axis::Halfword, 4)];
const BYTES: Axes = &[(Axis::Byte, 8)];

pub static COLUMNS: [Group<()>; 15] = [
    Group::columns(
        "TIMESTAMP",
        &[(Axis::Word, 2)],
        "when the call was made, low and high 32 bits",
    ),
    Group::columns("ROUND", &[], "the round, 0 to 23"),
    Group::columns("START", LANES, "a byte of the state before the round"),
    Group::columns(
        "CXZ",
        &[(Axis::X, 5), (Axis::Stage, 4), (Axis::Byte, 8)],
        "a byte of the XOR of the lanes y = 0 to stage + 1; stage 3 is the column's parity C",
    ),
    Group::columns(
        "CXZ_LEFT",
        SHEETS,
        "a byte of C's halfwords shifted left by one bit, low sixteen bits",
    ),
    Group::columns("CXZ_RIGHT", HALVES, "the bit that this shift moves out of a halfword"),
    Group::columns(
        "DXZ",
        SHEETS,
        "a byte of D: C of x - 1, XOR C of x + 1 rotated by one bit",
    ),
    Group::columns("THETA", LANES, "a byte of the state after theta: START XOR D"),
    Group::columns(
        "ROT_LEFT",
        LANES,
        "a byte of THETA's halfwords shifted left by rho mod 16, low sixteen bits",
    ),
    Group::columns("ROT_RIGHT", LANES, "a byte of what this shift moves out of a halfword"),
    Group::columns("CHI_ANDS", LANES, "a byte of (not pi of x + 1) AND pi of x + 2"),
    Group::columns("CHI", LANES, "a byte of the state after chi: pi XOR CHI_ANDS"),
    Group::columns("RC", BYTES, "a byte of the round's constant"),
    Group::columns("IOTA", BYTES, "a byte of lane (0, 0) after iota: CHI XOR RC"),
    Group::columns("MU", &[], "1 in an active row, 0 in a padding row"),
];

pub static VALUES: [Group<Make<Value>>; 4] = [
    Group {
        name: "carry of C",
        axes: HALVES,
        says: "CXZ_RIGHT is 0 or 1",
        make: |at| Value::Bit(cols::cxz_right_bit(at[0], at[1])),
    },
    Group {
        name: "shift of C",
        axes: HALVES,
        says: "CXZ_LEFT and CXZ_RIGHT are a halfword of C shifted by one bit",
        make: shift_of_c,
    },
    Group {
        name: "shift by rho",
        axes: &[(Axis::X, 5), (Axis::Y, 5), (Axis::Halfword, 4)],
        says: "ROT_LEFT and ROT_RIGHT are a halfword of THETA shifted by rho mod 16",
        make: shift_by_rho,
    },
    Group {
        name: "MU",
        axes: &[],
        says: "MU is 0 or 1",
        make: |_| Value::Bit(MU),
    },
];

fn shift_of_c(at: &[usize]) -> Value {
    let (x, half) = (at[0], at[1]);
    Value::Shift {
        by: 1,
        input: Sum::bytes(cols::cxz(x, 3, 2 * half), 2),
        left: Sum::bytes(cols::cxz_left(x, 2 * half), 2),
        right: Sum::column(cols::cxz_right_bit(x, half)),
    }
}

fn shift_by_rho(at: &[usize]) -> Value {
    let (x, y, half) = (at[0], at[1], at[2]);
    Value::Shift {
        by: rho(x, y) % 16,
        input: Sum::bytes(cols::theta(x, y, 2 * half), 2),
        left: Sum::bytes(cols::rot_left(x, y, 2 * half), 2),
        right: Sum::bytes(cols::rot_right(x, y, 2 * half), 2),
    }
}

pub static TUPLES: [Group<Make<Tuple>>; 12] = [
    Group {
        name: "state before",
        axes: &[],
        says: "START is taken after the round before",
        make: |_| taken(),
    },
    Group {
        name: "state after",
        axes: &[],
        says: "the state after the round is given on",
        make: |_| given(),
    },
    Group {
        name: "round constant",
        axes: &[],
        says: "RC is the constant of ROUND",
        make: |_| round_constant(),
    },
    Group {
        name: "first stage of C",
        axes: SHEETS,
        says: "CXZ is the XOR of the lanes y = 0 and 1",
        make: first_stage,
    },
    Group {
        name: "later stage of C",
        axes: &[(Axis::X, 5), (Axis::Stage, 3), (Axis::Byte, 8)],
        says: "CXZ of stage + 1 is CXZ of stage XOR the lane y = stage + 2",
        make: later_stage,
    },
    Group {
        name: "bytes of CXZ_LEFT",
        axes: &[(Axis::X, 5), (Axis::Pair, 4)],
        says: "two of CXZ_LEFT are bytes",
        make: |at| always_bytes(cols::cxz_left(at[0], 2 * at[1]), cols::cxz_left(at[0], 2 * at[1] + 1)),
    },
    Group {
        name: "D",
        axes: SHEETS,
        says: "DXZ is C of x - 1, XOR C of x + 1 rotated by one bit",
        make: d,
    },
    Group {
        name: "theta",
        axes: BY_X,
        says: "THETA is START XOR D",
        make: theta,
    },
    Group {
        name: "bytes of ROT",
        axes: BY_X,
        says: "one of ROT_LEFT and one of ROT_RIGHT are bytes",
        make: |at| {
            always_bytes(
                cols::rot_left(at[0], at[1], at[2]),
                cols::rot_right(at[0], at[1], at[2]),
            )
        },
    },
    Group {
        name: "AND of chi",
        axes: BY_X,
        says: "CHI_ANDS is (not pi of x + 1) AND pi of x + 2",
        make: chi_and,
    },
    Group {
        name: "XOR of chi",
        axes: BY_X,
        says: "CHI is pi XOR CHI_ANDS",
        make: chi_xor,
    },
    Group {
        name: "iota",
        axes: BYTES,
        says: "IOTA is CHI of lane (0, 0) XOR RC",
        make: iota,
    },
];

fn taken() -> Tuple {
    receives(
        Bus::Keccak,
        cells([TIMESTAMP_0, TIMESTAMP_1, ROUND].into_iter().chain(state(START))),
    )
}

fn given() -> Tuple {
    let mut values = cells([TIMESTAMP_0, TIMESTAMP_1]);
    values.push(Operand::Sum(Sum::column(ROUND).plus(Sum::constant(1))));
    values.extend(cells(after()));
    sends(Bus::Keccak, values)
}

/// The columns of the state after the round: IOTA for lane (0, 0), CHI for the others.
fn after() -> impl Iterator<Item = usize> {
    state(CHI).map(|column| if column < CHI + 8 { column - CHI + IOTA } else { column })
}

fn round_constant() -> Tuple {
    sends(Bus::KeccakRc, cells([ROUND].into_iter().chain(RC..RC + 8)))
}

fn xor(left: Sum, right: Sum, result: usize) -> Tuple {
    byte_alu(XOR, left, right, Sum::column(result))
}

fn first_stage(at: &[usize]) -> Tuple {
    let (x, byte) = (at[0], at[1]);
    xor(
        Sum::column(cols::start(x, 0, byte)),
        Sum::column(cols::start(x, 1, byte)),
        cols::cxz(x, 0, byte),
    )
}

fn later_stage(at: &[usize]) -> Tuple {
    let (x, stage, byte) = (at[0], at[1] + 1, at[2]);
    let before = Sum::column(cols::cxz(x, stage - 1, byte));
    xor(
        before,
        Sum::column(cols::start(x, stage + 1, byte)),
        cols::cxz(x, stage, byte),
    )
}

fn d(at: &[usize]) -> Tuple {
    let (x, byte) = (at[0], at[1]);
    let next = (x + 1) % 5;
    let mut rotated = Sum::column(cols::cxz_left(next, byte));
    if byte % 2 == 0 {
        rotated = rotated.plus(Sum::column(cols::cxz_right_bit(next, (byte / 2 + 3) % 4)));
    }
    xor(
        Sum::column(cols::cxz((x + 4) % 5, 3, byte)),
        rotated,
        cols::dxz(x, byte),
    )
}

fn theta(at: &[usize]) -> Tuple {
    let (x, y, byte) = (at[0], at[1], at[2]);
    let start = Sum::column(cols::start(x, y, byte));
    xor(start, Sum::column(cols::dxz(x, byte)), cols::theta(x, y, byte))
}

fn chi_and(at: &[usize]) -> Tuple {
    let (x, y, byte) = (at[0], at[1], at[2]);
    let not_next = Sum::constant(255).minus(pi((x + 1) % 5, y, byte));
    byte_alu(
        AND,
        not_next,
        pi((x + 2) % 5, y, byte),
        Sum::column(cols::chi_ands(x, y, byte)),
    )
}

fn chi_xor(at: &[usize]) -> Tuple {
    let (x, y, byte) = (at[0], at[1], at[2]);
    xor(
        pi(x, y, byte),
        Sum::column(cols::chi_ands(x, y, byte)),
        cols::chi(x, y, byte),
    )
}

fn iota(at: &[usize]) -> Tuple {
    let byte = at[0];
    xor(Sum::column(CHI + byte), Sum::column(cols::rc(byte)), cols::iota(byte))
}

/// A byte of the state after rho and pi, which has no column of its own: the shifted halfword's byte, and what came out of
/// the halfword below.
fn pi(x: usize, y: usize, byte: usize) -> Sum {
    let (from_x, from_y) = ((x + 3 * y) % 5, x);
    let halves = rho(from_x, from_y) as usize / 16;
    let left = (byte + 8 - 2 * halves) % 8;
    let right = (left + 6) % 8;
    Sum::column(cols::rot_left(from_x, from_y, left)).plus(Sum::column(cols::rot_right(from_x, from_y, right)))
}

/// The offset of a lane mod 64, by the walk of FIPS 202, section 3.2.2.
fn rho(x: usize, y: usize) -> u32 {
    let (mut at_x, mut at_y) = (1, 0);
    for t in 0..24 {
        if (at_x, at_y) == (x, y) {
            return (t + 1) * (t + 2) / 2 % 64;
        }
        (at_x, at_y) = (at_y, (2 * at_x + 3 * at_y) % 5);
    }
    0
}
