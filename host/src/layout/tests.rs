//! The descriptions, held against the proved code on drawn rows.

use super::*;
use crate::{P, Parameters, keccak, keccak_rnd};

const SYSCALL: u64 = 0x0000_0007_FFFF_FFFE;

/// Elements, each worked out from the one before it.
fn drawn(seed: u64, count: usize) -> Vec<u64> {
    let mut word = seed;
    let mut next = || {
        word = element(i128::from(times(word, 6_364_136_223_846_793_005)) + 1);
        word
    };
    (0..count).map(|_| next()).collect()
}

/// Distinct numbers below 2^16: column 0 holds 1,000, and so on.
fn numbered(count: usize) -> Vec<u64> {
    (1000..1000 + count as u64).collect()
}

fn times(left: u64, right: u64) -> u64 {
    (u128::from(left) * u128::from(right) % u128::from(P)) as u64
}

fn minus(left: u64, right: u64) -> u64 {
    element(i128::from(left) - i128::from(right))
}

fn element(number: i128) -> u64 {
    number.rem_euclid(i128::from(P)) as u64
}

fn sum(sum: &Sum, row: &[u64]) -> u64 {
    let terms = sum
        .terms
        .iter()
        .map(|&(factor, column)| i128::from(factor) * i128::from(row[column]));
    element(i128::from(sum.constant) + terms.sum::<i128>())
}

/// 2^96 is -1 mod p, so the inverse of 2^32 is -(2^64).
fn over_2_32(number: u64) -> u64 {
    times(number, minus(0, element(1 << 64)))
}

fn bit(number: u64) -> u64 {
    times(number, minus(1, number))
}

fn evaluate(value: &Value, row: &[u64]) -> u64 {
    let mu = *row.last().unwrap();
    let carry = |low: &Sum, high: &Sum| {
        over_2_32(element(
            i128::from(sum(high, row)) + i128::from(over_2_32(sum(low, row))),
        ))
    };
    match value {
        Value::Bit(column) => bit(row[*column]),
        Value::Shift { by, input, left, right } => {
            let taken = minus(times(sum(input, row), 1 << by), times(sum(right, row), 1 << 16));
            times(mu, minus(taken, sum(left, row)))
        }
        Value::CarryBit { low, high: None } => times(mu, bit(over_2_32(sum(low, row)))),
        Value::CarryBit { low, high: Some(high) } => times(mu, bit(carry(low, high))),
        Value::NoCarry { low, high } => times(mu, carry(low, high)),
    }
}

fn width(table: Table) -> usize {
    match table {
        Table::Core => keccak::NUM_COLUMNS,
        Table::Round => keccak_rnd::NUM_COLUMNS,
    }
}

fn rows(table: Table) -> Vec<Vec<u64>> {
    let mut rows: Vec<Vec<u64>> = (2..7).map(|seed| drawn(seed, width(table))).collect();
    rows.push(numbered(width(table)));
    rows
}

fn hold_values(table: Table, count: usize, call: fn(&[u64], &mut [u64]) -> Result<(), crate::Refusal>) {
    let mut out = vec![0; count];
    for row in rows(table) {
        call(&row, &mut out).unwrap();
        for (index, &answer) in out.iter().enumerate() {
            let (place, value) = value(table, index).unwrap();
            assert_eq!(evaluate(&value, &row), answer, "{table} value {index}: {place}");
        }
    }
    assert!(value(table, count).is_none());
}

#[test]
fn values_are_the_proved_ones() {
    hold_values(Table::Core, keccak::NUM_VALUES, keccak::core_values);
    hold_values(Table::Round, keccak_rnd::NUM_VALUES, keccak_rnd::round_values);
}

type Ask = fn(Parameters, &[u64], usize, &mut [u64]) -> Result<crate::BusInteraction, crate::Refusal>;

fn operand(operand: &Operand, parameters: Parameters, row: &[u64]) -> u64 {
    match operand {
        Operand::Sum(terms) => sum(terms, row),
        Operand::Syscall(0) => SYSCALL & 0xFFFF_FFFF,
        Operand::Syscall(_) => SYSCALL >> 32,
        Operand::FirstRound => 24 - parameters.rounds,
    }
}

fn hold_tuples(table: Table, count: usize, ask: Ask) {
    let mut out = [0; 203];
    for (row, rounds) in rows(table).into_iter().zip([24, 23, 12, 2, 1, 24]) {
        let parameters = Parameters::default().rounds(rounds);
        for index in 0..count {
            let answer = ask(parameters, &row, index, &mut out).unwrap();
            let (place, tuple) = tuple(table, index).unwrap();
            let what = format!("{table} tuple {index}: {place}, {rounds} rounds");
            let operands = tuple.values.iter();
            let values: Vec<u64> = operands.map(|value| operand(value, parameters, &row)).collect();
            assert_eq!((tuple.bus, tuple.side), (answer.bus, answer.side), "{what}");
            assert_eq!(values, out[..answer.length], "{what}");
            assert_eq!(
                if tuple.by_mu { *row.last().unwrap() } else { 1 },
                answer.multiplicity,
                "{what}"
            );
        }
    }
    assert!(tuple(table, count).is_none());
}

#[test]
fn tuples_are_the_proved_ones() {
    hold_tuples(Table::Core, keccak::NUM_TUPLES, |parameters, row, index, out| {
        keccak::bus_interaction_with(parameters, row, index, SYSCALL, out)
    });
    hold_tuples(Table::Round, keccak_rnd::NUM_TUPLES, |_, row, index, out| {
        keccak_rnd::bus_interaction(row, index, out)
    });
}

#[test]
fn groups_of_columns_fill_the_rows() {
    for table in [Table::Core, Table::Round] {
        let total: usize = columns(table).iter().map(Group::size).sum();
        assert_eq!(total, width(table));
        assert!(column(table, total).is_none());
    }
}

/// The index of a column that there is.
fn first(table: Table, name: &str) -> usize {
    named(table, name).unwrap_or_else(|| panic!("{name}"))
}

/// A group's name and the column of each of its places.
type Named3 = (Table, &'static str, fn(usize, usize, usize) -> usize);

#[test]
fn names_go_with_the_columns_of_states() {
    use keccak::cols as core;
    use keccak_rnd::cols as round;
    let states: [Named3; 8] = [
        (Table::Core, "INPUT", core::input_state),
        (Table::Core, "OUTPUT", core::output_state),
        (Table::Round, "START", round::start),
        (Table::Round, "THETA", round::theta),
        (Table::Round, "ROT_LEFT", round::rot_left),
        (Table::Round, "ROT_RIGHT", round::rot_right),
        (Table::Round, "CHI_ANDS", round::chi_ands),
        (Table::Round, "CHI", round::chi),
    ];
    for (table, name, column) in states {
        for (x, y, byte) in (0..200).map(|at| (at / 40, at / 8 % 5, at % 8)) {
            assert_eq!(first(table, &format!("{name}[{x}][{y}][{byte}]")), column(x, y, byte));
        }
    }
}

#[test]
fn names_go_with_the_other_columns() {
    use keccak::cols as core;
    use keccak_rnd::cols as round;
    for (x, stage, byte) in (0..160).map(|at| (at / 32, at / 8 % 4, at % 8)) {
        let name = format!("CXZ[{x}][{stage}][{byte}]");
        assert_eq!(first(Table::Round, &name), round::cxz(x, stage, byte));
    }
    for (lane, limb) in (0..75).map(|at| (at / 3, at % 3)) {
        assert_eq!(
            first(Table::Core, &format!("POINTER[{lane}][{limb}]")),
            core::state_ptr(lane, limb)
        );
    }
    for (x, byte) in (0..40).map(|at| (at / 8, at % 8)) {
        assert_eq!(
            first(Table::Round, &format!("CXZ_LEFT[{x}][{byte}]")),
            round::cxz_left(x, byte)
        );
        assert_eq!(first(Table::Round, &format!("DXZ[{x}][{byte}]")), round::dxz(x, byte));
    }
    for (x, half) in (0..20).map(|at| (at / 4, at % 4)) {
        assert_eq!(
            first(Table::Round, &format!("CXZ_RIGHT[{x}][{half}]")),
            round::cxz_right_bit(x, half)
        );
    }
    for byte in 0..8 {
        assert_eq!(first(Table::Core, &format!("ADDRESS[{byte}]")), core::addr(byte));
        assert_eq!(first(Table::Round, &format!("RC[{byte}]")), round::rc(byte));
        assert_eq!(first(Table::Round, &format!("IOTA[{byte}]")), round::iota(byte));
    }
    assert_eq!(first(Table::Core, "MU"), core::MU);
    assert_eq!(
        (first(Table::Round, "ROUND"), first(Table::Round, "MU")),
        (round::ROUND, round::MU)
    );
}

/// The numbers of the definitions that the proofs are about, by name: lines `NAME = 123`.
#[test]
fn columns_are_those_of_the_definitions() {
    use keccak::cols as core;
    use keccak_rnd::cols as round;
    let core = [
        ("TIMESTAMP_0", core::TIMESTAMP_0),
        ("TIMESTAMP_1", core::TIMESTAMP_1),
        ("ADDR", core::ADDR),
        ("INPUT_STATE", core::INPUT_STATE),
        ("OUTPUT_STATE", core::OUTPUT_STATE),
        ("STATE_PTR", core::STATE_PTR),
        ("MU", core::MU),
        ("NUM_COLUMNS", keccak::NUM_COLUMNS),
    ];
    let round = [
        ("TIMESTAMP_0", round::TIMESTAMP_0),
        ("TIMESTAMP_1", round::TIMESTAMP_1),
        ("ROUND", round::ROUND),
        ("START", round::START),
        ("CXZ", round::CXZ),
        ("CXZ_LEFT", round::CXZ_LEFT),
        ("CXZ_RIGHT", round::CXZ_RIGHT),
        ("DXZ", round::DXZ),
        ("THETA", round::THETA),
        ("ROT_LEFT", round::ROT_LEFT),
        ("ROT_RIGHT", round::ROT_RIGHT),
        ("CHI_ANDS", round::CHI_ANDS),
        ("CHI", round::CHI),
        ("RC", round::RC),
        ("IOTA", round::IOTA),
        ("MU", round::MU),
        ("NUM_COLUMNS", keccak_rnd::NUM_COLUMNS),
    ];
    for (name, columns) in [("keccak", &core[..]), ("keccak_rnd", &round)] {
        let path = format!("{}/../crates/{name}/specs/Columns.antt", env!("CARGO_MANIFEST_DIR"));
        let text = std::fs::read_to_string(path).unwrap();
        let numbers = text.lines().filter_map(|line| {
            let (name, number) = line.split_once(" = ")?;
            Some((name.replace('-', "_"), number.parse().ok()?))
        });
        let columns: Vec<(String, usize)> = columns.iter().map(|&(name, at)| (name.to_string(), at)).collect();
        assert_eq!(columns, numbers.collect::<Vec<_>>(), "{name}");
    }
}

#[test]
fn written_rows_have_the_named_columns() {
    let input: [u64; 25] =
        std::array::from_fn(|lane| u64::from_le_bytes([8 * lane as u8 + 1; 8]) + 0x0706_0504_0302_0100);
    let output = input.map(|lane| !lane);
    let operation = crate::Operation {
        timestamp: 5 << 32 | 6,
        address: 0x0102_0304_0506_0708,
        input,
        output,
        segment: 7,
    };
    let mut row = [0; keccak::NUM_COLUMNS];
    keccak::keccak_row(&operation.words(), 0, &mut row).unwrap();
    let core = |name: &str| row[named(Table::Core, name).unwrap()];
    assert_eq!((core("TIMESTAMP[0]"), core("TIMESTAMP[1]"), core("MU")), (6, 5, 1));
    assert_eq!((core("ADDRESS[0]"), core("ADDRESS[7]")), (8, 1));
    assert_eq!(
        (core("POINTER[3][0]"), core("POINTER[3][1]"), core("POINTER[3][2]")),
        (0x0720, 0x0506, 0x0102_0304)
    );
    let mut round = [0; keccak_rnd::NUM_COLUMNS];
    keccak_rnd::keccak_rnd_row(operation.timestamp, &input, 3, &mut round).unwrap();
    let rnd = |name: &str| round[named(Table::Round, name).unwrap()];
    assert_eq!((rnd("TIMESTAMP[0]"), rnd("ROUND"), rnd("MU")), (6, 3, 1));
    for (x, y, byte) in (0..200).map(|at| (at / 40, at / 8 % 5, at % 8)) {
        let place = format!("[{x}][{y}][{byte}]");
        let expected = input[x + 5 * y] >> (8 * byte) & 255;
        assert_eq!(core(&format!("INPUT{place}")), expected);
        assert_eq!(core(&format!("OUTPUT{place}")), 255 - expected);
        assert_eq!(rnd(&format!("START{place}")), expected);
        let d = rnd(&format!("DXZ[{x}][{byte}]"));
        assert_eq!(rnd(&format!("THETA{place}")), expected ^ d);
    }
    assert_eq!(rnd("IOTA[1]"), rnd("CHI[0][0][1]") ^ rnd("RC[1]"));
}
