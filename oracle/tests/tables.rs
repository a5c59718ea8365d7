//! Rows, values, tuples, counts and sums of honest tables.

mod common;

use std::collections::BTreeMap;

use common::{lanes_of, operation, state_after};
use oracle::Bus::*;
use oracle::Side::{Receiver, Sender};
use oracle::lanes::{CONSTANTS, State, keccak_f, next, offset};
use oracle::sample::{self, Generator};
use oracle::{
    BITWISE_COLUMNS, BitwiseTable, Bus, CORE_COLUMNS, COUNTERS, Counters, Lookup, OPERATION_WORDS, P, ROUND_COLUMNS,
    Side, Tuple,
};

/// `n` operations with addresses that are multiples of 8, their inputs drawn, outputs by the lanes of FIPS 202.
fn operations(seed: u64, n: usize) -> Vec<u64> {
    let mut generator = Generator::new(seed);
    let mut draw = || {
        let input: State = core::array::from_fn(|_| generator.word() ^ generator.word() << 1);
        operation(generator.word(), generator.word() / 8 * 8, &input)
    };
    (0..n).flat_map(|_| draw()).collect()
}

/// How many tuples there are on each bus and side.
fn numbers(tuples: &[Tuple]) -> BTreeMap<(Bus, Side), usize> {
    let mut numbers = BTreeMap::new();
    for tuple in tuples {
        *numbers.entry((tuple.bus, tuple.side)).or_default() += 1;
    }
    numbers
}

/// FIPS 202, table 2: the offsets in its order, columns x = 3, 4, 0, 1, 2 and rows y = 2, 1, 0, 4, 3.
const TABLE_2: [[u32; 5]; 5] = [
    [153, 231, 3, 10, 171],
    [55, 276, 36, 300, 6],
    [28, 91, 0, 1, 190],
    [120, 78, 210, 66, 253],
    [21, 136, 105, 45, 15],
];

#[test]
fn the_offsets_and_constants_are_the_printed_ones() {
    use executor::vm::instruction::execution::{KECCAK_RC, KECCAK_RHO};
    assert_eq!(KECCAK_RC, CONSTANTS);
    for (row, y) in [2, 1, 0, 4, 3].into_iter().enumerate() {
        for (column, x) in [3, 4, 0, 1, 2].into_iter().enumerate() {
            let printed = TABLE_2[row][column] % 64;
            assert_eq!([KECCAK_RHO[x][y], offset(x, y)], [printed; 2], "lane ({x}, {y})");
        }
    }
}

#[test]
fn the_permutation_of_zero() {
    let first_lanes = [
        0xF1258F7940E1DDE7,
        0x84D5CCF933C0478A,
        0xD598261EA65AA9EE,
        0xBD1547306F80494D,
        0x8B284E056253D057,
    ];
    assert_eq!(keccak_f(&[0; 25])[..5], first_lanes);
    let table = oracle::round_table(&[0; OPERATION_WORDS]);
    assert_eq!(
        state_after(&table[23 * ROUND_COLUMNS..][..ROUND_COLUMNS]),
        keccak_f(&[0; 25])
    );
}

#[test]
fn every_round_row_is_a_round() {
    let operations = operations(11, 3);
    let table = oracle::round_table(&operations);
    let rows: Vec<&[u64]> = table.chunks_exact(ROUND_COLUMNS).collect();
    assert_eq!(rows.len(), 128);
    for (operation, rows) in operations.chunks_exact(OPERATION_WORDS).zip(rows.chunks_exact(24)) {
        let mut state: State = operation[2..27].try_into().unwrap();
        for (round, row) in rows.iter().enumerate() {
            assert_eq!(row[..3], [operation[0] & 0xFFFF_FFFF, operation[0] >> 32, round as u64]);
            assert_eq!(lanes_of(&row[3..203]), state);
            state = next(&state, round);
            assert_eq!(state_after(row), state);
            assert_eq!(row[1479], 1);
        }
        assert_eq!(state, operation[27..52]);
    }
    assert!(rows[72..].iter().all(|row| row.iter().all(|&word| word == 0)));
}

#[test]
fn core_rows_hold_the_operation() {
    let operations = operations(12, 5);
    let table = oracle::core_table(&operations);
    let rows: Vec<&[u64]> = table.chunks_exact(CORE_COLUMNS).collect();
    assert_eq!(rows.len(), 8);
    let pointer = |row: &[u64], lane: usize| {
        let limbs = &row[410 + 3 * lane..][..3];
        assert!(limbs[0] < 1 << 16 && limbs[1] < 1 << 16 && limbs[2] < 1 << 32);
        limbs[0] + (limbs[1] << 16) + (limbs[2] << 32)
    };
    for (operation, row) in operations.chunks_exact(OPERATION_WORDS).zip(&rows) {
        assert_eq!(row[..2], [operation[0] & 0xFFFF_FFFF, operation[0] >> 32]);
        assert_eq!(common::lane_of(&row[2..10]), operation[1]);
        assert_eq!(lanes_of(&row[10..210]), operation[2..27]);
        assert_eq!(lanes_of(&row[210..410]), operation[27..52]);
        assert!((0..25).all(|lane| pointer(row, lane) == operation[1] + 8 * lane as u64));
        assert_eq!(row[485], 1);
    }
    for row in &rows[5..] {
        assert!((0..25).all(|lane| pointer(row, lane) == 8 * lane as u64));
        assert!(row[..410].iter().chain(&row[485..]).all(|&word| word == 0));
    }
}

#[test]
fn honest_rows_have_all_values_0() {
    for n in 0..4 {
        let operations = operations(13, n);
        let core = oracle::core_table(&operations);
        assert!(
            core.chunks_exact(CORE_COLUMNS)
                .all(|row| oracle::core_values(row) == [0; 52])
        );
        let round = oracle::round_table(&operations);
        assert!(
            round
                .chunks_exact(ROUND_COLUMNS)
                .all(|row| oracle::round_values(row) == [0; 141])
        );
    }
}

#[test]
fn a_changed_word_shows_in_the_values() {
    let operations = operations(14, 1);
    let mut core = oracle::core_table(&operations);
    core[410 + 3 * 7] += 1;
    let values = oracle::core_values(&core[..CORE_COLUMNS]);
    let nonzero: Vec<usize> = (0..52).filter(|&i| values[i] != 0).collect();
    assert_eq!(nonzero, [14, 15]);

    let mut round = oracle::round_table(&operations);
    round[403 + 4 + 2] = 2;
    let values = oracle::round_values(&round[..ROUND_COLUMNS]);
    let nonzero: Vec<usize> = (0..141).filter(|&i| values[i] != 0).collect();
    assert_eq!(nonzero, [6, 26]);
    assert_eq!(values[6], P - 2);
}

#[test]
fn core_tuples_by_bus() {
    let core = numbers(&oracle::core_tuples(&[0; CORE_COLUMNS], 0));
    assert_eq!(core.values().sum::<usize>(), 84);
    let expected = [
        ((ByteAlu, Sender), 1),
        ((AreBytes, Sender), 4),
        ((IsHalfword, Sender), 25),
        ((IsWh, Sender), 25),
        ((Keccak, Sender), 1),
        ((Keccak, Receiver), 1),
        ((Memw, Sender), 26),
        ((Ecall, Receiver), 1),
    ];
    assert_eq!(core, BTreeMap::from(expected));
}

#[test]
fn round_tuples_by_bus() {
    let round = numbers(&oracle::round_tuples(&[0; ROUND_COLUMNS]));
    assert_eq!(round.values().sum::<usize>(), 1_031);
    let expected = [
        ((ByteAlu, Sender), 808),
        ((AreBytes, Sender), 220),
        ((KeccakRc, Sender), 1),
        ((Keccak, Sender), 1),
        ((Keccak, Receiver), 1),
    ];
    assert_eq!(round, BTreeMap::from(expected));
}

#[test]
fn tuples_of_lookups_by_bus() {
    let bitwise = oracle::bitwise_tuples(&[0; 21]);
    let buses = [
        Msb8, Msb16, Zero, AreBytes, IsHalfword, IsB20, Hwsl, ByteAlu, ByteAlu, ByteAlu,
    ];
    assert_eq!(bitwise.iter().map(|tuple| tuple.bus).collect::<Vec<_>>(), buses);
    assert!(bitwise.iter().all(|tuple| tuple.side == Receiver));
    assert_eq!(
        bitwise[7..].iter().map(|tuple| tuple.values[0]).collect::<Vec<_>>(),
        [0, 1, 2]
    );

    assert_eq!(
        numbers(&oracle::keccak_rc_tuples(&[0; 10])),
        BTreeMap::from([((KeccakRc, Receiver), 1)])
    );
    let expected = [((IsB20, Sender), 1), ((IsHalfword, Sender), 3), ((IsWh, Receiver), 1)];
    assert_eq!(numbers(&oracle::is_wh_tuples(&[0; 4])), BTreeMap::from(expected));
}

#[test]
fn tuples_have_the_published_lengths() {
    let length = |bus| match bus {
        Bus::ByteAlu => 4,
        Bus::AreBytes | Bus::IsWh => 2,
        Bus::IsHalfword => 1,
        Bus::KeccakRc => 9,
        Bus::Keccak => 203,
        Bus::Memw => 24,
        Bus::Ecall => 4,
        _ => unreachable!("no such bus in the two tables"),
    };
    let tuples = [
        oracle::core_tuples(&[0; CORE_COLUMNS], 0),
        oracle::round_tuples(&[0; ROUND_COLUMNS]),
    ]
    .concat();
    assert!(tuples.iter().all(|tuple| tuple.values.len() == length(tuple.bus)));
}

#[test]
fn the_system_call_number_is_an_argument() {
    let values = |syscall| oracle::core_tuples(&[0; CORE_COLUMNS], syscall)[0].values.clone();
    assert_eq!(values(5), [0, 0, 5, 0]);
    assert_eq!(values(u64::MAX - 1), [0, 0, 0xFFFF_FFFE, 0xFFFF_FFFF]);
}

#[test]
fn every_lookup_of_honest_rows_has_its_match() {
    let operations = operations(15, 2);
    let core = oracle::core_table(&operations);
    let round = oracle::round_table(&operations);
    let constants = oracle::keccak_rc_table(2);
    let constants: Vec<Vec<u64>> = constants
        .chunks_exact(10)
        .map(|row| oracle::keccak_rc_tuples(row).remove(0).values)
        .collect();
    let mut tuples: Vec<Tuple> = core
        .chunks_exact(CORE_COLUMNS)
        .flat_map(|row| oracle::core_tuples(row, 1))
        .collect();
    tuples.extend(round.chunks_exact(ROUND_COLUMNS).flat_map(oracle::round_tuples));
    for tuple in tuples.iter().filter(|tuple| tuple.multiplicity != 0) {
        let matched = match (tuple.bus, tuple.values.as_slice()) {
            (Bus::ByteAlu, &[_, x, y, _]) | (Bus::AreBytes, &[x, y]) => bitwise_has(tuple, x, y),
            (Bus::IsHalfword, &[half]) => bitwise_has(tuple, half & 0xFF, half >> 8),
            (Bus::IsWh, &[word, half]) => word < 1 << 32 && half < 1 << 16,
            (Bus::KeccakRc, values) => constants.iter().any(|row| row == values),
            _ => true,
        };
        assert!(matched, "{tuple:?}");
    }
}

/// Whether the bitwise row of two bytes, with Z 0, has the tuple.
fn bitwise_has(tuple: &Tuple, x: u64, y: u64) -> bool {
    let (Ok(x), Ok(y)) = (u8::try_from(x), u8::try_from(y)) else {
        return false;
    };
    let mut row = oracle::bitwise_row(oracle::bitwise_row_index(x, y, 0)).to_vec();
    row.extend([0; 10]);
    oracle::bitwise_tuples(&row)
        .iter()
        .any(|other| other.bus == tuple.bus && other.values == tuple.values)
}

#[test]
fn the_tally_of_one_operation() {
    let expected = [
        ("ops", 1),
        ("core-rows", 4),
        ("round-rows", 32),
        ("ByteAlu", 19_393),
        ("AreBytes", 7_044),
        ("KeccakRc", 24),
        ("IsHalfword", 25),
        ("IsWh", 25),
        ("Memw", 26),
        ("Ecall", 1),
    ];
    assert_eq!(oracle::tally(&operation(1, 4096, &[0; 25])), expected);
}

#[test]
fn the_tally_of_any_number_of_operations() {
    assert_eq!(
        oracle::tally(&[]).map(|(_, count)| count),
        [0, 4, 4, 0, 0, 0, 0, 0, 0, 0]
    );
    assert_eq!(
        oracle::shipped_tally(&[]).map(|(_, count)| count),
        [0, 4, 4, 0, 880, 0, 0, 0, 0, 0]
    );
    for n in 1..6u64 {
        let list = operations(16, n as usize);
        assert_eq!(oracle::shipped_tally(&list), oracle::tally(&list));
        let tally = oracle::tally(&list).map(|(_, count)| count as u64);
        let are_bytes = 5_284 * n + oracle::padding_are_bytes(n as usize);
        assert_eq!(tally[3..], [19_393 * n, are_bytes, 24 * n, 25 * n, 25 * n, 26 * n, n]);
    }
}

#[test]
fn padding_rows_send_their_bytes_once() {
    let sums = oracle::round_sums(&[0; ROUND_COLUMNS]);
    for bus in Bus::ALL {
        assert_eq!(sums.sent(bus), if bus == Bus::AreBytes { 220 } else { 0 });
        assert_eq!(sums.received(bus), 0);
    }
}

#[test]
fn values_and_tuples_are_taken_mod_p() {
    let mut row = vec![0; ROUND_COLUMNS];
    row[2] = P - 1;
    assert_eq!(oracle::round_tuples(&row)[1].values[2], 0, "round + 1");
    row[1479] = P - 1;
    assert_eq!(oracle::round_values(&row)[140], P - 2, "mu (1 - mu) with mu = -1");
    assert_eq!(oracle::round_tuples(&row)[0].multiplicity, P - 1);
}

#[test]
#[should_panic(expected = "is not below p")]
fn a_word_past_p_is_outside_the_domain() {
    oracle::core_values(&[P; CORE_COLUMNS]);
}

#[test]
fn constant_rows() {
    let table = oracle::keccak_rc_table(7);
    assert_eq!(table.len(), 320);
    for (round, row) in table.chunks_exact(10).enumerate() {
        let constant = CONSTANTS.get(round).copied().unwrap_or(0);
        assert_eq!(row[..9], oracle::keccak_rc_row(round));
        assert_eq!(row[0], round as u64);
        assert_eq!(common::lane_of(&row[1..9]), constant);
        assert_eq!(row[9], if round < 24 { 7 } else { 0 });
        let tuple = oracle::keccak_rc_tuples(row).remove(0);
        assert_eq!((tuple.multiplicity, tuple.values.as_slice()), (row[9], &row[..9]));
    }
}

#[test]
fn keys_and_their_tuples() {
    let number = 0x0123_4567_89AB_CDEF;
    assert_eq!(oracle::is_wh_key(number), [0x0123_4567, 0x89AB]);
    let tuples = oracle::is_whh_tuples(&[9, 0xCDEF, 0x89AB, 0x0123_4567], 1, 0);
    assert_eq!((tuples[0].bus, tuples[0].multiplicity), (Bus::IsWh, 9));
    assert_eq!(tuples[0].values, [0x0123_4567, 0x89AB]);
    assert_eq!(
        (tuples[1].bus, tuples[1].values.as_slice()),
        (Bus::IsHalfword, &[0xCDEF][..])
    );
    let received = &oracle::is_wh_tuples(&[0x89AB, 0x4567, 0x0123, 3])[4];
    assert_eq!((received.side, received.multiplicity), (Side::Receiver, 3));
    assert_eq!(received.values, tuples[0].values);

    let operations = operations(17, 2);
    let keys = oracle::is_wh_keys(&operations);
    assert_eq!(keys.len(), 100);
    for (i, key) in keys.chunks_exact(2).enumerate() {
        assert_eq!(
            key,
            oracle::is_wh_key(operations[i / 25 * OPERATION_WORDS + 1] + 8 * (i % 25) as u64)
        );
    }
}

#[test]
fn counting() {
    let lookup = |kind, x, y, z| Lookup { kind, x, y, z };
    assert_eq!(oracle::COUNTERS, 10_485_760);
    assert_eq!(oracle::bitwise_count(0, lookup(0, 0, 0, 0)), 1);
    assert_eq!(oracle::bitwise_count(P - 1, lookup(9, 255, 255, 15)), 0);
    let lookups = [
        lookup(9, 255, 255, 15),
        lookup(3, 1, 2, 0),
        lookup(3, 1, 2, 0),
        lookup(0, 0, 0, 0),
    ];
    assert_eq!(
        oracle::bitwise_counts(&lookups),
        [(0, 1), ((1 + 512) * 10 + 3, 2), (10_485_759, 1)]
    );
}

#[test]
fn counters_are_added_and_filled_in() {
    let lookup = |kind, x, y, z| Lookup { kind, x, y, z };
    let (low, high) = (lookup(3, 1, 2, 0), lookup(9, 255, 255, 15));
    let mut counters = Counters::new();
    counters.bump_n(low, 7);
    counters.add_ops(&[low.operation(), high.operation()]);
    let mut other = Counters::new();
    other.bump_n(high, P - 1);
    counters.merge(&other);
    let words = counters.words();
    assert_eq!(
        (words.len(), words[low.counter()], words[high.counter()]),
        (COUNTERS, 8, 0)
    );
    assert_eq!(words.iter().sum::<u64>(), 8);

    let mut table = BitwiseTable::generate();
    table.update_multiplicities(&[low.operation()]);
    counters.fill_multiplicities(&mut table);
    table.update_multiplicities(&[low.operation(), high.operation()]);
    let words = table.words();
    assert_eq!(
        words[513 * BITWISE_COLUMNS..][..BITWISE_COLUMNS][11..16],
        [0, 0, 0, 9, 0]
    );
    assert_eq!((words.len(), words.last()), (22_020_096, Some(&1)));
    assert_eq!(Lookup::from(high.operation()), high);
}

#[test]
fn rows_of_keys_and_what_they_look_up() {
    let keys = [[7, 9], [7, 8], [0, 65_535], [7, 9]].concat();
    let rows = oracle::is_wh_rows(&keys);
    assert_eq!(rows, [0, 65_535, 1, 7, 8, 1, 7, 9, 2]);
    let table = oracle::is_wh_table(&rows);
    assert_eq!(table, [65_535, 0, 0, 1, 8, 7, 0, 1, 9, 7, 0, 2, 0, 0, 0, 0]);
    let many = [7, 9].repeat((1 << 21) - 1);
    assert_eq!(oracle::is_wh_rows(&many), [7, 9, 1_048_575, 7, 9, 1_048_575, 7, 9, 1]);

    // What is charged is what the table's rows send, padding included.
    let mut counters = Counters::new();
    counters.collect_is_wh(&rows);
    let mut sent = vec![0; COUNTERS];
    for tuple in table.chunks_exact(4).flat_map(oracle::is_wh_tuples) {
        let kind = match tuple.bus {
            IsHalfword => 4,
            IsB20 => 5,
            _ => continue,
        };
        sent[tuple.values[0] as usize * 10 + kind] += tuple.multiplicity;
    }
    assert_eq!(counters.words(), sent);
    assert_eq!(sent[5], 1);
}

#[test]
fn the_bitwise_table_has_the_rows_of_the_row_function() {
    for index in 0..1 << 20 {
        let row = oracle::bitwise_table_row(index);
        assert_eq!(row[..11], oracle::bitwise_row(index));
        assert_eq!(row[11..], [0; 10]);
        assert_eq!(
            oracle::bitwise_row_index(row[0] as u8, row[1] as u8, row[2] as u8),
            index
        );
    }
}

#[test]
fn sampled_operations_are_honest() {
    for operation in sample::operations(18, 3).chunks_exact(OPERATION_WORDS) {
        let input: State = operation[2..27].try_into().unwrap();
        assert_eq!(operation[27..52], keccak_f(&input));
        assert!(operation[52] < 1 << 32);
        assert!(operation[1] < 1 << 48 && operation[1].is_multiple_of(8));
    }
}

#[test]
fn samples_are_fixed() {
    assert_eq!(
        Generator::new(1).words(2),
        [6_364_136_223_846_793_006, 5_974_355_693_844_896_497]
    );
    assert_eq!(sample::tables()[0][..13], [1, 0, 0, 0, 0, 0, 0, 0, 0, 0, 1, 0, 0]);
    assert_eq!(
        [sample::tables().len(), sample::core().len(), sample::round().len()],
        [1_097, 1_076, 4_193]
    );
}

#[test]
fn sampled_rows_are_fixed() {
    let rows = sample::rows();
    let of_kind = |kind| rows.iter().filter(|line| line[0] == kind).count();
    assert_eq!([9, 10, 11, 17].map(of_kind), [5, 125, 8, 64]);
    assert_eq!(sample::lookups().len(), sample::tables().len() - 100);
    assert_eq!(sample::digest(&[]), 0);
    assert_eq!(sample::digest(&[1, 2]), Generator::FACTOR + 2);
    // Padding rows of a round table are zero.
    assert!(rows[rows.len() - 16..].iter().all(|line| line[2] == 0));
}
