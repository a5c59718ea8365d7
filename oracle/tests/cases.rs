//! The cases of the scope, answered by the published Rust.

mod common;

use common::{lanes_of, operation, state_after};
use oracle::lanes::{State, input_of, keccak_f};
use oracle::{Bus, CORE_COLUMNS, OPERATION_WORDS, P, ROUND_COLUMNS, Side, Tuple};

/// Row `round` of the round table of one operation whose state at that round is `start`.
fn row_from(start: &State, round: usize) -> Vec<u64> {
    let table = oracle::round_table(&operation(1, 4096, &input_of(start, round)));
    let row = table[round * ROUND_COLUMNS..][..ROUND_COLUMNS].to_vec();
    assert_eq!(lanes_of(&row[3..203]), *start);
    row
}

/// A state that is 0 but for lane 0.
fn only_lane_0(lane: u64) -> State {
    core::array::from_fn(|i| if i == 0 { lane } else { 0 })
}

#[test]
fn start_zero_round_0() {
    assert_eq!(state_after(&row_from(&[0; 25], 0)), only_lane_0(1));
}

#[test]
fn start_zero_round_23() {
    assert_eq!(state_after(&row_from(&[0; 25], 23)), only_lane_0(0x8000_0000_8000_8008));
}

#[test]
fn start_ones_round_0() {
    let mut after = [u64::MAX; 25];
    after[0] = u64::MAX - 1;
    assert_eq!(state_after(&row_from(&[u64::MAX; 25], 0)), after);
}

#[test]
fn theta_of_a_single_one() {
    let row = row_from(&only_lane_0(1), 0);
    let expected: State = core::array::from_fn(|i| match i % 5 {
        _ if i == 0 => 1,
        1 => 1,
        4 => 2,
        _ => 0,
    });
    assert_eq!(lanes_of(&row[463..663]), expected);
}

#[test]
fn bitwise_rows() {
    assert_eq!(oracle::bitwise_row(0), [0, 0, 0, 0, 0, 0, 0, 0, 1, 0, 0]);
    assert_eq!(oracle::bitwise_row(266_804), [52, 18, 4, 16, 54, 38, 0, 0, 0, 9024, 1]);
    assert_eq!(
        oracle::bitwise_row(1_048_575),
        [255, 255, 15, 255, 255, 0, 1, 1, 0, 32_768, 32_767]
    );
}

#[test]
fn round_heights() {
    let height = |n: usize| oracle::round_table(&vec![0; OPERATION_WORDS * n]).len() / ROUND_COLUMNS;
    assert_eq!([height(0), height(1), height(2)], [4, 32, 64]);
    // Of large tables only the padding is counted: each padding row sends 220 AreBytes tuples.
    let height = |n: usize| 24 * n as u64 + oracle::padding_are_bytes(n) / 220;
    assert_eq!([height(1), height(2_730), height(2_731)], [32, 65_536, 131_072]);
}

#[test]
fn core_heights() {
    let height = |n: usize| oracle::core_table(&vec![0; OPERATION_WORDS * n]).len() / CORE_COLUMNS;
    assert_eq!([0, 1, 3, 4, 5, 8, 9].map(height), [4, 4, 4, 4, 8, 8, 16]);
}

#[test]
fn padding() {
    assert_eq!([0, 1, 2].map(oracle::padding_are_bytes), [0, 1_760, 3_520]);
}

#[test]
fn the_inverse_of_2_to_the_32() {
    let inverse = oracle::constraints::templates::INV_SHIFT_32;
    assert!(inverse < P);
    assert_eq!((u128::from(inverse) << 32) % u128::from(P), 1);
}

#[test]
fn the_highest_address_is_accepted() {
    let highest = 18_446_744_073_709_551_416;
    let one = operation(1, highest, &[0; 25]);
    let row = &oracle::core_table(&one)[..CORE_COLUMNS];
    assert_eq!(row[482..485], [0xFFF8, 0xFFFF, 0xFFFF_FFFF]);
    assert_eq!(oracle::is_wh_keys(&one)[48..], [0xFFFF_FFFF, 0xFFFF]);
    assert_eq!(oracle::core_values(row), [0; 52]);
}

#[test]
#[should_panic(expected = "keccak state address range")]
fn the_next_address_is_refused_by_the_table() {
    oracle::core_table(&operation(1, 18_446_744_073_709_551_424, &[0; 25]));
}

#[test]
#[should_panic(expected = "keccak state address range")]
fn the_next_address_is_refused_by_the_keys() {
    oracle::is_wh_keys(&operation(1, 18_446_744_073_709_551_424, &[0; 25]));
}

/// Every Keccak tuple of both tables with multiplicity 1, and whether each is sent as often as received.
fn keccak_bus_balances(core: &[u64], round: &[u64]) -> bool {
    let mut tuples: Vec<Tuple> = Vec::new();
    tuples.extend(
        core.chunks_exact(CORE_COLUMNS)
            .flat_map(|row| oracle::core_tuples(row, 0)),
    );
    tuples.extend(round.chunks_exact(ROUND_COLUMNS).flat_map(oracle::round_tuples));
    tuples.retain(|tuple| tuple.bus == Bus::Keccak && tuple.multiplicity == 1);
    let sorted = |side: Side| {
        let mut values: Vec<_> = tuples
            .iter()
            .filter(|tuple| tuple.side == side)
            .map(|tuple| &tuple.values)
            .collect();
        values.sort();
        values
    };
    sorted(Side::Sender) == sorted(Side::Receiver)
}

#[test]
fn exchanged_outputs_under_one_timestamp_balance() {
    let inputs = [only_lane_0(1), only_lane_0(2)];
    let honest: Vec<u64> = inputs.iter().flat_map(|input| operation(7, 4096, input)).collect();
    let mut exchanged = honest.clone();
    exchanged[27..52].copy_from_slice(&keccak_f(&inputs[1]));
    exchanged[OPERATION_WORDS + 27..][..25].copy_from_slice(&keccak_f(&inputs[0]));
    let core = oracle::core_table(&exchanged);
    let round = oracle::round_table(&exchanged);
    assert_eq!(
        round,
        oracle::round_table(&honest),
        "the round table never reads the output"
    );
    assert!(
        core.chunks_exact(CORE_COLUMNS)
            .all(|row| oracle::core_values(row) == [0; 52])
    );
    assert!(
        keccak_bus_balances(&core, &round),
        "so only the repeated timestamp tells"
    );

    // With two timestamps the exchange unbalances the bus.
    let mut apart = exchanged.clone();
    apart[OPERATION_WORDS] = 8;
    assert!(!keccak_bus_balances(
        &oracle::core_table(&apart),
        &oracle::round_table(&apart)
    ));
    let mut apart = honest;
    apart[OPERATION_WORDS] = 8;
    assert!(keccak_bus_balances(
        &oracle::core_table(&apart),
        &oracle::round_table(&apart)
    ));
}

#[test]
fn a_row_of_round_24_passes_but_does_not_balance() {
    let mut row = row_from(&only_lane_0(0x0123_4567_89AB_CDEF), 2);
    row[2] = 24;
    row[1463..1471].fill(0);
    row.copy_within(1263..1271, 1471);
    assert_eq!(oracle::round_values(&row), [0; 141]);
    let tuples = oracle::round_tuples(&row);
    let constant = &oracle::keccak_rc_table(1)[24 * 10..25 * 10];
    assert_eq!(tuples[2].values, oracle::keccak_rc_tuples(constant)[0].values);
    assert!(tuples.iter().all(common_lookup_holds));

    let operations = operation(1, 4096, &[0; 25]);
    let core = oracle::core_table(&operations);
    let mut round = oracle::round_table(&operations);
    assert!(keccak_bus_balances(&core, &round));
    round[24 * ROUND_COLUMNS..25 * ROUND_COLUMNS].copy_from_slice(&row);
    assert!(!keccak_bus_balances(&core, &round));
}

/// Whether a ByteAlu or AreBytes tuple is what a bitwise row has; other buses are not asked.
fn common_lookup_holds(tuple: &Tuple) -> bool {
    match (tuple.bus, tuple.values.as_slice()) {
        (Bus::ByteAlu, &[operation, x, y, result]) => {
            x < 256 && y < 256 && result == [x & y, x | y, x ^ y][operation as usize]
        }
        (Bus::AreBytes, &[x, y]) => x < 256 && y < 256,
        _ => true,
    }
}
