//! The changes that docs/WHY.md follows under 'A false byte, followed back', judged: each line of its table. The two lines that
//! leave a row honest in itself stand in a test of their own.

use keccak_tables::verdict::{Table, Verdict, verdict};
use keccak_tables::{Operation, Refusal, keccak, keccak_rnd};

// Groups of a round row, as docs/WHY.md draws them.
const ROUND: usize = 2;
const CXZ: usize = 203;
const CXZ_LEFT: usize = 363;
const CXZ_RIGHT: usize = 403;
const THETA: usize = 463;
const ROT_RIGHT: usize = 863;
const CHI_ANDS: usize = 1063;
const CHI: usize = 1263;
const RC: usize = 1463;
const IOTA: usize = 1471;

fn lane(group: usize, x: usize, y: usize, byte: usize) -> usize {
    group + (x + 5 * y) * 8 + byte
}

/// Honest tables of one call on the zero state. OUTPUT is what the last of the 24 rows sends.
fn honest() -> (Vec<u64>, Vec<u64>) {
    let mut operation = Operation {
        timestamp: 5,
        address: 4096,
        input: [0; 25],
        output: [0; 25],
        segment: 0,
    };
    let round = keccak_rnd::keccak_rnd_table(&operation.words()).unwrap();
    let last = &round[23 * keccak_rnd::NUM_COLUMNS..24 * keccak_rnd::NUM_COLUMNS];
    for (i, out) in operation.output.iter_mut().enumerate() {
        let from = if i == 0 { IOTA } else { CHI + 8 * i };
        *out = (0..8).map(|b| last[from + b] << (8 * b)).sum();
    }
    (keccak::keccak_table(&operation.words()).unwrap(), round)
}

type Judged = Result<Verdict, Refusal>;

fn lookup(index: u64) -> Judged {
    let (table, row) = (Table::Round, 0);
    Ok(Verdict::Lookup { table, row, index })
}

fn value(index: u64) -> Judged {
    let (table, row) = (Table::Round, 0);
    Ok(Verdict::Value { table, row, index })
}

/// No round row takes INPUT.
const UNBALANCED: Judged = Ok(Verdict::Unbalanced {
    table: Table::Core,
    row: 0,
    index: 2,
});

#[test]
fn a_false_byte_followed_back() {
    let (core, mut round) = honest();
    assert_eq!(verdict(&core, &round), Ok(Verdict::Holds { active: 1 }));
    round[IOTA] = 3;
    assert_eq!(verdict(&core, &round), lookup(1023));
    round[RC] = 3;
    assert_eq!(verdict(&core, &round), lookup(2));
    round[RC] = 1;
    round[CHI] = 2;
    assert_eq!(verdict(&core, &round), lookup(823));
    round[CHI_ANDS] = 2;
    assert_eq!(verdict(&core, &round), lookup(623));
    round[lane(ROT_RIGHT, 2, 2, 2)] = 2;
    assert_eq!(verdict(&core, &round), value(89));
    round[lane(THETA, 2, 2, 2)] = 64;
    assert_eq!(verdict(&core, &round), lookup(321));
}

/// An honest row of another round, then one from another START.
#[test]
fn a_false_byte_by_an_honest_row() {
    let (core, mut round) = honest();
    keccak_rnd::keccak_rnd_row(5, &[0; 25], 15, &mut round).unwrap();
    assert_eq!((round[ROUND], round[IOTA]), (15, 3));
    assert_eq!(verdict(&core, &round), UNBALANCED);

    let mut start = [0; 25];
    start[2 + 5 * 2] = 64 << 16;
    keccak_rnd::keccak_rnd_row(5, &start, 0, &mut round).unwrap();
    assert_eq!(round[IOTA], 3);
    assert_eq!(verdict(&core, &round), UNBALANCED);
}

#[test]
fn a_shift_that_is_right_mod_p_only() {
    let (core, mut round) = honest();
    assert_eq!(round[CXZ + 24..CXZ + 32], [0; 8]);
    round[CXZ_LEFT] = 1;
    round[CXZ_RIGHT] = (1 << 48) - (1 << 16);
    let mut values = [0; 141];
    keccak_rnd::round_values(&round[..keccak_rnd::NUM_COLUMNS], &mut values).unwrap();
    assert_eq!(values[20], 0);
    assert_eq!(verdict(&core, &round), value(0));
}
