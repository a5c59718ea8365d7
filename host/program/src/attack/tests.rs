//! Every rule of both tables is attacked, or a theorem says why not.

use std::ffi::OsString;
use std::{fs, io};

use super::{Answer, Kind, answer, bent, count, failures, false_claim, honest};
use keccak_tables::keccak::cols::INPUT_STATE;
use keccak_tables::keccak_rnd::{self, cols};
use keccak_tables::verdict::{Table, Verdict, verdict};
use keccak_tables::{P, Parameters};

use crate::{Streams, run};

/// What a rule's failure is called.
fn failed(table: Table, kind: Kind, index: u64, row: u64) -> Verdict {
    match (table, kind) {
        (_, Kind::Value) => Verdict::Value { table, row, index },
        (Table::Core, Kind::Tuple) if (2..4).contains(&index) => Verdict::Unbalanced { table, row, index },
        (Table::Round, Kind::Tuple) if index < 2 => Verdict::Unbalanced { table, row, index },
        (_, Kind::Tuple) => Verdict::Lookup { table, row, index },
    }
}

/// Keccak-f[1600] in plain Rust, the constants by their shift register.
fn permuted(mut state: [u64; 25]) -> [u64; 25] {
    let mut register = 1u8;
    for _ in 0..keccak_rnd::ROUNDS {
        let sums: [u64; 5] = std::array::from_fn(|x| (0..5).fold(0, |sum, y| sum ^ state[x + 5 * y]));
        for (at, lane) in state.iter_mut().enumerate() {
            *lane ^= sums[(at + 4) % 5] ^ sums[(at + 1) % 5].rotate_left(1);
        }
        let (mut x, mut y, mut moved) = (1, 0, state[1]);
        for step in 0..24 {
            (x, y) = (y, (2 * x + 3 * y) % 5);
            let turned = moved.rotate_left((step + 1) * (step + 2) / 2 % 64);
            moved = std::mem::replace(&mut state[x + 5 * y], turned);
        }
        for row in state.chunks_exact_mut(5) {
            let old: [u64; 5] = std::array::from_fn(|x| row[x]);
            (0..5).for_each(|x| row[x] = old[x] ^ (!old[(x + 1) % 5] & old[(x + 2) % 5]));
        }
        for bit in 0..7 {
            state[0] ^= u64::from(register & 1) << ((1 << bit) - 1);
            register = register << 1 ^ if register >> 7 == 1 { 0x71 } else { 0 };
        }
    }
    state
}

#[test]
fn the_plain_permutation_is_the_published_one() {
    assert_eq!(permuted([0; 25])[0], 0xF125_8F79_40E1_DDE7);
}

/// Whether there are tables for a rule; in them exactly that rule fails, on the Keccak bus with its partner, and something false is claimed. Else a theorem is named.
fn is_attacked(table: Table, kind: Kind, index: usize) -> bool {
    let segment = match answer(table, kind, index, honest().unwrap()) {
        Answer::Tables(segment, ..) => segment,
        Answer::Never(_, theorem) => {
            assert!(theorem.starts_with('`'), "{theorem}");
            return false;
        }
    };
    let found = failures(Parameters::default(), &segment.core, &segment.round, &mut |_| ()).unwrap();
    let row = if table == Table::Round && index != 0 { 23 } else { 0 };
    let row = if kind == Kind::Value && table == Table::Round {
        23
    } else {
        row
    };
    let rule = failed(table, kind, index as u64, row);
    assert!(found.contains(&rule), "{rule}: {found:?}");
    let pair = matches!(rule, Verdict::Unbalanced { .. });
    assert_eq!(found.len(), 1 + usize::from(pair), "{rule}: {found:?}");
    assert_eq!(verdict(&segment.core, &segment.round).unwrap(), found[0]);
    let right = permuted(bent::lanes(&segment.core[INPUT_STATE..][..200]));
    assert!(false_claim(&segment.core, &right).is_some(), "{rule}");
    true
}

fn attacked(table: Table, kind: Kind) -> Vec<usize> {
    (0..count(table, kind))
        .filter(|&index| is_attacked(table, kind, index))
        .collect()
}

#[test]
fn nothing_false_is_claimed_by_honest_tables() {
    let honest = honest().unwrap();
    assert_eq!(
        verdict(&honest.core, &honest.round).unwrap(),
        Verdict::Holds { active: 1 }
    );
    assert_eq!(false_claim(&honest.core, &permuted([0; 25])), None);
}

/// The bent row of a rule that there is none of is the written one.
#[test]
fn the_bent_row_is_the_written_one_elsewhere() {
    let honest = honest().unwrap();
    for row in honest
        .round
        .chunks_exact(keccak_rnd::NUM_COLUMNS)
        .take(keccak_rnd::ROUNDS)
    {
        assert_eq!(bent::row(usize::MAX / 4, row), row);
    }
}

#[test]
fn each_core_rule_is_attacked_or_follows() {
    let values: Vec<usize> = (0..49).chain([50]).collect();
    assert_eq!(attacked(Table::Core, Kind::Value), values);
    assert_eq!(attacked(Table::Core, Kind::Tuple), (2..59).collect::<Vec<_>>());
}

#[test]
fn each_round_rule_is_attacked_or_follows() {
    let values = attacked(Table::Round, Kind::Value);
    assert_eq!(values, (20..140).collect::<Vec<_>>());
    let tuples = attacked(Table::Round, Kind::Tuple);
    let needed: Vec<usize> = (0..163).chain(183..423).chain(623..1031).collect();
    assert_eq!(tuples, needed);
    // Those on the Keccak bus are no lookups.
    assert_eq!(values.len() + tuples.len() - 2, 929);
}

/// Words whose shift identities hold mod p of a zero lane, and which are no bytes where the tuples of byte 6, or of byte 7, and two others are missing:
/// `left6`, `right6`, `left7`, `right7` of crates/keccak_rnd_exactly/specs/Minimal.antt.
const LEFT: [[u64; 8]; 2] = [
    [P - (1 << 32) + (1 << 16), 0, 0, 0, 1, 0, P - (1 << 48) + (1 << 16), 0],
    [255, P - (1 << 56) + 255, 0, 0, 1, 0, 0, P - (1 << 40) + 256],
];
const RIGHT: [[u64; 8]; 2] = [
    [
        255,
        255,
        0,
        0,
        (1 << 48) - (1 << 16),
        0,
        255 + (1 << 32) - (1 << 16),
        255,
    ],
    [255, 255, 0, 0, 0, (1 << 40) - 256, 0, 1 << 56],
];

/// A row of round 0 from the zero state whose lane (x, y) has these parts, turned so that those of `byte` are among them (`partsRow` there).
fn parts_row(x: usize, y: usize, byte: usize) -> Vec<u64> {
    let turned = |b: usize| (b + 4 * (byte / 4) + 4) % 8;
    let mut row = vec![0; keccak_rnd::NUM_COLUMNS];
    for b in 0..8 {
        row[cols::rot_left(x, y, b)] = LEFT[byte % 2][turned(b)];
        row[cols::rot_right(x, y, b)] = RIGHT[byte % 2][turned(b)];
    }
    // The sums are the bytes of 2^33 - 1, and π moves them.
    let sum = ((1u64 << 33) - 1).rotate_left(if byte < 4 { 32 } else { 0 });
    let mut pi = [0; 25];
    pi[y + 5 * ((2 * x + 3 * y) % 5)] = sum.rotate_left(bent::offsets()[x + 5 * y] / 16 * 16);
    let and = |at: usize| !pi[(at + 1) % 5 + at / 5 * 5] & pi[(at + 2) % 5 + at / 5 * 5];
    for (at, lane) in pi.iter().enumerate() {
        put(&mut row, cols::CHI_ANDS + 8 * at, and(at));
        put(&mut row, cols::CHI + 8 * at, lane ^ and(at));
    }
    put(&mut row, cols::RC, 1);
    put(&mut row, cols::IOTA, pi[0] ^ and(0) ^ 1);
    row[cols::MU] = 1;
    row
}

fn put(row: &mut [u64], column: usize, lane: u64) {
    for (at, byte) in (column..).zip(lane.to_le_bytes()) {
        row[at] = byte.into();
    }
}

/// What a single round row fails but for the bus.
fn failed_in(row: &[u64]) -> Vec<Verdict> {
    let mut found = failures(Parameters::default(), &[], row, &mut |_| ()).unwrap();
    found.retain(|failure| !matches!(failure, Verdict::Unbalanced { .. }));
    found
}

/// Of the 100 AreBytes tuples that are enough beside all other rules none can go: without it and the 120 a false row passes.
#[test]
fn no_further_lookup_can_be_left_out() {
    for (x, y, byte) in (0..200)
        .map(|at| (at / 40, at / 8 % 5, at % 8))
        .filter(|&(_, _, byte)| byte % 4 >= 2)
    {
        let row = parts_row(x, y, byte);
        let left_out = [0, 1, 4, 5].map(|b| (423 + 40 * x + 8 * y + b) as u64);
        let last = (423 + 40 * x + 8 * y + byte) as u64;
        for failure in failed_in(&row) {
            let Verdict::Lookup { index, .. } = failure else {
                panic!("{failure}")
            };
            assert!(
                left_out.contains(&index) || index == last,
                "lane ({x}, {y}), byte {byte}: {failure}"
            );
        }
        assert!(
            failed_in(&row)
                .iter()
                .any(|failure| matches!(failure, Verdict::Lookup { index, .. } if *index == last))
        );
        let mut right = [0; 25];
        right[0] = 1;
        assert_ne!(bent::sent(&row), right);
    }
}

/// The row of docs/LEAN.md: bytes 0, 4 and 6 of lane (1, 0) alone.
#[test]
fn three_lookups_name_the_false_row() {
    let lookups = [463, 467, 469].map(|index| Verdict::Lookup {
        table: Table::Round,
        row: 0,
        index,
    });
    assert_eq!(failed_in(&parts_row(1, 0, 6)), lookups);
}

/// Exit status and standard output of a run.
fn ran(arguments: &[&str]) -> (u8, String) {
    let arguments: Vec<OsString> = arguments.iter().map(OsString::from).collect();
    let mut output = Vec::new();
    let mut streams = Streams {
        input: &mut io::empty(),
        output: &mut output,
        errors: &mut io::sink(),
        terminal: false,
        process: false,
    };
    let status = run(&arguments, &mut streams);
    (status, String::from_utf8(output).unwrap())
}

#[test]
fn the_command_writes_tables_or_says_why_not() {
    let folder = std::env::temp_dir().join(format!("keccak-tables-attack-{}", std::process::id()));
    let (path, file) = (folder.to_str().unwrap(), |name: &str| {
        folder.join(name).to_str().unwrap().to_string()
    });
    let (status, output) = ran(&["attack", "round", "tuple", "463", path]);
    assert!(
        status == 1 && output.contains("`follows`") && !folder.exists(),
        "{output}"
    );
    let (status, output) = ran(&["attack", "core", "value", "50", path]);
    assert_eq!(status, 0, "{output}");
    assert!(output.contains("False: lane 24 sits at 0, "), "{output}");
    assert!(output.contains("\n    core row 0 value 50\n"), "{output}");
    let judged = ran(&["judge", "--all", &file("core"), &file("round")]);
    assert_eq!(judged, (1, "core row 0 value 50\n".into()));
    assert_eq!(ran(&["attack", "core", "value", "48", path]).0, 2);
    fs::remove_dir_all(&folder).unwrap();
    for wrong in [
        ["core", "value", "52"],
        ["round", "tuple", "1031"],
        ["core", "column", "0"],
        ["rnd", "value", "0"],
    ] {
        assert_eq!(ran(&[&["attack"], &wrong[..], &[path]].concat()), (2, String::new()));
    }
    assert_eq!(ran(&["attack", "core", "value", "0"]).0, 2);
}
