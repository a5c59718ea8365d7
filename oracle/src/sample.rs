//! Fixed samples of answers: lists of numbers, one list a line. README.md says what each line holds.

use crate::answers::bitwise::{bitwise_row, bitwise_tuples};
use crate::answers::is_wh::{is_wh_key, is_wh_tuples, is_whh_tuples};
use crate::answers::keccak::{core_table, core_tuples, core_values, is_wh_keys};
use crate::answers::keccak_rc::{keccak_rc_table, keccak_rc_tuples};
use crate::answers::keccak_rnd::{round_table, round_tuples, round_values};
use crate::operation::OPERATION_WORDS;
use crate::row::element;
use crate::tuple::Tuple;
use crate::{CORE_COLUMNS, KECCAK_RC_COLUMNS, P, ROUND_COLUMNS};

/// The number of the Keccak system call in the samples: two halves that differ, neither of them 0.
pub const SAMPLE_SYSCALL: u64 = (3 << 32) | 11;

/// Words below p by the rule x → (6364136223846793005·x + 1) mod p. The first word is that after the seed.
#[derive(Debug, Clone)]
pub struct Generator {
    word: u64,
}

impl Generator {
    /// The factor of the rule.
    pub const FACTOR: u64 = 6_364_136_223_846_793_005;

    /// The generator with a seed below p.
    pub fn new(seed: u64) -> Self {
        assert!(seed < P, "the seed is below p");
        Self { word: seed }
    }

    /// The next word.
    pub fn word(&mut self) -> u64 {
        self.word = (element(Self::FACTOR) * element(self.word) + element(1)).value();
        self.word
    }

    /// The next `n` words.
    pub fn words(&mut self, n: usize) -> Vec<u64> {
        (0..n).map(|_| self.word()).collect()
    }
}

/// `n` operations with seed `seed`. Operation i takes 27 words: the timestamp is the first, the address is the second
/// without its upper 16 and lower 3 bits, the others are the input. The output is what the published round table makes
/// of the input; the segment number is the lower half of the timestamp.
pub fn operations(seed: u64, n: usize) -> Vec<u64> {
    let mut generator = Generator::new(seed);
    let mut list = Vec::with_capacity(n * OPERATION_WORDS);
    for _ in 0..n {
        let mut operation = generator.words(27);
        operation[1] &= 0x0000_FFFF_FFFF_FFF8;
        operation.resize(OPERATION_WORDS, 0);
        let output = permuted(&operation);
        operation[27..52].copy_from_slice(&output);
        operation[52] = operation[0] & 0xFFFF_FFFF;
        list.extend(operation);
    }
    list
}

/// What the published round table makes of an operation's input: the state that row 23 sends, as lanes.
pub fn permuted(operation: &[u64]) -> [u64; 25] {
    let table = round_table(operation);
    let row = &table[23 * ROUND_COLUMNS..][..ROUND_COLUMNS];
    let sent = &round_tuples(row)[1].values[3..];
    // The tuple goes through the lanes with y fastest; lane x + 5y is at x·5 + y.
    core::array::from_fn(|lane| {
        let start = (lane % 5 * 5 + lane / 5) * 8;
        sent[start..start + 8]
            .iter()
            .rev()
            .fold(0, |number, byte| number << 8 | byte)
    })
}

/// A line: the kind of its item, then numbers.
type Line = Vec<u64>;

/// The sample of bitwise rows, constant rows and keys.
pub fn tables() -> Vec<Line> {
    let mut lines = Vec::new();
    let mut generator = Generator::new(1);

    let chosen = [0, 266_804, 1_048_575];
    let drawn = generator.words(50).into_iter().map(|word| word % 1_048_576);
    for index in chosen.into_iter().chain(drawn) {
        let mut row = bitwise_row(index as usize).to_vec();
        row.extend(generator.words(10));
        lines.push(line(1, &[index], &row));
        push_tuples(&mut lines, 2, index, &bitwise_tuples(&row));
    }

    for (round, row) in (0..).zip(keccak_rc_table(7).chunks_exact(KECCAK_RC_COLUMNS)) {
        lines.push(line(3, &[round], row));
        push_tuples(&mut lines, 4, round, &keccak_rc_tuples(row));
    }

    let chosen = [0, 65_535, 65_536, 1 << 32, u64::MAX];
    let drawn = generator.words(45);
    for (k, number) in (0..).zip(chosen.into_iter().chain(drawn)) {
        let [word, half] = is_wh_key(number);
        lines.push(line(5, &[k, number], &[word, half]));
        let row = [number & 0xFFFF, half, word, generator.word()];
        lines.push(line(6, &[k], &row));
        push_tuples(&mut lines, 7, k, &is_whh_tuples(&row, 0, 3));
        push_tuples(&mut lines, 8, k, &is_wh_tuples(&row));
    }
    lines
}

/// The same without what the template IS_WHH sends: its tuples are those of core rows.
pub fn lookups() -> Vec<Line> {
    tables().into_iter().filter(|line| line[0] != 7).collect()
}

/// The sample of core rows: five operations' table and keys, then three rows of drawn words.
pub fn core() -> Vec<Line> {
    let operations = operations(2, 5);
    let mut rows = core_table(&operations);
    rows.extend(Generator::new(3).words(3 * CORE_COLUMNS));

    let mut lines = operation_lines(&operations);
    lines.extend(numbered(10, &is_wh_keys(&operations), 2));
    for (k, row) in (0..).zip(rows.chunks_exact(CORE_COLUMNS)) {
        lines.push(line(11, &[k], row));
        lines.push(line(12, &[k], &core_values(row)));
        push_tuples(&mut lines, 13, k, &core_tuples(row, SAMPLE_SYSCALL));
    }
    lines
}

/// The sample of round rows: one operation's table, then two rows of drawn words; tuples of rows 0, 23 and the drawn.
pub fn round() -> Vec<Line> {
    let operations = operations(4, 1);
    let mut rows = round_table(&operations);
    rows.extend(Generator::new(5).words(2 * ROUND_COLUMNS));

    let mut lines = operation_lines(&operations);
    for (k, row) in (0..).zip(rows.chunks_exact(ROUND_COLUMNS)) {
        lines.push(line(14, &[k], row));
        lines.push(line(15, &[k], &round_values(row)));
        if [0, 23, 32, 33].contains(&k) {
            push_tuples(&mut lines, 16, k, &round_tuples(row));
        }
    }
    lines
}

/// The sample of rows, for a program that replays rows alone: five operations, their keys and their core table, and the
/// digests of the round table of the first two.
pub fn rows() -> Vec<Line> {
    let operations = operations(2, 5);
    let digests: Vec<u64> = round_table(&operations[..2 * OPERATION_WORDS])
        .chunks_exact(ROUND_COLUMNS)
        .map(digest)
        .collect();
    let mut lines = operation_lines(&operations);
    lines.extend(numbered(10, &is_wh_keys(&operations), 2));
    lines.extend(numbered(11, &core_table(&operations), CORE_COLUMNS));
    lines.extend(numbered(17, &digests, 1));
    lines
}

/// The sample of values and tuples, for a program that replays them: the rows of `core` and `round`, of each row the values
/// and the digest of all its tuples.
pub fn evaluations() -> Vec<Line> {
    let mut core = core_table(&operations(2, 5));
    core.extend(Generator::new(3).words(3 * CORE_COLUMNS));
    let mut round = round_table(&operations(4, 1));
    round.extend(Generator::new(5).words(2 * ROUND_COLUMNS));

    let mut lines = Vec::new();
    for (k, row) in (0..).zip(core.chunks_exact(CORE_COLUMNS)) {
        lines.push(line(12, &[k], &core_values(row)));
        lines.push(line(18, &[k], &[tuples_digest(&core_tuples(row, SAMPLE_SYSCALL))]));
    }
    for (k, row) in (0..).zip(round.chunks_exact(ROUND_COLUMNS)) {
        lines.push(line(15, &[k], &round_values(row)));
        lines.push(line(19, &[k], &[tuples_digest(&round_tuples(row))]));
    }
    lines
}

/// The digest of the numbers of all tuples, one after the other.
fn tuples_digest(tuples: &[Tuple]) -> u64 {
    digest(&tuples.iter().flat_map(tuple_numbers).collect::<Vec<u64>>())
}

/// The digest of words below p: from 0, for each word in turn the digest becomes (6364136223846793005·digest + word) mod p.
pub fn digest(words: &[u64]) -> u64 {
    let step = |digest, &word| element(Generator::FACTOR) * digest + element(word);
    words.iter().fold(element(0), step).value()
}

/// A tuple as numbers: bus, side, multiplicity, length, values.
pub fn tuple_numbers(tuple: &Tuple) -> Vec<u64> {
    let head = [
        tuple.bus.into(),
        tuple.side as u64,
        tuple.multiplicity,
        tuple.values.len() as u64,
    ];
    [&head, tuple.values.as_slice()].concat()
}

fn operation_lines(operations: &[u64]) -> Vec<Line> {
    numbered(9, operations, OPERATION_WORDS)
}

/// Words as lines of `width`, numbered from 0.
fn numbered(kind: u64, words: &[u64], width: usize) -> Vec<Line> {
    (0..)
        .zip(words.chunks_exact(width))
        .map(|(k, words)| line(kind, &[k], words))
        .collect()
}

fn line(kind: u64, places: &[u64], words: &[u64]) -> Line {
    [&[kind], places, words].concat()
}

fn push_tuples(lines: &mut Vec<Line>, kind: u64, row: u64, tuples: &[Tuple]) {
    lines.extend(
        (0..)
            .zip(tuples)
            .map(|(i, tuple)| line(kind, &[row, i], &tuple_numbers(tuple))),
    );
}
