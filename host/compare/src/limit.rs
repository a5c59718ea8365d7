//! Operation files about the most records that one may have: 37 or 38 GB, which repeat a piece of 55 MB.

use keccak_tables::operation_file::{RECORD_BYTES, SEGMENT_RECORD_BYTES, Tally, read_operations};
use keccak_tables::same_operations::{Agreement, same_operations};
use keccak_tables::{MAX_OPS, OP_WORDS, Parameters, SEGMENT_WORD};

use crate::comparison::Comparison;
use crate::inputs::Words;
use crate::lent::Lent;
use crate::list_calls::TOO_MANY;
use crate::plain_file::file_of;
use crate::say;
use crate::tally::numbers;
use crate::untouched::Repeated;

/// The records of the piece: so many that it is whole pages.
const RECORDS: usize = 1 << 17;

/// What every file with a byte too many is refused with.
const PAST_END: Option<(u64, u64)> = Some((1, TOO_MANY));

/// The bytes of the longest file under 4B 4F, and of the longest of all, under 4B 50.
const MOST: usize = MAX_OPS * RECORD_BYTES;
const MOST_OF_ALL: usize = MAX_OPS * SEGMENT_RECORD_BYTES;

/// The whole area; nothing in it but the piece's operations is drawn.
pub fn compare(comparison: &mut Comparison, seed: u64, _n: usize) {
    let mut words = Words::new(seed);
    let mut ops = words.operations(RECORDS);
    for operation in ops.chunks_exact_mut(OP_WORDS) {
        operation[SEGMENT_WORD] = 0;
    }
    let Some(file) = repeated(&ops) else {
        return;
    };
    comparison.group("sums of the longest file, and a byte more");
    reader(comparison, &file.bytes()[..MOST], 0, [0; 3]);
    comparison.group("operations of the longest file into a short list, and a byte or a record more");
    into_short_lists(comparison, &mut words, file.bytes());
    comparison.group("the longest file against an empty table, and a byte or a record more");
    against_no_rows(comparison, file.bytes());
    drop(file);
    // What is left out has a place in the file all the same.
    for operation in ops.chunks_exact_mut(OP_WORDS) {
        operation[SEGMENT_WORD] = 2 + words.below(1 << 30);
    }
    for operation in ops.chunks_exact_mut(OP_WORDS).skip(7).step_by(1000) {
        operation[1] += 4;
        operation[SEGMENT_WORD] = 1;
    }
    let segments = ops.chunks_exact(OP_WORDS).map(|operation| operation[SEGMENT_WORD]);
    let counted = segments.filter(|&segment| segment > 1);
    let told = [1, counted.clone().min().unwrap_or(0), counted.max().unwrap_or(0)];
    let Some(file) = repeated(&ops) else {
        return;
    };
    comparison
        .group("sums of the longest file of all, under 4B 50, some of its records off the eight, and a byte more");
    let left_out = (0..MAX_OPS).filter(|record| record % RECORDS % 1000 == 7).count();
    reader(comparison, &file.bytes()[..MOST_OF_ALL], left_out, told);
}

/// The file that repeats a piece's operations, where the system has the addresses for it.
fn repeated(ops: &[u64]) -> Option<Repeated> {
    let file = Repeated::new(&file_of(ops), MAX_OPS / RECORDS + 1);
    if file.is_none() {
        say!("no addresses for a file of {MAX_OPS} records: files about the limit are not tried");
    }
    file
}

fn into_short_lists(comparison: &mut Comparison, words: &mut Words, file: &[u8]) {
    for (length, expected) in [
        (MOST, Some((3, (MAX_OPS * OP_WORDS) as u64))),
        (MOST + 1, PAST_END),
        (MOST + RECORD_BYTES, PAST_END),
    ] {
        let mut list = Lent::drawn(8, words);
        let answer = read_operations(&file[..length], list.slice());
        let input = || format!("a file of {length} bytes");
        comparison.answered("read_operations", input, answer, expected);
        list.kept(comparison, |_| input());
    }
}

/// No record has a row, so the first is told; a cut table is refused before the file is read.
fn against_no_rows(comparison: &mut Comparison, file: &[u8]) {
    for (core, length, expected) in [
        (&[][..], MOST, None),
        (&[], MOST + 1, PAST_END),
        (&[], MOST + RECORD_BYTES, PAST_END),
        (&[0], MOST + 1, Some((2, 0))),
    ] {
        let answer = same_operations(core, &file[..length]);
        let input = || format!("{} words and a file of {length} bytes", core.len());
        comparison.answered("same_operations", input, answer, expected);
        if let Ok(answer) = answer {
            let first = u64::from(answer == Agreement::Record(0));
            comparison.equal(|_| input(), &[first], &[1]);
        }
    }
}

/// The longest file in one piece, with so many records off the eight and these segment numbers; then its end, a byte that begins a record, and one that does not.
fn reader(comparison: &mut Comparison, file: &[u8], left_out: usize, segments: [u64; 3]) {
    let mut tally = Tally::new();
    tally.feed(file);
    let fault = |tally: &Tally| tally.fault().map_or(Ok(()), Err);
    comparison.answered("tally_feed", || "the longest file".into(), fault(&tally), None);
    // No floor is as high as these tables.
    let today = Parameters::default();
    for mode in [today, today.shipped(), today.floor(65_536)] {
        let input = || format!("{mode:?}, the longest file");
        if let Some(sums) = comparison.done(input, tally.clone().finish_with(mode)) {
            comparison.equal(|_| input(), &numbers(&sums), &expected(left_out, segments));
        }
    }
    for byte in *b"KO" {
        let mut tally = tally.clone();
        tally.feed(&[byte]);
        let input = || format!("the longest file and the byte {byte}");
        comparison.answered("tally_feed", input, fault(&tally), PAST_END);
        comparison.answered("tally_finish", input, tally.clone().finish(), PAST_END);
        let refused = tally.finish_with(today.floor(5));
        comparison.answered("tally_finish", input, refused, Some((9, 5)));
    }
}

/// The sums by the published Rust: each operation that is not left out sends as much as another, and the padding only on AreBytes.
fn expected(left_out: usize, segments: [u64; 3]) -> Vec<u64> {
    let counted = MAX_OPS - left_out;
    let n = counted as u64;
    let one = oracle::tally(&[0; OP_WORDS]).map(|(_, sum)| u64::try_from(sum).expect("a sum is a word"));
    let mut sums = one.map(|sum| n * sum);
    sums[1] = n.next_power_of_two();
    sums[2] = (24 * n).next_power_of_two();
    sums[4] = n * (one[4] - oracle::padding_are_bytes(1)) + oracle::padding_are_bytes(counted);
    [&sums[..], &[left_out as u64], &segments].concat()
}
