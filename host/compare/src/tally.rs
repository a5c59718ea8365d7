//! The operation file: its sums against those of the published Rust's tuples, its operations both ways, and damaged files
//! against a second reading of the interface's text.

use keccak_tables::keccak::LAST_ADDRESS;
use keccak_tables::operation_file::{Sums, Tally, file_bytes, read_operations, write_operations};
use keccak_tables::{OP_WORDS, Parameters, Refusal, SEGMENT_WORD};

use crate::by_floor;
use crate::comparison::Comparison;
use crate::inputs::Words;
use crate::lent::{Lent, LentBytes};
use crate::list_calls::of_addresses;
use crate::plain_file::{self, file_of, first_fault, operations_of};

/// The most records of a file that is damaged.
const MOST_DAMAGED: usize = 6;

/// The whole area: files of 0 to 40 records, some longer ones, those of 0 to 90 whose tables are shipped, those under either mark and of old,
/// those with records off the eight, and `n` damaged ones.
pub fn compare(comparison: &mut Comparison, seed: u64, n: usize) {
    let mut words = Words::new(seed);
    let lists: Vec<Vec<u64>> = (0..=40).map(|n| words.operations(n)).collect();
    comparison.group("sums of 0 to 40 operations");
    for ops in &lists {
        sums(comparison, &mut words, Parameters::default(), ops);
    }
    comparison.group("sums of 41 to 300 operations");
    for _ in 0..8 {
        let n = 41 + words.below(260) as usize;
        let ops = words.operations(n);
        sums(comparison, &mut words, Parameters::default(), &ops);
    }
    comparison.group("sums over the rows as written of 0 to 90 operations, shipped");
    for n in 0..=90 {
        let ops = words.operations(n);
        sums(comparison, &mut words, Parameters::default().shipped(), &ops);
    }
    comparison.group("operations of a file, both ways");
    for ops in &lists {
        both_ways(comparison, &mut words, ops);
    }
    comparison.group("files of 0 to 60 records under drawn marks, also 4B 50 for segment 0, cut anywhere");
    for n in 0..=60 {
        marked(comparison, &mut words, n);
    }
    comparison.group("lines of files of old, under 4B 4F alone");
    for n in 0..=60 {
        of_old(comparison, &mut words, n);
    }
    comparison.group("files of 0 to 60 records, some or all of them off the eight");
    for n in 0..=60 {
        off_the_eight(comparison, &mut words, n);
    }
    comparison.group("damaged files, with records off the eight and high ones");
    let sums = modes().map(|mode| {
        let count = |n| expected(mode, &file_of(&vec![0; n * OP_WORDS]));
        (0..=MOST_DAMAGED).map(count).collect()
    });
    for _ in 0..n {
        damaged(comparison, &mut words, &sums);
    }
}

/// What our reader says of a file that is cut at drawn places.
pub fn read(words: &mut Words, parameters: Parameters, file: &[u8]) -> Result<Sums, Refusal> {
    let most = [1, 20, 500, 5_000][words.below(4) as usize];
    let mut tally = Tally::new();
    let mut rest = file;
    while !rest.is_empty() {
        let (piece, later) = rest.split_at((words.below(most) as usize + 1).min(rest.len()));
        tally.feed(piece);
        rest = later;
    }
    tally.finish_with(parameters)
}

/// The parameters of both modes.
fn modes() -> [Parameters; 2] {
    [Parameters::default(), Parameters::default().shipped()]
}

/// The parameters of either mode.
pub fn drawn_mode(words: &mut Words) -> Parameters {
    modes()[words.below(2) as usize]
}

/// The ten sums, in the order of the program's lines, the records that they leave out, and the segment numbers.
pub fn numbers(sums: &Sums) -> Vec<u64> {
    let lines = sums.lines().map(|(_, number)| number);
    let segments = sums.segments().map_or([0; 3], |(a, b)| [1, a.into(), b.into()]);
    [&lines[..], &[sums.unaligned], &segments].concat()
}

/// The same of a file of whole records by the published Rust, which has floor 4, or by a plain reading where the floor is another; on the
/// operations at multiples of 8, by the number of the others, and by a second reading of the segment numbers.
pub fn expected(parameters: Parameters, file: &[u8]) -> Vec<u64> {
    let ops = operations_of(file);
    let operations = ops.chunks_exact(OP_WORDS);
    let (counted, others): (Vec<_>, Vec<_>) = operations.partition(|operation| operation[1].is_multiple_of(8));
    let whole = |sums: [(&str, u128); 10]| sums.map(|(_, sum)| u64::try_from(sum).expect("a sum is a word"));
    let sums = match (parameters.floor, parameters.shipped) {
        (4, true) => whole(oracle::shipped_tally(&counted.concat())),
        (4, false) => whole(oracle::tally(&counted.concat())),
        _ => by_floor::tally(parameters, counted.len()),
    };
    [&sums[..], &[others.len() as u64], &plain_file::segments(file)].concat()
}

/// What our reader says of the file of a list, against that.
pub fn sums(comparison: &mut Comparison, words: &mut Words, parameters: Parameters, ops: &[u64]) {
    sums_of(comparison, words, parameters, &file_of(ops));
}

fn sums_of(comparison: &mut Comparison, words: &mut Words, parameters: Parameters, file: &[u8]) {
    let input = || format!("{parameters:?}, a file of the operations {:?}", operations_of(file));
    if let Some(ours) = comparison.done(input, read(words, parameters, file)) {
        comparison.equal(|_| input(), &numbers(&ours), &expected(parameters, file));
    }
}

/// A file under drawn marks: all, most, half or few of them 4B 50, whatever the segment; those under 4B 4F are of segment 0. It is read, in
/// both modes, in two pieces cut at each byte about a record's ends, and into a list, whose file has segment 0 under 4B 4F.
fn marked(comparison: &mut Comparison, words: &mut Words, records: usize) {
    let eighths = [8, 7, 4, 1][words.below(4) as usize];
    let mut ops = words.operations(records);
    let mut file = Vec::new();
    for operation in ops.chunks_exact_mut(OP_WORDS) {
        let marked = words.below(8) < eighths;
        if !marked || words.below(4) == 0 {
            operation[SEGMENT_WORD] = 0;
        }
        file.extend(plain_file::record(operation, marked));
    }
    for mode in modes() {
        sums_of(comparison, words, mode, &file);
    }
    let whole = expected(Parameters::default(), &file);
    let starts = plain_file::records(&file).into_iter().map(|(start, _)| start);
    for start in starts.chain([file.len()]) {
        for cut in start.saturating_sub(6)..=(start + 3).min(file.len()) {
            let mut tally = Tally::new();
            tally.feed(&file[..cut]);
            tally.feed(&file[cut..]);
            let input = || format!("a cut at {cut} of the file of {ops:?}");
            if let Some(ours) = comparison.done(input, tally.finish()) {
                comparison.equal(|_| input(), &numbers(&ours), &whole);
            }
        }
    }
    both_ways_by(comparison, words, &ops, &file);
}

/// A file under 4B 4F alone: its lines are those that it had before there were segment numbers.
fn of_old(comparison: &mut Comparison, words: &mut Words, records: usize) {
    let mut ops = words.operations(records);
    for operation in ops.chunks_exact_mut(OP_WORDS) {
        operation[SEGMENT_WORD] = 0;
        if words.below(8) == 0 {
            operation[1] = words.unaligned_address();
        }
    }
    let file = file_of(&ops);
    let input = || format!("a file of old of {ops:?}");
    let mode = drawn_mode(words);
    if let Some(ours) = comparison.done(input, read(words, mode, &file)) {
        let numbers = expected(mode, &file);
        let names = oracle::tally(&[]).map(|(name, _)| name);
        let lines = names
            .iter()
            .zip(&numbers)
            .map(|(name, number)| format!("{name} {number}\n"));
        let unaligned = (numbers[10] > 0).then(|| format!("unaligned {}\n", numbers[10]));
        let lines: String = lines.chain(unaligned).collect();
        let bytes = |text: &str| text.bytes().map(u64::from).collect::<Vec<u64>>();
        comparison.equal(|_| input(), &bytes(&ours.to_string()), &bytes(&lines));
    }
}

/// A file whose records are off the eight: all, most, half or few of them. It is read, in both modes and into a list, which can't be written.
fn off_the_eight(comparison: &mut Comparison, words: &mut Words, records: usize) {
    let mut ops = words.operations(records);
    let eighths = [8, 7, 4, 1][words.below(4) as usize];
    for operation in ops.chunks_exact_mut(OP_WORDS) {
        if words.below(8) < eighths {
            operation[1] = words.unaligned_address();
        }
    }
    for mode in modes() {
        sums(comparison, words, mode, &ops);
    }
    let input = || format!("the operations {ops:?}");
    let file = file_of(&ops);
    let mut list = Lent::drawn(ops.len() + words.below(3) as usize, words);
    comparison.done(input, read_operations(&file, list.slice()));
    list.holds(comparison, |_| input(), &ops);
    if let Some((number, detail)) = of_addresses(&ops) {
        let mut bytes = LentBytes::drawn(file.len(), words);
        comparison.refused(input, write_operations(&ops, bytes.slice()), number, detail);
        bytes.holds(comparison, input, &[]);
    }
}

fn both_ways(comparison: &mut Comparison, words: &mut Words, ops: &[u64]) {
    both_ways_by(comparison, words, ops, &file_of(ops));
}

/// A file into the list of its operations, and that list into its file.
fn both_ways_by(comparison: &mut Comparison, words: &mut Words, ops: &[u64], file: &[u8]) {
    let input = || format!("the operations {ops:?}");
    let mut list = Lent::drawn(ops.len() + words.below(3) as usize, words);
    comparison.done(input, read_operations(file, list.slice()));
    list.holds(comparison, |_| input(), ops);

    let written = file_of(ops);
    comparison.equal(|_| input(), &[file_bytes(ops) as u64], &[written.len() as u64]);
    let mut bytes = LentBytes::drawn(written.len() + words.below(3) as usize, words);
    comparison.done(input, write_operations(ops, bytes.slice()));
    bytes.holds(comparison, input, &written);
}

/// Up to four faults in a file of a few records; some of them hit the same record, some none. `sums` are those of so many operations in
/// each mode.
fn damaged(comparison: &mut Comparison, words: &mut Words, sums: &[Vec<Vec<u64>>; 2]) {
    let records = words.below(MOST_DAMAGED as u64) as usize + 1;
    let ops = words.operations(records);
    let mut file = file_of(&ops);
    for _ in 0..=words.below(4) {
        let starts = plain_file::records(&file);
        let start = starts
            .get(words.below(records as u64) as usize)
            .map_or(0, |&(start, _)| start);
        match words.below(7) {
            0 => set(&mut file, start + words.below(2) as usize, &[words.mark()]),
            1 => set_address(&mut file, start, LAST_ADDRESS - 1 + words.below(4)),
            2 => set_address(&mut file, start, LAST_ADDRESS - 9 + words.below(20)),
            3 | 4 => set_address(&mut file, start, words.unaligned_address()),
            5 => file.truncate(words.below(file.len() as u64 + 1) as usize),
            _ => file.push(words.word() as u8),
        }
    }
    let input = || format!("the file {file:?}");
    let mode = drawn_mode(words);
    let answer = read(words, mode, &file);
    let mut list = Lent::drawn(ops.len() + OP_WORDS, words);
    let listed = read_operations(&file, list.slice());
    match first_fault(&file) {
        Some((number, detail)) => {
            comparison.refused(input, answer, number, detail);
            comparison.refused(input, listed, number, detail);
            list.kept(comparison, |_| input());
        }
        None => {
            let whole = operations_of(&file);
            let addresses = whole.chunks_exact(OP_WORDS).map(|operation| operation[1]);
            let left_out = addresses.filter(|address| address % 8 != 0).count();
            let mut expected = sums[usize::from(mode.shipped)][whole.len() / OP_WORDS - left_out].clone();
            expected[10] = left_out as u64;
            expected[11..].copy_from_slice(&plain_file::segments(&file));
            if let Some(ours) = comparison.done(input, answer) {
                comparison.equal(|_| input(), &numbers(&ours), &expected);
            }
            comparison.done(input, listed);
            list.holds(comparison, |_| input(), &whole);
        }
    }
}

fn set_address(file: &mut [u8], record: usize, address: u64) {
    set(file, record + 10, &address.to_le_bytes());
}

fn set(file: &mut [u8], at: usize, bytes: &[u8]) {
    if let Some(part) = file.get_mut(at..at + bytes.len()) {
        part.copy_from_slice(bytes);
    }
}

#[cfg(test)]
mod tests {
    use super::*;

    #[test]
    fn the_lines_have_the_names_of_the_oracle() {
        let sums = Tally::new().finish().expect("an empty file has sums");
        assert_eq!(
            sums.lines().map(|(name, _)| name),
            oracle::tally(&[]).map(|(name, _)| name)
        );
    }
}
