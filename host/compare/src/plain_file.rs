//! A second, plain reading of the operation file's text: records under two marks, the first fault, the operations and the segment numbers.

use keccak_tables::{MAX_OPS, OP_WORDS, SEGMENT_WORD};

/// The records of a file, each with the byte where it starts; the last may be cut. A second byte of 50 says that four bytes more follow.
pub fn records(file: &[u8]) -> Vec<(usize, &[u8])> {
    let mut records = Vec::new();
    let mut start = 0;
    while start < file.len() {
        let rest = &file[start..];
        let bytes = if rest.get(1) == Some(&0x50) { 422 } else { 418 };
        let record = &rest[..bytes.min(rest.len())];
        records.push((start, record));
        start += record.len();
    }
    records
}

/// The mark is right and all bytes are there.
fn is_whole(record: &[u8]) -> bool {
    match record {
        [b'K', b'O', ..] => record.len() == 418,
        [b'K', b'P', ..] => record.len() == 422,
        _ => false,
    }
}

/// Where the whole records of a file end, where the last is cut; and whether what is there of a cut one contradicts its mark.
pub fn cut(file: &[u8]) -> (usize, bool) {
    match records(file).last() {
        Some(&(start, record)) if !is_whole(record) => {
            let begun = [b"KO", b"KP"]
                .iter()
                .any(|mark| record.iter().zip(*mark).all(|(byte, mark)| byte == mark));
            (start, !begun)
        }
        _ => (file.len(), false),
    }
}

/// The interface's text again: of the first faulty record 6 for a cut or another mark, with the byte where it starts, else 4 for its address.
pub fn first_fault(file: &[u8]) -> Option<(u64, u64)> {
    records(file).into_iter().find_map(|(start, record)| {
        if !is_whole(record) {
            return Some((6, start as u64));
        }
        let address = address(record);
        (u128::from(address) + 192 >= 1 << 64).then_some((4, address))
    })
}

fn address(record: &[u8]) -> u64 {
    u64::from_le_bytes(record[10..18].try_into().expect("eight bytes"))
}

fn segment(record: &[u8]) -> u32 {
    match record.get(418..422) {
        Some(bytes) => u32::from_le_bytes(bytes.try_into().expect("four bytes")),
        None => 0,
    }
}

/// The operations of a file of whole records.
pub fn operations_of(file: &[u8]) -> Vec<u64> {
    let words = |record: &[u8]| -> Vec<u64> {
        let (words, _) = record[2..418].as_chunks();
        let words = words.iter().map(|&word| u64::from_le_bytes(word));
        words.chain([segment(record).into()]).collect()
    };
    records(file)
        .into_iter()
        .flat_map(|(_, record)| words(record))
        .collect()
}

/// What a file of whole records tells of segment numbers: 1, the least and the greatest of its records at multiples of 8, where one of these
/// is marked 4B 50; else three zeros.
pub fn segments(file: &[u8]) -> [u64; 3] {
    let records = records(file);
    let counted = records.iter().filter(|(_, record)| address(record).is_multiple_of(8));
    let marked = counted.clone().any(|(_, record)| record[1] == b'P');
    let numbers: Vec<u64> = counted.map(|(_, record)| segment(record).into()).collect();
    match (marked, numbers.iter().min(), numbers.iter().max()) {
        (true, Some(&least), Some(&greatest)) => [1, least, greatest],
        _ => [0; 3],
    }
}

/// The bytes of an operation's record, under 4B 50 or 4B 4F.
pub fn record(operation: &[u64], marked: bool) -> Vec<u8> {
    let mark = if marked { b"KP" } else { b"KO" };
    let mut bytes = mark.to_vec();
    bytes.extend(operation[..SEGMENT_WORD].iter().flat_map(|word| word.to_le_bytes()));
    if marked {
        bytes.extend(&operation[SEGMENT_WORD].to_le_bytes()[..4]);
    }
    bytes
}

/// How many bytes those of a list of operations are; of a list that is too long any number, since none of its words is to be read.
pub fn bytes_of(ops: &[u64]) -> usize {
    match ops.len() / OP_WORDS {
        0..=MAX_OPS => {
            let segments = ops.chunks_exact(OP_WORDS).map(|operation| operation[SEGMENT_WORD]);
            segments.map(|segment| if segment == 0 { 418 } else { 422 }).sum()
        }
        _ => usize::MAX,
    }
}

/// The bytes of a list of operations: segment 0 under 4B 4F, any other under 4B 50.
pub fn file_of(ops: &[u64]) -> Vec<u8> {
    let operations = ops.chunks_exact(OP_WORDS);
    operations
        .flat_map(|operation| record(operation, operation[SEGMENT_WORD] != 0))
        .collect()
}
