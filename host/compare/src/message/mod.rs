//! From message to operations: what is written for a message, against a plain SHA3-256, and what is judged to be a message's.

pub mod refusals;

use keccak_tables::message::{self, Digest, MAX_MESSAGE};
use keccak_tables::{OP_WORDS, Operation, SEGMENT_WORD};

use crate::comparison::Comparison;
use crate::inputs::{LAST_ALIGNED, Words};
use crate::lent::Lent;
use crate::plain_sha3;

/// The whole area; about `n / 20` long messages are drawn.
pub fn compare(comparison: &mut Comparison, seed: u64, n: usize) {
    let mut words = Words::new(seed);
    comparison.group("messages of every length from 0 to 420 bytes");
    for length in 0..=420 {
        of_length(comparison, &mut words, length);
    }
    comparison.group("drawn messages of up to 65,536 bytes");
    for length in [
        MAX_MESSAGE,
        MAX_MESSAGE - 1,
        MAX_MESSAGE / 136 * 136,
        MAX_MESSAGE / 136 * 136 - 1,
    ] {
        of_length(comparison, &mut words, length);
    }
    for _ in 0..n.div_ceil(20) {
        let length = words.below(MAX_MESSAGE as u64 + 1) as usize;
        of_length(comparison, &mut words, length);
    }
    comparison.group("lists that are judged: changed in a word, cut, longer, other timestamps and addresses");
    for length in [0, 1, 135, 136, 137, 271, 272, 1_000] {
        for _ in 0..n.div_ceil(10) {
            judged(comparison, &mut words, length);
        }
    }
    refusals::compare(comparison, &mut words);
}

/// A message's bytes.
pub fn drawn(words: &mut Words, length: usize) -> Vec<u8> {
    let bytes = |word: u64| word.to_le_bytes();
    match words.below(8) {
        0 => vec![0; length],
        1 => vec![0xFF; length],
        _ => words
            .take(length / 8 + 1)
            .into_iter()
            .flat_map(bytes)
            .take(length)
            .collect(),
    }
}

/// The list of a message, by the plain digest.
pub fn list_of(message: &[u8], address: u64, timestamp: u64) -> Vec<u64> {
    let operation = |(at, [input, output]): (u64, [[u64; 25]; 2])| Operation {
        timestamp: timestamp + at,
        address,
        input,
        output,
        segment: 0,
    };
    let operations = (0..).zip(plain_sha3::states(message)).map(operation);
    operations.flat_map(|operation| operation.words()).collect()
}

/// A first timestamp: drawn, low, or the last that is accepted.
fn first_timestamp(words: &mut Words, operations: usize) -> u64 {
    let last = u64::MAX - (operations as u64 - 1);
    match words.below(4) {
        0 => last,
        1 => words.below(1 << 20),
        _ => words.word().min(last),
    }
}

/// What is written for a message of this length, exactly there, and its digest; and the judge says yes to it.
fn of_length(comparison: &mut Comparison, words: &mut Words, length: usize) {
    let message = drawn(words, length);
    let operations = length / 136 + 1;
    let (address, timestamp) = (words.address(), first_timestamp(words, operations));
    let theirs = list_of(&message, address, timestamp);
    let more = words.below(3) as usize * 31;
    let mut lent = Lent::drawn(theirs.len() + more, words);
    let answer = message::message_operations(&message, address, timestamp, lent.slice());
    let input = || format!("a message of {length} bytes at {address} from {timestamp} on");
    if let Some(count) = comparison.done(input, answer) {
        let counts = [count, message::operation_count(length)].map(|count| count as u64);
        comparison.equal(|_| format!("the number, {}", input()), &counts, &[operations as u64; 2]);
    }
    lent.holds(comparison, |_| input(), &theirs);
    let digest = Digest::new(&message, address, timestamp);
    if let Some(digest) = comparison.done(input, digest) {
        let [ours, plain] = [digest.bytes(), plain_sha3::sha3_256(&message)].map(|bytes| bytes.map(u64::from));
        comparison.equal(|_| format!("the digest, {}", input()), &ours, &plain);
        comparison.equal(|_| format!("its list, {}", input()), digest.list(), &theirs);
    }
    verdict(comparison, &message, &theirs, true, input);
}

/// What the judge says is to be this.
fn verdict(comparison: &mut Comparison, message: &[u8], ops: &[u64], yes: bool, input: impl Fn() -> String) {
    let judged = message::judge_message(message, ops);
    if let Some(answer) = comparison.done(&input, judged) {
        comparison.equal(
            |_| format!("the judge's answer, {}", input()),
            &[answer.into()],
            &[yes.into()],
        );
    }
}

/// A message's list as it is, and otherwise. What is refused is tried in `refusals`.
fn judged(comparison: &mut Comparison, words: &mut Words, length: usize) {
    let message = drawn(words, length);
    let operations = length / 136 + 1;
    let address = words.below(LAST_ALIGNED / 8) * 8;
    let timestamp = first_timestamp(words, operations);
    let list = list_of(&message, address, timestamp);
    let input = |what: &str| format!("{what}, a message of {length} bytes at {address} from {timestamp} on");
    verdict(comparison, &message, &list, true, || input("as it is"));
    verdict(comparison, &message, &[], false, || input("an empty list"));
    // A word that is another: not one that is refused.
    let place = words.below(list.len() as u64) as usize;
    let mut changed = list.clone();
    changed[place] ^= match place % OP_WORDS {
        1 => 8,
        SEGMENT_WORD => 1 << words.below(32),
        _ => 1 << words.below(64),
    };
    let is_the_only_address = place == 1 && operations == 1;
    let late = u128::from(changed[0]) + operations as u128 > 1 << 64;
    let is_the_only_timestamp = place == 0 && operations == 1 && !late;
    let yes = is_the_only_address || is_the_only_timestamp;
    verdict(comparison, &message, &changed, yes, || {
        input(&format!("word {place} changed"))
    });
    // One operation fewer, one more.
    let cut = &list[..list.len() - OP_WORDS];
    verdict(comparison, &message, cut, false, || input("cut by an operation"));
    let longer = [&list[..], &list[list.len() - OP_WORDS..]].concat();
    verdict(comparison, &message, &longer, false, || input("longer by an operation"));
    // Another address and another first timestamp of all.
    let other = list_of(
        &message,
        words.below(LAST_ALIGNED / 8) * 8,
        first_timestamp(words, operations),
    );
    verdict(comparison, &message, &other, true, || {
        input("at another place and time")
    });
    // Timestamps that would pass the last: the words wrap.
    if operations > 1 {
        let mut late = list.clone();
        for (at, operation) in late.chunks_exact_mut(OP_WORDS).enumerate() {
            operation[0] = (u64::MAX - (operations as u64 - 2)).wrapping_add(at as u64);
        }
        verdict(comparison, &message, &late, false, || input("timestamps that wrap"));
    }
    // Another message of the same length.
    if let Some(at) = length.checked_sub(1).map(|last| words.below(last as u64 + 1) as usize) {
        let mut other = message.clone();
        other[at] ^= 1 << words.below(8);
        verdict(comparison, &other, &list, false, || {
            input(&format!("byte {at} changed"))
        });
    }
}
