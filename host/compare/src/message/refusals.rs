//! Refusals of the two calls: every condition about its edge, several at once, and every lent word as it was.

use keccak_tables::keccak::LAST_ADDRESS;
use keccak_tables::message::{self, MAX_MESSAGE};
use keccak_tables::{MAX_OPS, OP_WORDS, SEGMENT_WORD};

use super::{drawn, list_of};
use crate::comparison::Comparison;
use crate::inputs::{LAST_ALIGNED, Words};
use crate::list_calls::{PUT, TOO_MANY, list_with, of_operations};
use crate::refusals::first;
use crate::refused::on_slice;
use crate::untouched::Untouched;

/// Lengths of messages about the limit.
const LENGTHS: [usize; 7] = [
    0,
    136,
    420,
    MAX_MESSAGE - 1,
    MAX_MESSAGE,
    MAX_MESSAGE + 1,
    2 * MAX_MESSAGE,
];

/// The refusals of the calls of this area.
pub fn compare(comparison: &mut Comparison, words: &mut Words) {
    comparison.group("refusals: messages, every set of conditions");
    for length in LENGTHS {
        let message = drawn(words, length);
        written(comparison, words, &message);
        judged(comparison, words, &message);
    }
    comparison.group("refusals: judged lists about the limit");
    too_many(comparison, words);
}

/// The refusal of a message alone.
fn of_message(message: &[u8]) -> (bool, u64, u64) {
    (message.len() > MAX_MESSAGE, 12, message.len() as u64)
}

/// Timestamps, rooms and addresses about their ends.
fn written(comparison: &mut Comparison, words: &mut Words, message: &[u8]) {
    let more = message.len() as u64 / 136;
    let needed = (more as usize + 1) * OP_WORDS;
    for timestamp in [0, u64::MAX - more, (u64::MAX - more).saturating_add(1), u64::MAX] {
        for room in [0, needed - 1, needed, needed + 1] {
            for address in [0, LAST_ALIGNED, 4100, LAST_ADDRESS, LAST_ADDRESS + 1, u64::MAX] {
                let expected = first(&[
                    of_message(message),
                    (u128::from(timestamp) + u128::from(more) >= 1 << 64, 13, timestamp),
                    (room < needed, 3, needed as u64),
                    (u128::from(address) + 192 >= 1 << 64, 4, address),
                    (!address.is_multiple_of(8), 7, address),
                ]);
                let input = || format!("{} bytes at {address} from {timestamp} on", message.len());
                on_slice(
                    comparison,
                    words,
                    ("message_operations", input),
                    room,
                    expected,
                    |ops| message::message_operations(message, address, timestamp, ops),
                );
            }
        }
    }
}

/// The refusal of a judged list: of its length, of the message, and then of its words.
fn refusal(message: &[u8], ops: &[u64]) -> Option<(u64, u64)> {
    let lengths = [
        (ops.len() / OP_WORDS > MAX_OPS, 1, TOO_MANY),
        of_message(message),
        (!ops.len().is_multiple_of(OP_WORDS), 2, 2),
    ];
    first(&lengths).or_else(|| of_operations(ops))
}

fn judge(comparison: &mut Comparison, message: &[u8], ops: &[u64]) {
    let input = || format!("{} bytes, a list of {} words", message.len(), ops.len());
    let answer = message::judge_message(message, ops);
    comparison.answered("judge_message", input, answer, refusal(message, ops));
}

/// Lists of some operations, whole or not, with and without words that are refused; and the message's own with such words.
fn judged(comparison: &mut Comparison, words: &mut Words, message: &[u8]) {
    for put in PUT {
        for past in [0, 1, OP_WORDS - 1] {
            for n in [0, 1, 4] {
                let ops = list_with(words, n, past, put);
                judge(comparison, message, &ops);
            }
            let mut ops = list_of(message, 4096, 5);
            for (place, put) in [(1, put.addresses), (SEGMENT_WORD, put.segments)] {
                for (operation, &word) in ops.chunks_exact_mut(OP_WORDS).rev().zip(put) {
                    operation[place] = word;
                }
            }
            ops.extend(words.take(past));
            judge(comparison, message, &ops);
        }
    }
}

/// As many operations as a list may have, one more and two more, whole or not, the first refused or not. Where it is neither too long nor
/// cut, the first operation is refused, so that nothing else is read.
fn too_many(comparison: &mut Comparison, words: &mut Words) {
    let Some(mut untouched) = Untouched::operations(MAX_OPS + 3) else {
        return;
    };
    let messages = [drawn(words, 5), drawn(words, MAX_MESSAGE + 1)];
    untouched.words_mut()[1] = u64::MAX;
    for n in [MAX_OPS, MAX_OPS + 1, MAX_OPS + 2] {
        for past in [0, 1, OP_WORDS - 1] {
            for message in &messages {
                judge(comparison, message, &untouched.words()[..n * OP_WORDS + past]);
            }
        }
    }
}
