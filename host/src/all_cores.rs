//! The rows of a list on all cores: each thread writes those of a part of the list into its own part of the table. That these
//! parts are the rows of the whole list is proved (`core-rows-joined`, `round-rows-joined`).

use std::thread::{self, Builder};

use crate::operation::OP_WORDS;
use crate::refusal::Refusal;

/// The fewest words that are worth a thread: eight megabytes. Of smaller parts a core writes so many a second from its caches that
/// beginning a thread costs what it saves.
const LEAST_WORDS: usize = 1 << 20;

/// Writes the rows of a list by a call, as many to an operation as to any other, over the whole of `rows`, and says whether it did. It does not
/// where two threads would have too little to do, where a part is refused or where there are no threads; then the words are to be
/// written, or the refusal found, by a call on the whole list.
pub fn write(ops: &[u64], rows: &mut [u64], call: impl Fn(&[u64], &mut [u64]) -> Result<(), Refusal> + Sync) -> bool {
    let (operations, rest) = ops.as_chunks::<OP_WORDS>();
    let threads = threads(rows.len()).min(operations.len());
    if threads < 2 || !rest.is_empty() {
        return false;
    }
    let part = operations.len().div_ceil(threads);
    let part_words = part * (rows.len() / operations.len());
    let call = &call;
    thread::scope(|scope| {
        let parts = operations.chunks(part).zip(rows.chunks_mut(part_words));
        let begun = parts.map(|(operations, rows)| {
            let write = move || call(operations.as_flattened(), rows).is_ok();
            Builder::new().spawn_scoped(scope, write).ok()
        });
        let begun: Option<Vec<_>> = begun.collect();
        begun.is_some_and(|begun| begun.into_iter().all(|thread| thread.join().unwrap_or(false)))
    })
}

/// How many threads so many words are worth, no more than there are cores.
fn threads(words: usize) -> usize {
    match words / LEAST_WORDS {
        worth @ 2.. => worth.min(thread::available_parallelism().map_or(1, usize::from)),
        few => few,
    }
}

#[cfg(test)]
mod tests {
    use super::*;

    /// As many words to an operation as make a list of 40 worth every core of a small machine.
    const WORDS: usize = LEAST_WORDS / 4;

    /// Each operation's rows hold its first word.
    fn fill(ops: &[u64], rows: &mut [u64]) -> Result<(), Refusal> {
        assert_eq!(ops.len() / OP_WORDS * WORDS, rows.len());
        for (operation, rows) in ops.chunks(OP_WORDS).zip(rows.chunks_mut(WORDS)) {
            rows.fill(operation[0]);
        }
        Ok(())
    }

    fn list(n: usize) -> Vec<u64> {
        (0..n * OP_WORDS).map(|word| word as u64 + 1).collect()
    }

    #[test]
    fn the_parts_are_the_whole_whatever_their_number() {
        for n in [8, 9, 13, 39, 40] {
            let ops = list(n);
            let mut whole = vec![0; n * WORDS];
            fill(&ops, &mut whole).expect("it never refuses");
            let mut parts = vec![0; n * WORDS];
            assert_eq!(write(&ops, &mut parts, fill), threads(parts.len()) > 1);
            assert!(threads(parts.len()) < 2 || parts == whole, "{n} operations");
        }
    }

    #[test]
    fn what_is_short_not_whole_or_refused_is_left_to_the_call_on_the_whole_list() {
        let refuse = |_: &[u64], _: &mut [u64]| Err(Refusal::HighAddress { address: 0 });
        assert!(!write(&list(7), &mut vec![0; 7 * WORDS], fill));
        assert!(!write(&list(8)[1..], &mut vec![0; 8 * WORDS], fill));
        assert!(!write(&list(8), &mut vec![0; 8 * WORDS], refuse));
        assert!(!write(&[], &mut [], fill));
    }
}
