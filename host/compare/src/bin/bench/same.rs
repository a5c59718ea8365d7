//! An operation file against a core table, ours against a matching by a hash map in plain Rust (`compare/src/same/model.rs`), which makes the
//! same checks and allocates a map. 2,730 and 65,536 drawn calls, timestamps rising: rows and records in one order (`same-N`), then in a drawn
//! order the rows alone (`same-N-rows`) or the records alone (`same-N-records`), where ours goes through what is left for each record. Of the
//! larger these two are run once, a minute or two each, all others several times; each answer is checked in every run. Lines of a record; the rows are as many,
//! padding rows apart.

use std::hint::black_box;
use std::time::Duration;

use compare::inputs::Words;
use compare::plain_file::{file_of, records};
use compare::same::{model, shuffle};
use compare::say;
use keccak_tables::OP_WORDS;
use keccak_tables::keccak::{NUM_COLUMNS, keccak_table};
use keccak_tables::same_operations::{Agreement, same_operations};

use crate::timing::{best, line, ratio, time, whole};

const RUNS: usize = 5;

/// The calls, and the runs of what is not in one order.
const CALLS: [(usize, usize); 2] = [(2_730, RUNS), (65_536, 1)];

pub fn run() {
    for (calls, runs) in CALLS {
        let mut words = Words::new(7);
        let list = rising(&mut words, calls);
        let mut core = keccak_table(&list).expect("drawn operations are accepted");
        let file = file_of(&list);
        one(&format!("same-{calls}"), RUNS, calls, &core, &file);
        let mut order = records(&file);
        shuffle(&mut order, &mut words);
        let shuffled: Vec<u8> = order.into_iter().flat_map(|(_, record)| record).copied().collect();
        one(&format!("same-{calls}-records"), runs, calls, &core, &shuffled);
        shuffle(core.as_chunks_mut::<NUM_COLUMNS>().0, &mut words);
        one(&format!("same-{calls}-rows"), runs, calls, &core, &file);
    }
}

/// Drawn calls, timestamps rising.
fn rising(words: &mut Words, calls: usize) -> Vec<u64> {
    let mut list = words.operations(calls);
    for (call, operation) in (1..).zip(list.chunks_exact_mut(OP_WORDS)) {
        operation[0] = call << 2;
    }
    list
}

fn one(name: &str, runs: usize, calls: usize, core: &[u64], file: &[u8]) {
    say!("{name}: time in all, and of a record");
    let [ours, theirs] = best(
        runs,
        [Box::new(|| ours(core, file)), Box::new(|| by_a_hash_map(core, file))],
    );
    for (side, time) in [("ours", ours), ("a hash map", theirs)] {
        whole(side, time);
        line(side, time, calls);
    }
    ratio(name, ours, theirs);
}

fn ours(core: &[u64], file: &[u8]) -> Duration {
    time(|| assert_eq!(same_operations(black_box(core), black_box(file)), Ok(Agreement::Same)))
}

fn by_a_hash_map(core: &[u64], file: &[u8]) -> Duration {
    time(|| assert_eq!(model::answer(black_box(core), black_box(file)), Ok([0, 0])))
}
