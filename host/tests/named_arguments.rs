//! The argument that a refusal names, where several arguments can have its number: the first in the order of the checks, whatever else
//! is wrong.

use keccak_tables::bitwise::{self, NUM_COUNTERS, TABLE_WORDS};
use keccak_tables::job::{job, job_alone, job_within};
use keccak_tables::operation_file::{read_operations, write_operations};
use keccak_tables::same_operations::{Agreement, same_operations};
use keccak_tables::verdict::{
    LINE_MOST, verdict, verdict_alone_with, verdict_line_alone, verdict_line_with, verdict_line_within, verdict_with,
    verdict_within,
};
use keccak_tables::{Lent, OP_WORDS, P, Parameters, Refusal, is_wh, keccak, keccak_rc, keccak_rnd, registers, segment};

fn past_end<T>(argument: &'static str, limit: u64) -> Result<T, Refusal> {
    Err(Refusal::PastEnd { argument, limit })
}

fn too_short<T>(argument: &'static str, needed: u64) -> Result<T, Refusal> {
    Err(Refusal::TooShort { argument, needed })
}

fn not_element<T>(argument: &'static str, place: u64) -> Result<T, Refusal> {
    Err(Refusal::NotElement { argument, place })
}

#[test]
fn a_kind_before_a_z() {
    let one = |kind, z| bitwise::bump_numbered(&mut [], kind, 0, 0, z);
    let many = |kind, z| bitwise::bump_n_numbered(&mut [], kind, 0, 0, z, 7);
    for (kind, z, refused) in [
        (10, 16, past_end("kind", 10)),
        (usize::MAX, 0, past_end("kind", 10)),
        (9, 16, past_end("z", 16)),
        (9, 255, past_end("z", 16)),
        (9, 15, too_short("counters", 10_485_760)),
    ] {
        assert_eq!(one(kind, z), refused);
        assert_eq!(many(kind, z), refused);
    }
}

/// A kind or a Z in a list is the list's, as is a list that is cut.
#[test]
fn a_word_of_a_list_before_a_short_slice() {
    let calls = [bitwise::add_ops, bitwise::update_multiplicities];
    for (call, slice, needed) in [(calls[0], "counters", 10_485_760), (calls[1], "table", 22_020_096)] {
        assert_eq!(call(&mut [], &[9, 0, 0, 16, 10, 0, 0, 0]), past_end("ops", 16));
        assert_eq!(call(&mut [], &[10, 256, 0, 16, 1]), past_end("ops", 10));
        let cut = Refusal::NotWhole {
            argument: "ops",
            which: Lent::List,
        };
        assert_eq!(call(&mut [], &[9, 256, 0, 15, 10]), Err(cut));
        assert_eq!(call(&mut [], &[9, 256, 0, 15]), too_short(slice, needed));
    }
}

#[test]
fn an_index_before_a_row_before_what_is_written() {
    type Call = fn(&[u64], usize, &mut [u64]) -> Result<(), Refusal>;
    let bitwise: Call = |row, i, out| bitwise::bus_interaction(row, i, out).map(drop);
    let constant: Call = |row, i, out| keccak_rc::bus_interaction(row, i, out).map(drop);
    let key: Call = |row, i, out| is_wh::bus_interaction(row, i, out).map(drop);
    let core: Call = |row, i, out| keccak::bus_interaction(row, i, 0, out).map(drop);
    let round: Call = |row, i, out| keccak_rnd::bus_interaction(row, i, out).map(drop);
    // Columns, tuples, and the values of the first tuple.
    for (call, columns, tuples, values) in [
        (bitwise, 21, 10, 2),
        (constant, 10, 1, 9),
        (key, 4, 5, 1),
        (core, 486, 84, 4),
        (round, 1480, 1031, 203),
    ] {
        let row = vec![P; columns];
        assert_eq!(call(&[], tuples, &mut []), past_end("index", tuples as u64));
        assert_eq!(call(&row[1..], 0, &mut []), too_short("row", columns as u64));
        assert_eq!(call(&row, 0, &mut []), too_short("out", values));
        assert_eq!(call(&row, 0, &mut [0; 203]), not_element("row", 0));
    }
}

#[test]
fn a_row_before_its_values_and_a_start_before_its_row() {
    type Call = fn(&[u64], &mut [u64]) -> Result<(), Refusal>;
    let calls: [(Call, usize, u64); 4] = [
        (keccak::core_values, 486, 52),
        (keccak_rnd::round_values, 1480, 141),
        (|row, out| keccak::bus_interactions(row, 0, out), 486, 1457),
        (keccak_rnd::bus_interactions, 1480, 8211),
    ];
    for (call, columns, needed) in calls {
        let row = vec![P; columns];
        assert_eq!(call(&row[1..], &mut []), too_short("row", columns as u64));
        assert_eq!(call(&row, &mut []), too_short("out", needed));
        assert_eq!(call(&row, &mut [0; 8211]), not_element("row", 0));
    }
    let round_row = |start: &[u64], round| keccak_rnd::keccak_rnd_row(0, start, round, &mut []);
    assert_eq!(round_row(&[], 24), past_end("round", 24));
    assert_eq!(round_row(&[0; 24], 23), too_short("start", 25));
    assert_eq!(round_row(&[0; 25], 23), too_short("row", 1480));
    // By other rounds or another floor the same argument is named.
    let with = Parameters::default().rounds(1);
    let table = |ops: &[u64], room| keccak_rnd::generate_keccak_rnd_trace_with(with, ops, &mut vec![0; room]);
    assert_eq!(table(&[0; OP_WORDS], 4 * 1480 - 1), too_short("table", 4 * 1480));
    let tall = Parameters::default().floor(8);
    let core = |ops: &[u64], room| keccak::generate_keccak_trace_with(tall, ops, &mut vec![0; room]);
    assert_eq!(core(&[0; OP_WORDS], 8 * 486 - 1), too_short("table", 8 * 486));
    assert_eq!(keccak::keccak_height_with(tall, usize::MAX), past_end("n", 89_478_486));
    let rows = |ops: &[u64], room| keccak_rnd::keccak_rnd_rows_with(with, ops, &mut vec![0; room]);
    assert_eq!(rows(&[0; OP_WORDS], 1479), too_short("table", 1480));
    assert_eq!(
        keccak::bus_interactions_with(with, &[], 0, &mut []),
        too_short("row", 486)
    );
    assert_eq!(
        keccak_rc::update_multiplicities_with(with, &mut [], 9),
        too_short("table", 320)
    );
}

#[test]
fn counters_before_those_that_are_merged() {
    let mut counters = vec![0; NUM_COUNTERS + 1];
    let mut other = counters.clone();
    let end = NUM_COUNTERS as u64;
    let short = NUM_COUNTERS - 1;
    assert_eq!(
        bitwise::merge(&mut counters[..short], &other[..short]),
        too_short("counters", end)
    );
    assert_eq!(bitwise::merge(&mut counters, &other[..short]), too_short("other", end));
    other[5] = P;
    assert_eq!(bitwise::merge(&mut counters, &other), not_element("other", 5));
    // What is past the counters is not read.
    counters[NUM_COUNTERS] = P;
    assert_eq!(bitwise::merge(&mut counters, &other), not_element("other", 5));
    counters[7] = P;
    assert_eq!(bitwise::merge(&mut counters, &other), not_element("counters", 7));
    counters[5] = P;
    assert_eq!(bitwise::merge(&mut counters, &other), not_element("counters", 5));
}

#[test]
fn counters_before_the_table_that_they_fill() {
    let counters = vec![P; NUM_COUNTERS];
    let mut table = vec![0; TABLE_WORDS];
    let mut fill = |counters: &[u64], room: usize| bitwise::fill_multiplicities(counters, &mut table[..room]);
    assert_eq!(fill(&counters[1..], 0), too_short("counters", 10_485_760));
    assert_eq!(fill(&counters, TABLE_WORDS - 1), too_short("table", 22_020_096));
    assert_eq!(fill(&counters, TABLE_WORDS), not_element("counters", 0));
}

/// The place of a counter can be that of an X or a Y.
#[test]
fn the_words_of_lookups_before_the_counters() {
    let mut ops = [3, 1, 2, 0, 3, 256, 2, 0];
    let mut counters = vec![0; NUM_COUNTERS + 4];
    counters[5_133] = P;
    assert_eq!(bitwise::add_ops(&mut counters, &ops), not_element("ops", 5));
    ops[5] = 1;
    assert_eq!(bitwise::add_ops(&mut counters, &ops), not_element("counters", 5_133));
    for kind in [1, 2, 5, 6] {
        counters[kind as usize] = P;
        let refused = bitwise::add_ops(&mut counters, &[3, 1, 2, 0, kind, 0, 0, 0]);
        assert_eq!(refused, not_element("counters", kind));
    }
    // A counter that is not charged is not read.
    counters[5_133] = 0;
    assert_eq!(bitwise::add_ops(&mut counters, &ops), Ok(()));
    assert_eq!((counters[5_133], counters[5], counters[6]), (2, P, P));
    // A list longer than the counters: its word stands where they have one that is not read.
    counters[NUM_COUNTERS + 1] = P;
    let mut long = vec![0; NUM_COUNTERS + 4];
    long[NUM_COUNTERS + 1] = 256;
    let place = NUM_COUNTERS as u64 + 1;
    assert_eq!(bitwise::add_ops(&mut counters, &long), not_element("ops", place));
}

/// The place of a lookup's word can be that of a fixed column, which is not read, or of a multiplicity.
#[test]
fn the_words_of_lookups_before_the_multiplicities() {
    let mut table = vec![0; TABLE_WORDS];
    table[..14].fill(P);
    let mut ops = [0; 16];
    for place in [1, 2, 5, 6, 9, 10, 13, 14] {
        ops[place] = 256;
        let refused = bitwise::update_multiplicities(&mut table, &ops);
        assert_eq!(refused, not_element("ops", place as u64));
        ops[place] = 0;
    }
    assert_eq!(
        bitwise::update_multiplicities(&mut table, &ops),
        not_element("table", 11)
    );
    table[11] = 0;
    ops[0] = 2;
    assert_eq!(
        bitwise::update_multiplicities(&mut table, &ops),
        not_element("table", 13)
    );
    // One that is not charged is not read.
    table[13] = P - 1;
    assert_eq!(bitwise::update_multiplicities(&mut table, &ops), Ok(()));
    assert_eq!(table[10..15], [P, 3, P, 0, 0]);
}

#[test]
fn the_first_of_the_slices_that_keys_are_sorted_in() {
    let keys = [1, 2, 3, 1 << 16];
    let dedup = |[codes, spare, rows]: [usize; 3]| {
        is_wh::dedup_is_wh_rows(&keys, &mut vec![0; codes], &mut vec![0; spare], &mut vec![0; rows])
    };
    for (lengths, refused) in [
        ([1, 1, 5], too_short("codes", 2)),
        ([1, 2, 6], too_short("codes", 2)),
        ([2, 1, 5], too_short("spare", 2)),
        ([2, 0, 6], too_short("spare", 2)),
        ([2, 2, 5], too_short("rows", 6)),
        ([2, 2, 6], not_element("keys", 3)),
    ] {
        assert_eq!(dedup(lengths), refused);
    }
}

/// A row's word, half and count have limits of their own.
#[test]
fn the_words_of_rows_before_the_counters() {
    let mut counters = vec![0; NUM_COUNTERS];
    counters[..6].fill(P);
    let highest = [(1 << 32) - 1, (1 << 16) - 1, (1 << 20) - 1].repeat(2);
    let mut collect = |rows: &[u64]| is_wh::collect_bitwise_from_is_wh(rows, &mut counters);
    assert_eq!(collect(&[]), Ok(()));
    assert_eq!(collect(&highest), not_element("counters", 5));
    for place in 0..6 {
        let mut rows = highest.clone();
        rows[place] += 1;
        assert_eq!(collect(&rows), not_element("rows", place as u64));
    }
    // IsB20 of 0, which the padding sends, and of the highest count; IsHalfword of the highest.
    for place in [5, 655_354, 10_485_755] {
        let mut counters = vec![0; NUM_COUNTERS];
        counters[place] = P;
        let refused = is_wh::collect_bitwise_from_is_wh(&highest, &mut counters);
        assert_eq!(refused, not_element("counters", place as u64));
    }
    let mut counters = vec![P; NUM_COUNTERS];
    for (place, count) in [(5, 2), (655_354, 6 * ((1 << 20) - 1)), (10_485_755, 2)] {
        counters[place] = P - count;
    }
    assert_eq!(is_wh::collect_bitwise_from_is_wh(&highest, &mut counters), Ok(()));
    for place in [5, 655_354, 10_485_755] {
        assert_eq!(std::mem::replace(&mut counters[place], P), 0);
    }
    assert!(counters.iter().all(|word| *word == P));
}

/// The list, then the counters, the copy and what is written, then an address, then a counter.
#[test]
fn counters_before_their_copy_before_what_a_look_says() {
    let mut ops = [0; 2 * OP_WORDS];
    ops[OP_WORDS + 1] = u64::MAX;
    let mut counters = vec![0; NUM_COUNTERS + 1];
    counters[7..9].fill(P);
    let (end, short) = (NUM_COUNTERS as u64, NUM_COUNTERS - 1);
    let mut copy = counters.clone();
    let mut look = |ops: &[u64], [counted, copied, words]: [usize; 3]| {
        segment::look(ops, &counters[..counted], &mut copy[..copied], &mut [0; 21][..words])
    };
    let cut = Err(Refusal::NotWhole {
        argument: "ops",
        which: Lent::List,
    });
    let high = Err(Refusal::HighAddress { address: u64::MAX });
    let (mut off, unaligned) = ([0; OP_WORDS], Err(Refusal::Unaligned { address: 12 }));
    off[1] = 12;
    assert_eq!(look(&ops[1..], [short, short, 19]), cut);
    assert_eq!(look(&ops, [short, short, 19]), too_short("counters", end));
    assert_eq!(look(&ops, [NUM_COUNTERS, short, 19]), too_short("copy", end));
    assert_eq!(look(&ops, [NUM_COUNTERS + 1, NUM_COUNTERS, 19]), too_short("out", 20));
    assert_eq!(look(&ops, [NUM_COUNTERS, NUM_COUNTERS + 1, 20]), high);
    assert_eq!(look(&off, [NUM_COUNTERS, NUM_COUNTERS, 20]), unaligned);
    assert_eq!(
        look(&ops[..OP_WORDS], [NUM_COUNTERS, NUM_COUNTERS, 21]),
        not_element("counters", 7)
    );
    let mut charge = |ops: &[u64], counted: usize| segment::charge(ops, &mut counters[..counted]);
    assert_eq!(charge(&ops[1..], short), cut);
    assert_eq!(charge(&ops, short), too_short("counters", end));
    assert_eq!(charge(&ops, NUM_COUNTERS), high);
    assert_eq!(charge(&off, NUM_COUNTERS), unaligned);
    assert_eq!(charge(&[], NUM_COUNTERS), not_element("counters", 7));
}

/// The register, then as without one, and the register's ledger after the counters.
#[test]
fn a_register_before_its_list_and_its_ledger_after_the_counters() {
    let mut ops = [0; 2 * OP_WORDS];
    ops[OP_WORDS + 1] = u64::MAX;
    let mut counters = vec![0; NUM_COUNTERS + 1];
    counters[12] = P;
    let (end, short) = (NUM_COUNTERS as u64, NUM_COUNTERS - 1);
    let mut copy = counters.clone();
    let mut ledgers = [P; 20];
    ledgers[..12].fill(0);
    let unused = Err(Refusal::Register { register: 2 });
    let cut = Err(Refusal::NotWhole {
        argument: "ops",
        which: Lent::List,
    });
    let high = Err(Refusal::HighAddress { address: u64::MAX });
    let mut look = |register: u64, ops: &[u64], [counted, copied, words]: [usize; 3]| {
        let (counters, out) = (&counters[..counted], &mut [0; 31][..words]);
        registers::look(register, ops, counters, &ledgers, &mut copy[..copied], out)
    };
    assert_eq!(look(2, &ops[1..], [short, short, 29]), unused);
    assert_eq!(look(1, &ops[1..], [short, short, 29]), cut);
    assert_eq!(look(1, &ops, [short, short, 29]), too_short("counters", end));
    assert_eq!(look(1, &ops, [NUM_COUNTERS, short, 29]), too_short("copy", end));
    assert_eq!(look(1, &ops, [NUM_COUNTERS, NUM_COUNTERS, 29]), too_short("out", 30));
    assert_eq!(look(1, &ops, [NUM_COUNTERS, NUM_COUNTERS, 30]), high);
    // The counter and the word of the ledger have one place; a counter past the last is none.
    let whole = [NUM_COUNTERS, NUM_COUNTERS, 31];
    assert_eq!(look(1, &[], whole), not_element("counters", 12));
    counters[12] = 0;
    counters[NUM_COUNTERS] = P;
    let mut charge = |register: u64, ops: &[u64], counted: usize| {
        registers::charge(register, ops, &mut counters[..counted], &mut ledgers)
    };
    assert_eq!(charge(2, &ops[1..], short), unused);
    assert_eq!(charge(1, &ops[1..], short), cut);
    assert_eq!(charge(1, &ops, short), too_short("counters", end));
    assert_eq!(charge(1, &ops, NUM_COUNTERS), high);
    assert_eq!(charge(1, &[], NUM_COUNTERS + 1), not_element("ledgers", 12));
    assert_eq!(charge(0, &[], NUM_COUNTERS + 1), Ok(()));
}

#[test]
fn a_core_table_before_a_round_table() {
    let (mut core, mut round) = (vec![0; 486], vec![0; 1480]);
    let not_whole = |argument, which| Err(Refusal::NotWhole { argument, which });
    assert_eq!(verdict(&core[1..], &round[1..]), not_whole("core", Lent::Core));
    assert_eq!(verdict(&core, &round[1..]), not_whole("round", Lent::Round));
    round[7] = P;
    assert_eq!(verdict(&core, &round), not_element("round", 7));
    core[9] = P;
    assert_eq!(verdict(&core, &round), not_element("core", 9));
    core[7] = P;
    assert_eq!(verdict(&core, &round), not_element("core", 7));
    round[1479] = P;
    round[7] = 0;
    assert_eq!(verdict(&[], &round), not_element("round", 1479));
    let with = Parameters::default().rounds(7);
    assert_eq!(verdict_with(with, &core, &round), not_element("core", 7));
    assert_eq!(verdict_alone_with(with, &core, &round), not_element("core", 7));
    assert_eq!(
        verdict_line_with(with, &[], &round, &mut []),
        not_element("round", 1479)
    );
    assert_eq!(verdict_line_alone(&[], &round, &mut []), not_element("round", 1479));
    assert_eq!(verdict_line_alone(&[], &[], &mut []), too_short("line", 7));
}

/// The tables' rows, then the line, then the scratch, whichever part of it is short, then the tables' words.
#[test]
fn a_line_before_a_scratch_before_the_words_of_tables() {
    let (mut core, mut round) = (vec![0; 486], vec![0; 2 * 1480]);
    core[9] = P;
    round[7] = P;
    let mut scratch = [0; 13];
    let not_whole = |argument, which| Err(Refusal::NotWhole { argument, which });
    let mut judge = |core: &[u64], round: &[u64], words: usize| {
        let mut line = [0; LINE_MOST];
        let verdict = verdict_within(core, round, &mut scratch[..words]).map(drop);
        let lined = verdict_line_within(core, round, &mut line, &mut scratch[..words]).map(drop);
        assert_eq!(lined, verdict);
        let short = verdict_line_within(core, round, &mut line[1..], &mut scratch[..words]).map(drop);
        let rows = matches!(verdict, Err(Refusal::NotWhole { .. }));
        assert_eq!(
            short,
            if rows {
                verdict
            } else {
                too_short("line", LINE_MOST as u64)
            }
        );
        verdict
    };
    assert_eq!(judge(&core[1..], &round[1..], 0), not_whole("core", Lent::Core));
    assert_eq!(judge(&core, &round[1..], 0), not_whole("round", Lent::Round));
    for words in [0, 5, 6, 11] {
        assert_eq!(judge(&core, &round, words), too_short("scratch", 12), "{words} words");
    }
    assert_eq!(judge(&core, &round, 12), not_element("core", 9));
    core[9] = 0;
    assert_eq!(judge(&core, &round, 13), not_element("round", 7));
    round[7] = 0;
    assert_eq!(judge(&core, &round, 11), too_short("scratch", 12));
    assert_eq!(judge(&core, &round, 12), Ok(()));
    assert_eq!(judge(&[], &[], 0), Ok(()));
}

/// The tables' rows, then the counts, then the report, then a scratch, then the tables' words.
#[test]
fn a_job_s_tables_before_its_counts_before_its_report() {
    let (mut core, mut round) = (vec![0; 2 * 486], vec![0; 1480]);
    core[9] = P;
    round[7] = P;
    let (mut report, mut scratch) = ([0; 12], [0; 12]);
    let not_whole = |argument, which| Err(Refusal::NotWhole { argument, which });
    let mut call = |core: &[u64], round: &[u64], counts: &[u64], words: usize| {
        let report = &mut report[..words];
        let answer = job(core, round, counts, report);
        assert_eq!(job_alone(core, round, counts, report), answer);
        assert_eq!(job_within(core, round, counts, report, &mut scratch), answer);
        // A scratch that is too short is told before a word, and after all else.
        let short = job_within(core, round, counts, report, &mut scratch[..11]);
        let before = matches!(answer, Err(Refusal::NotWhole { .. } | Refusal::TooShort { .. }));
        assert_eq!(short, if before { answer } else { too_short("scratch", 12) });
        answer
    };
    assert_eq!(call(&core[1..], &round[1..], &[1], 0), not_whole("core", Lent::Core));
    assert_eq!(call(&core, &round[1..], &[1], 0), not_whole("round", Lent::Round));
    for counts in [&[1][..], &[1, 1], &[2, 0], &[2, 1, 0], &[u64::MAX, 1, 3, 0]] {
        assert_eq!(
            call(&core, &round, counts, 0),
            not_whole("counts", Lent::List),
            "{counts:?}"
        );
    }
    assert_eq!(call(&core, &round, &[1, 0, 1, 1], 11), too_short("report", 12));
    assert_eq!(call(&core, &round, &[1, 0, 1, 1], 12), not_element("core", 9));
    core[9] = 0;
    assert_eq!(call(&core, &round, &[2, 1], 8), not_element("round", 7));
    round[7] = 0;
    assert_eq!(call(&core, &round, &[2, 1], 8), Ok(()));
}

#[test]
fn a_core_table_before_a_file() {
    let (mut core, mut file) = (vec![0; 2 * 486], [0; 418]);
    core[486] = P;
    let which = Lent::Core;
    let argument = "core";
    assert_eq!(
        same_operations(&core[1..], &file),
        Err(Refusal::NotWhole { argument, which })
    );
    assert_eq!(same_operations(&core, &file), not_element("core", 486));
    core[486] = 0;
    assert_eq!(same_operations(&core, &file), Err(Refusal::BadRecord { start: 0 }));
    file[..2].copy_from_slice(b"KO");
    assert_eq!(same_operations(&core, &file), Ok(Agreement::Record(0)));
    assert_eq!(
        same_operations(&core, &file[..417]),
        Err(Refusal::BadRecord { start: 0 })
    );
}

#[test]
fn a_list_before_what_is_written_and_a_list_that_is_written() {
    let ops = [0; 2 * OP_WORDS];
    assert_eq!(keccak::keccak_row(&ops, 2, &mut []), past_end("index", 2));
    assert_eq!(keccak::keccak_row(&ops[1..], 1, &mut []), past_end("index", 1));
    let cut = Refusal::NotWhole {
        argument: "ops",
        which: Lent::List,
    };
    assert_eq!(keccak::keccak_row(&ops[1..], 0, &mut []), Err(cut));
    assert_eq!(keccak::keccak_row(&ops, 1, &mut []), too_short("row", 486));
    assert_eq!(keccak::is_wh_keys(&ops, &mut []), too_short("out", 100));

    let mut file = [0; 2 * 418];
    assert_eq!(write_operations(&ops, &mut file[1..]), too_short("file", 836));
    assert_eq!(write_operations(&ops[1..], &mut file), Err(cut));
    assert_eq!(write_operations(&ops, &mut file), Ok(()));
    assert_eq!(read_operations(&file, &mut []), too_short("ops", 106));
}
