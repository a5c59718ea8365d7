//! Refusals, call by call: every condition that the interface lists for a call, its neighbours, and several at once, with guards
//! around every slice. Here stand the cases that the other areas don't have; those that they have are run again, and then each
//! call is to have been tried with every number that [`MATRIX`] lists for it, and with no other.

use keccak_tables::is_wh::IsWhKey;
use keccak_tables::keccak::LAST_ADDRESS;
use keccak_tables::operation_file::{Tally, read_operations, write_operations};
use keccak_tables::verdict::{
    LINE_MOST, verdict_alone_with, verdict_line_alone_with, verdict_line_with, verdict_line_within_with,
    verdict_text_with, verdict_with, verdict_within_with,
};
use keccak_tables::{MAX_OPS, OP_WORDS, P, Parameters, Refusal, SEGMENT_WORD, bitwise, keccak, keccak_rnd};

use crate::by_floor;
use crate::comparison::Comparison;
use crate::evaluated::{CORE, ROUND};
use crate::inputs::{LAST_ALIGNED, Words};
use crate::judge;
use crate::lent::{Lent, LentBytes};
use crate::list_calls::{LIST_CALLS, PUT, list_with, of_list};
use crate::plain_file::{self, file_of, first_fault, operations_of};
use crate::refused::on_slice;
use crate::scratch::Scratch;
use crate::tally::read;
use crate::untouched::Untouched;
use crate::{
    charge, jobs, kept, lines, looked_up, message, month, permutation, registers, rounds, rows, same, tuples, values,
    verdicts,
};

/// The numbers with which each call is tried, 0 being that it does its work. What only a file of 37 GB can cause is in
/// `limit.rs`: 1 in `tally_feed`, `tally_finish`, `read_operations` and `same_operations`. No file is refused by 7. The bindings' lookups have no kind past the
/// last; the tests of the header try it. What depends on the number of rounds is refused by 8 before all that stands here: `charge`, `look`, the
/// multiplicities of a constant table, a round table, its rows, height and padding, the tuples of a core row, the permutation, `verdict`, `verdict_line`, `job` and these three in lent memory. What
/// depends on the floor is refused by 9 then: `charge`, `look`, a core table, its height, a round table, its height and padding, `tally_finish`.
/// What goes through a register, `register_charge` and `register_look`, is refused by 8, 9 and 10.
/// `month` is refused by 8, by 9 and then by 14.
/// What takes a list of operations is refused by 11 after 7. A message is refused by 12 after 1, and its timestamps by 13 then.
///
/// | what | 1 | 2 | 3 | 4, then 7 | 5 | 6 |
/// |---|---|---|---|---|---|---|
/// | a bitwise or constant row | index | | slice | | | |
/// | `bitwise_bump`, `bump_n` | kind, Z | | counters | | counter | |
/// | a lookup | kind, Z, value | | | | | |
/// | a bitwise table, filled or not | | | counters, table | | counter | |
/// | `merge` | | | both | | a counter of either | |
/// | `charge`, `look` | n | list | counters, copy, out | address | counter | |
/// | `register_charge`, `register_look` | n | list | counters, copy, out | address | counter, own ledger | |
/// | a list of lookups on counters or a table | kind, Z | list | slice | | counter, X, Y | |
/// | keys to rows; rows to a table or on counters | n | list | each slice | | word, half, count, counter | |
/// | a constant table, its multiplicities | n | | table | | | |
/// | a call on a list | n, index | list | slice | address | | |
/// | a round row | round | | START, row | | | |
/// | a height, the padding's lookups | n | | | | | |
/// | values, all tuples | | | row, slice | | column | |
/// | a tuple | index | | row, slice | | column | |
/// | `month`, after 14 | a count | | slice | | | |
/// | the permutation | | | state | | | |
/// | `verdict` | | core, round | | | core, round | |
/// | `verdict_line` | | core, round | line | | core, round | |
/// | `job` | | core, round, counts | report | | core, round | |
/// | `verdict_within` | | core, round | scratch, spare | | core, round | |
/// | `verdict_line_within` | | core, round | line, scratch, spare | | core, round | |
/// | `job_within` | | core, round, counts | report, scratch, spare | | core, round | |
/// | a file's reader | n | | | address | | mark, cut |
/// | `read_operations` | n | | list | address | | mark, cut |
/// | `same_operations`, 2 and 5 first | n | core | | address | core | mark, cut |
pub const MATRIX: [(&str, &[u64]); 63] = [
    ("generate_bitwise_row", &[0, 1, 3]),
    ("bitwise_row_index", &[0, 1]),
    ("bitwise_bump", &[0, 1, 3, 5]),
    ("lookup_new", &[0, 1]),
    ("lookup_byte_op", &[0]),
    ("lookup_single_byte", &[0]),
    ("lookup_halfword", &[0]),
    ("lookup_zero", &[0, 1]),
    ("lookup_shift_op", &[0, 1]),
    ("lookup_b20", &[0, 1]),
    ("generate_bitwise_trace", &[0, 3]),
    ("fill_multiplicities", &[0, 3, 5]),
    ("bump_n", &[0, 1, 3, 5]),
    ("merge", &[0, 3, 5]),
    ("add_ops", &[0, 1, 2, 3, 5]),
    ("bitwise_update_multiplicities", &[0, 1, 2, 3, 5]),
    ("bitwise_bus_interaction", &[0, 1, 3, 5]),
    ("keccak_rc_generate_row", &[0, 1, 3]),
    ("generate_keccak_rc_trace", &[0, 3]),
    ("keccak_rc_update_multiplicities", &[0, 1, 3, 8]),
    ("keccak_rc_bus_interaction", &[0, 1, 3, 5]),
    ("is_wh_key", &[0]),
    ("dedup_is_wh_rows", &[0, 1, 2, 3, 5]),
    ("is_wh_height", &[0, 1]),
    ("generate_is_wh_trace", &[0, 1, 2, 3, 5]),
    ("collect_bitwise_from_is_wh", &[0, 1, 2, 3, 5]),
    ("is_wh_bus_interaction", &[0, 1, 3, 5]),
    ("keccak_row", &[0, 1, 2, 3, 4, 7, 11]),
    ("generate_keccak_trace", &[0, 1, 2, 3, 4, 7, 9, 11]),
    ("keccak_rows", &[0, 1, 2, 3, 4, 7, 11]),
    ("is_wh_keys", &[0, 1, 2, 3, 4, 7, 11]),
    ("keccak_height", &[0, 1, 9]),
    ("keccak_values", &[0, 3, 5]),
    ("keccak_bus_interaction", &[0, 1, 3, 5, 8]),
    ("keccak_bus_interactions", &[0, 3, 5, 8]),
    ("keccak_rnd_row", &[0, 1, 3]),
    ("generate_keccak_rnd_trace", &[0, 1, 2, 3, 4, 7, 8, 9, 11]),
    ("keccak_rnd_rows", &[0, 1, 2, 3, 4, 7, 8, 11]),
    ("keccak_rnd_height", &[0, 1, 8, 9]),
    ("padding_are_bytes", &[0, 1, 8, 9]),
    ("keccak_rnd_values", &[0, 3, 5]),
    ("keccak_rnd_bus_interaction", &[0, 1, 3, 5]),
    ("keccak_rnd_bus_interactions", &[0, 3, 5]),
    ("charge", &[0, 1, 2, 3, 4, 5, 7, 8, 9, 11]),
    ("look", &[0, 1, 2, 3, 4, 5, 7, 8, 9, 11]),
    ("register_charge", &[0, 1, 2, 3, 4, 5, 7, 8, 9, 10, 11]),
    ("register_look", &[0, 1, 2, 3, 4, 5, 7, 8, 9, 10, 11]),
    ("month", &[0, 1, 3, 8, 9, 14]),
    ("keccak_f", &[0, 3, 8]),
    ("message_operations", &[0, 3, 4, 7, 12, 13]),
    ("judge_message", &[0, 1, 2, 4, 7, 11, 12]),
    ("verdict", &[0, 2, 5, 8]),
    ("verdict_line", &[0, 2, 3, 5, 8]),
    ("verdict_within", &[0, 2, 3, 5, 8]),
    ("verdict_line_within", &[0, 2, 3, 5, 8]),
    ("job", &[0, 2, 3, 5, 8]),
    ("job_within", &[0, 2, 3, 5, 8]),
    ("same_operations", &[0, 2, 4, 5, 6]),
    ("tally_start", &[0]),
    ("tally_feed", &[0, 4, 6]),
    ("tally_finish", &[0, 4, 6, 9]),
    ("read_operations", &[0, 3, 4, 6]),
    ("write_operations", &[0, 1, 2, 3, 4, 7, 11]),
];

/// The whole area; `n` times the lists and files that are drawn.
pub fn compare(comparison: &mut Comparison, seed: u64, n: usize) {
    let mut words = Words::new(seed);
    rows::refusals::compare(comparison, &mut words);
    looked_up::refusals::compare(comparison, &mut words);
    charge::refusals::compare(comparison, &mut words);
    registers::refusals::compare(comparison, &mut words);
    jobs::refusals::compare(comparison, &mut words);
    comparison.group("refusals: values and tuples of core and round rows");
    for table in [CORE, ROUND] {
        values::refusals(comparison, &mut words, &table);
        tuples::refusals(comparison, &mut words, &table);
    }
    rounds::refusals::compare(comparison, &mut words);
    month::refusals(comparison, &mut words, n);
    permutation::refusals(comparison, &mut words);
    message::refusals::compare(comparison, &mut words);
    same::refusals::compare(comparison, &mut words);
    comparison.group("refusals: counters, every set of conditions");
    counters(comparison, &mut words);
    comparison.group("refusals: calls on lists, every set of conditions");
    for _ in 0..n.div_ceil(20) {
        lists(comparison, &mut words);
    }
    comparison.group("refusals: lists about the limit, every set of conditions");
    long_lists(comparison, &mut words);
    comparison.group("refusals: files, every mark, cut and set of conditions");
    files(comparison, &mut words);
    comparison.group("refusals: verdicts on tables of every length about a row's, and with words about p");
    verdicts_refused(comparison, &mut words);
    kept::compare(comparison, &mut words);
    comparison.group("refusals: what was tried, call by call");
    matrix(comparison);
}

/// Each call was tried with what the matrix lists; two calls refuse nothing.
fn matrix(comparison: &mut Comparison) {
    let key = IsWhKey::of_dword(u64::MAX);
    comparison.answered("is_wh_key", || "a key".into(), Ok::<_, Refusal>(key), None);
    let fault = Tally::new().fault().map_or(Ok(()), Err);
    comparison.answered("tally_start", || "a reader".into(), fault, None);
    for (call, numbers) in MATRIX {
        let tried = comparison.numbers_tried(call);
        comparison.equal(|_| format!("the numbers with which {call} was tried"), &tried, numbers);
    }
}

/// The first of the conditions that are met, which stand in the order of the checks.
pub fn first(conditions: &[(bool, u64, u64)]) -> Option<(u64, u64)> {
    let met = conditions.iter().find(|(met, ..)| *met);
    met.map(|&(_, number, detail)| (number, detail))
}

/// Kind, Z, length and the charged counter, each about its edge, in every combination. The counters beside the charged one
/// are no elements: they are not read.
fn counters(comparison: &mut Comparison, words: &mut Words) {
    let end = bitwise::NUM_COUNTERS;
    let (x, y) = (words.word() as u8, words.word() as u8);
    let all = vec![P; end + 1];
    let mut counters = Lent::new(&all, words);
    for (kind, z) in [(0, 0), (9, 15), (10, 15), (9, 16), (10, 16), (usize::MAX, 255)] {
        for length in [0, end - 1, end, end + 1] {
            for word in [0, P - 1, P, P + 1, u64::MAX] {
                let row = usize::from(x) + 256 * usize::from(y) + 65_536 * usize::from(z);
                let place = row * 10 + kind.min(9);
                if let Some(counter) = counters.slice().get_mut(place) {
                    *counter = word;
                }
                let expected = first(&[
                    (kind >= 10, 1, 10),
                    (z >= 16, 1, 16),
                    (length < end, 3, end as u64),
                    (word >= P, 5, place as u64),
                ]);
                let answer = bitwise::bump_numbered(&mut counters.slice()[..length], kind, x, y, z);
                let input = || format!("bump of kind {kind} at {x}, {y}, {z} of {length} counters, which holds {word}");
                comparison.answered("bitwise_bump", input, answer, expected);
                if let Some(counter) = counters.slice().get_mut(place) {
                    let after = if expected.is_none() { (word + 1) % P } else { word };
                    comparison.equal(|_| input(), &[*counter], &[after]);
                    *counter = P;
                }
            }
        }
    }
    counters.kept(comparison, |_| "the other counters".into());
}

/// A list that is lent to each call on lists, an index and parameters for the calls that take them, and the refusals before and after
/// that of the slice, which is lent one short, with just the room, and with one more.
pub struct OnList<'a> {
    /// The list.
    pub ops: &'a [u64],
    /// The index.
    pub index: usize,
    /// The parameters.
    pub with: Parameters,
    /// What the list is, in words.
    pub what: &'a str,
}

/// The most words that are lent, which are enough for a round table of 5 operations with a low floor.
const MOST_WORDS: usize = 1 << 18;

impl OnList<'_> {
    /// The refusal of a call that needs `needed` and is lent `room`.
    fn expected(&self, takes_index: bool, needed: usize, room: usize) -> Option<(u64, u64)> {
        let n = self.ops.len() / OP_WORDS;
        // Of too long a list, that it is too long is told before the index.
        let past_end = takes_index && n <= MAX_OPS && self.index >= n;
        let index = past_end.then_some((1, n as u64));
        index.or_else(|| of_list(self.ops, &[(room < needed, 3, needed as u64)]))
    }

    fn input(&self, name: &str) -> String {
        format!("{name}, {}, index {}, {:?}", self.what, self.index, self.with)
    }

    /// Every call on lists that writes words, with so many words more or fewer than it needs.
    pub fn write_words(&self, comparison: &mut Comparison, words: &mut Words, off: isize) {
        for call in &LIST_CALLS {
            let needed = call.needed_by(self.with, self.ops.len() / OP_WORDS);
            let room = needed.saturating_add_signed(off).min(MOST_WORDS);
            let earlier = call.refusal(self.with);
            let expected = earlier.or_else(|| self.expected(call.takes_index, needed, room));
            let what = (call.name, || self.input(call.name));
            on_slice(comparison, words, what, room, expected, |out| {
                call.by(self.with, self.ops, self.index, out)
            });
        }
    }

    /// The call that writes bytes.
    fn write_bytes(&self, comparison: &mut Comparison, words: &mut Words, off: isize) {
        let needed = plain_file::bytes_of(self.ops);
        let room = needed.saturating_add_signed(off).min(1 << 20);
        let expected = self.expected(false, needed, room);
        let mut file = LentBytes::drawn(room, words);
        let answer = write_operations(self.ops, file.slice());
        let input = || format!("{}, {room} bytes", self.input("write_operations"));
        comparison.answered("write_operations", input, answer, expected);
        let written = if expected.is_none() {
            file_of(self.ops)
        } else {
            Vec::new()
        };
        file.holds(comparison, input, &written);
    }
}

/// Lists of 0 to 5 operations, whole or not, with and without words that are refused, and indexes about the end.
fn lists(comparison: &mut Comparison, words: &mut Words) {
    for n in [0, 1, 3, 5] {
        for past in [0, 1, 2, OP_WORDS - 1] {
            for put in PUT {
                let list = list_with(words, n, past, put);
                let what = format!("{n} operations and {past} words, {put:?} among them");
                let mut lent = Lent::new(&list, words);
                for index in [0, n.saturating_sub(1), n, n + 1, usize::MAX] {
                    let on_list = OnList {
                        ops: &*lent.slice(),
                        index,
                        with: words.any_parameters(),
                        what: &what,
                    };
                    for off in [-1, 0, 1] {
                        on_list.write_words(comparison, words, off);
                        on_list.write_bytes(comparison, words, off);
                    }
                }
                lent.kept(comparison, |_| format!("the list, which is only read: {what}"));
            }
        }
    }
}

/// As many operations as a list may have, one more and two more, whole or not, the first operation refused or not. No slice has the
/// room, so nothing but the first operation could be read, and by the call that writes bytes the segment words.
fn long_lists(comparison: &mut Comparison, words: &mut Words) {
    let Some(mut untouched) = Untouched::operations(MAX_OPS + 3) else {
        return;
    };
    for (address, segment) in [(0, 0), (4100, 0), (u64::MAX, 0), (0, 1 << 32)] {
        untouched.words_mut()[1] = address;
        untouched.words_mut()[SEGMENT_WORD] = segment;
        for n in [MAX_OPS, MAX_OPS + 1, MAX_OPS + 2] {
            for past in [0, 1, OP_WORDS - 1] {
                for index in [0, n - 1, n, usize::MAX] {
                    let ops = &untouched.words()[..n * OP_WORDS + past];
                    let what =
                        format!("{n} operations and {past} words, the first address {address}, segment {segment}");
                    let on_list = OnList {
                        ops,
                        index,
                        with: words.any_parameters(),
                        what: &what,
                    };
                    let short = isize::MIN;
                    on_list.write_words(comparison, words, short);
                    if index == 0 {
                        on_list.write_bytes(comparison, words, short);
                    }
                }
            }
        }
    }
}

/// Files of three records under both marks: every byte in place of either byte of a mark, every cut, and addresses off the eight and about the
/// last, in each record and together, read in pieces and into a list that has the room or not. None is refused by 7 or 11.
fn files(comparison: &mut Comparison, words: &mut Words) {
    let mut ops = words.operations(3);
    let plain = words.below(3) as usize;
    for (record, operation) in ops.chunks_exact_mut(OP_WORDS).enumerate() {
        operation[SEGMENT_WORD] = if record == plain { 0 } else { 1 + words.below(1 << 16) };
    }
    let whole = file_of(&ops);
    let starts: Vec<usize> = plain_file::records(&whole)
        .into_iter()
        .map(|(start, _)| start)
        .collect();
    for &start in &starts {
        for byte in 0..=255 {
            for mark in [start, start + 1] {
                let mut file = whole.clone();
                file[mark] = byte;
                one_file(comparison, words, &file);
            }
        }
        for address in [4100, LAST_ALIGNED, LAST_ADDRESS, LAST_ADDRESS + 1, u64::MAX] {
            for &other in &starts {
                let mut file = whole.clone();
                file[start + 10..start + 18].copy_from_slice(&address.to_le_bytes());
                one_file(comparison, words, &file);
                // 6 before 4 within a record; of two records, the first that is faulty.
                file[other + 1] = 0;
                one_file(comparison, words, &file);
                for end in [1, 2, 9, 10, 17, 18, 19, 417] {
                    one_file(comparison, words, &file[..other + end]);
                }
            }
            let mut file = whole.clone();
            file[start + 10..start + 18].copy_from_slice(&address.to_le_bytes());
            for end in (0..=file.len()).step_by(11).chain(start + 417..=start + 423) {
                one_file(comparison, words, &file[..end.min(whole.len())]);
            }
        }
    }
    for end in 0..=whole.len() {
        one_file(comparison, words, &whole[..end]);
    }
}

/// One file, in pieces, and into lists of no word, one short, with just the room and one more.
fn one_file(comparison: &mut Comparison, words: &mut Words, file: &[u8]) {
    let fault = first_fault(file);
    let input = || format!("the file {file:?}");
    let mut lent = LentBytes::new(file, words);
    // The rounds have no part in it; a floor is refused before the file.
    let with = words.any_parameters();
    let finished = by_floor::refusal(with.floor).or(fault);
    let input_with = || format!("{with:?}, {}", input());
    comparison.answered("tally_finish", input_with, read(words, with, lent.slice()), finished);
    // A cut is a fault only at the end of the file.
    let (cut, wrong) = plain_file::cut(file);
    let so_far = first_fault(&file[..cut]).or(first(&[(wrong, 6, cut as u64)]));
    let mut tally = Tally::new();
    tally.feed(lent.slice());
    comparison.answered("tally_feed", input, tally.fault().map_or(Ok(()), Err), so_far);
    let needed = plain_file::records(&file[..cut]).len() * OP_WORDS;
    for room in [0, needed.saturating_sub(1), needed, needed + 1] {
        let mut list = Lent::drawn(room, words);
        let answer = read_operations(lent.slice(), list.slice());
        let expected = fault.or(first(&[(room < needed, 3, needed as u64)]));
        comparison.answered("read_operations", input, answer, expected);
        let written = if expected.is_none() {
            operations_of(file)
        } else {
            Vec::new()
        };
        list.holds(comparison, |_| input(), &written);
    }
    lent.holds(comparison, input, &[]);
}

/// Tables of no row, one word fewer than a row, a row, one word more and two rows, each with no word, one or two words about
/// p, against the judge; both tables are lent with guards.
fn verdicts_refused(comparison: &mut Comparison, words: &mut Words) {
    let lengths = |width: usize| {
        [
            0,
            1,
            width - 1,
            width,
            width + 1,
            2 * width - 1,
            2 * width,
            2 * width + 1,
        ]
    };
    for core_length in lengths(keccak::NUM_COLUMNS) {
        for round_length in lengths(keccak_rnd::NUM_COLUMNS) {
            for spoilt in 0..9 {
                let (in_core, in_round) = (spoilt % 3, spoilt / 3);
                let core = spoilt_table(words, core_length, in_core);
                let round = spoilt_table(words, round_length, in_round);
                one_verdict(comparison, words, &core, &round);
            }
        }
    }
    for word in [P - 1, P, P + 1, u64::MAX] {
        for place in 0..2 * keccak::NUM_COLUMNS {
            let mut core = vec![0; 2 * keccak::NUM_COLUMNS];
            core[place] = word;
            one_verdict(comparison, words, &core, &[]);
        }
        for place in 0..2 * keccak_rnd::NUM_COLUMNS {
            let mut round = vec![0; 2 * keccak_rnd::NUM_COLUMNS];
            round[place] = word;
            one_verdict(comparison, words, &[], &round);
        }
    }
}

/// A table of zeros with so many words that are no elements, where it has a place for them.
fn spoilt_table(words: &mut Words, length: usize, spoilt: usize) -> Vec<u64> {
    let mut table = vec![0; length];
    for _ in 0..spoilt.min(length) {
        let place = words.below(length as u64) as usize;
        table[place] = [P, P + 1, u64::MAX][words.below(3) as usize];
    }
    table
}

/// The calls that judge two tables, each with memory of its own, without, and in every scratch.
fn one_verdict(comparison: &mut Comparison, words: &mut Words, core: &[u64], round: &[u64]) {
    let nr = words.any_rounds();
    let with = Parameters::default().rounds(nr);
    let expected = judge::verdict_by(nr, core, round);
    let refused = match expected {
        judge::Verdict::Refused(number, detail) => Some((number, detail)),
        _ => None,
    };
    let mut lent = [core, round].map(|table| Lent::new(table, words));
    let [core_lent, round_lent] = lent.each_mut().map(|table| &*table.slice());
    let input = || format!("{nr} rounds, core {core:?}, round {round:?}");
    let own = verdict_with(with, core_lent, round_lent);
    let alone = verdict_alone_with(with, core_lent, round_lent);
    for (call, answer) in [("verdict_within", own), ("verdict", alone)] {
        comparison.answered(call, input, answer, refused);
        comparison.equal(|_| input(), &verdicts::words(answer), &expected.words());
    }
    // Lent no byte, the line is refused as the verdict is, and else by its length.
    let line = lines::line(nr, core, round, expected).map(|line| (3, line.len() as u64));
    let own = verdict_line_with(with, core_lent, round_lent, &mut []);
    comparison.answered("verdict_line_within", input, own, refused.or(line));
    let alone = verdict_line_alone_with(with, core_lent, round_lent, &mut []);
    comparison.answered("verdict_line", input, alone, refused.or(line));
    let whole = verdict_text_with(with, core_lent, round_lent);
    comparison.answered("verdict_line_within", input, whole, refused);
    let whole = verdict_line_alone_with(with, core_lent, round_lent, &mut [0; LINE_MOST]);
    comparison.answered("verdict_line", input, whole, refused);
    in_each_scratch(comparison, words, (with, [core_lent, round_lent]), refused, &input);
    for table in lent {
        table.kept(comparison, |_| input());
    }
}

/// The verdict and its line in every scratch, by what is refused of the tables; the line with no byte, one too few, or as many as any may need.
fn in_each_scratch(
    comparison: &mut Comparison,
    words: &mut Words,
    (with, [core, round]): (Parameters, [&[u64]; 2]),
    refused: Option<(u64, u64)>,
    input: &dyn Fn() -> String,
) {
    for mut scratch in Scratch::each(core, round, words) {
        let refused = scratch.refusal(refused);
        let answer = verdict_within_with(with, core, round, scratch.slice());
        comparison.answered("verdict_within", input, answer, refused);
        scratch.left(comparison, input, refused.is_none());
    }
    for mut scratch in Scratch::each(core, round, words) {
        let room = [0, LINE_MOST - 1, LINE_MOST][words.below(3) as usize];
        let refused = scratch.line_refusal(room, refused);
        let mut line = LentBytes::drawn(room, words);
        let answer = verdict_line_within_with(with, core, round, line.slice(), scratch.slice());
        comparison.answered("verdict_line_within", input, answer, refused);
        scratch.left(comparison, input, refused.is_none());
        if refused.is_some() {
            line.holds(comparison, input, &[]);
        }
    }
}

#[cfg(test)]
mod tests {
    use super::*;
    use crate::list_calls::TOO_MANY;
    use keccak_tables::is_wh::{
        IsWhRows, MAX_KEYS, collect_bitwise_from_is_wh, dedup_is_wh_rows, generate_is_wh_trace,
    };
    use keccak_tables::segment;

    #[test]
    fn the_matrix_has_every_call_of_the_header() {
        let header = include_str!("../../../include/keccak_tables.h");
        let declared: Vec<_> = header
            .lines()
            .filter(|line| line.starts_with("keccak_tables_"))
            .collect();
        assert_eq!(declared.len(), MATRIX.len());
        for (call, _) in MATRIX {
            let name = format!(" keccak_tables_{call}(");
            assert_eq!(declared.iter().filter(|line| line.contains(&name)).count(), 1, "{call}");
        }
    }

    /// The list is named, whatever else is wrong; the tables and rows that have memory of their own name the list that they are given.
    #[test]
    fn of_too_long_a_list_the_list_is_named() {
        let Some(untouched) = Untouched::operations(MAX_OPS + 1) else {
            return;
        };
        let long = untouched.words();
        let named = |argument, limit| Err(Refusal::PastEnd { argument, limit });
        let index = keccak::keccak_row(&long[OP_WORDS..], MAX_OPS, &mut []);
        assert_eq!(index, named("index", MAX_OPS as u64));
        let refused = named("ops", TOO_MANY);
        for call in &LIST_CALLS {
            for with in [Parameters::default(), Parameters::default().rounds(1).floor(65_536)] {
                assert_eq!(call.by(with, long, usize::MAX, &mut []), refused, "{}", call.name);
            }
        }
        assert_eq!(write_operations(long, &mut []), refused);
        assert_eq!(keccak::keccak_table(long).map(drop), refused);
        assert_eq!(keccak_rnd::keccak_rnd_table(long).map(drop), refused);
        assert_eq!(IsWhRows::of_operations(long).map(drop), refused);
        assert_eq!(segment::charge(long, &mut []), refused);
        assert_eq!(segment::look(long, &[], &mut [], &mut []), refused);
        assert_eq!(segment::Look::new(long, &[]).map(drop), refused);
    }

    /// The same of keys and of rows of keys.
    #[test]
    fn of_too_many_keys_the_list_is_named() {
        let Some(untouched) = Untouched::new(3 * (MAX_KEYS + 1), "the most rows of keys") else {
            return;
        };
        let (rows, keys) = (untouched.words(), &untouched.words()[..2 * (MAX_KEYS + 1)]);
        let named = |argument| {
            let limit = MAX_KEYS as u64 + 1;
            Err(Refusal::PastEnd { argument, limit })
        };
        assert_eq!(IsWhRows::of_keys(keys).map(drop), named("keys"));
        let dedup = dedup_is_wh_rows(keys, &mut [], &mut [], &mut []);
        assert_eq!(dedup.map(drop), named("keys"));
        assert_eq!(generate_is_wh_trace(rows, &mut []), named("rows"));
        assert_eq!(collect_bitwise_from_is_wh(rows, &mut []), named("rows"));
    }
}
