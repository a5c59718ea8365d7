//! After a refusal every lent word is as it was: each call by each of its refusals, with drawn words in every slice, all of which have room but
//! for what is refused. `CALLS` says what each call is lent; what makes it refuse follows from that, and what does not stands beside it.

use keccak_tables::bitwise::{self, BitwiseOperation, BitwiseOperationType, NUM_COUNTERS};
use keccak_tables::is_wh::{self, MAX_KEYS};
use keccak_tables::message::{MAX_MESSAGE, judge_message, message_operations};
use keccak_tables::month::{MAX_FILES, month_with};
use keccak_tables::operation_file::{SEGMENT_RECORD_BYTES, Tally, read_operations, write_operations};
use keccak_tables::same_operations::same_operations;
use keccak_tables::verdict::{self, LINE_MOST};
use keccak_tables::{
    MAX_OPS, OP_WORDS, P, Parameters, Refusal, SEGMENT_WORD, job, keccak, keccak_rc, keccak_rnd, permutation,
    registers, segment,
};

use crate::comparison::Comparison;
use crate::inputs::Words;
use crate::lent::{Lent, LentBytes};
use crate::plain_file;
use crate::refusals::MATRIX;
use crate::untouched::Untouched;

/// What stands in a slice.
#[derive(Clone, Copy, PartialEq)]
enum Kind {
    /// Any words, so many.
    Any(usize),
    /// Field elements, so many.
    Elements(usize),
    /// A list of three operations.
    Operations,
    /// A list of two lookups, which charge the first counter.
    Lookups,
    /// A list of two keys.
    Keys,
    /// Two rows of the IS_WH table.
    Rows,
    /// A core table of four rows.
    Core,
    /// A round table of 128 rows.
    Round,
    /// The row counts of two segments of these.
    Segments,
    /// The operation counts of five files.
    Files,
}

/// A slice that is lent.
#[derive(Clone, Copy)]
struct Slice {
    kind: Kind,
    /// A length by which it is too short.
    short: Option<usize>,
    /// Whether a word more is refused by 2.
    whole: bool,
    /// A place where p is refused by 5.
    element: Option<usize>,
}

/// Words that are written.
const fn out(length: usize) -> Slice {
    Slice {
        kind: Kind::Any(length),
        short: Some(length - 1),
        whole: false,
        element: None,
    }
}

/// Room for any tuple, and too little for a first tuple of so many values.
const fn tuple(values: usize) -> Slice {
    Slice {
        short: Some(values - 1),
        ..out(203)
    }
}

/// Words of which each is to be a field element, the one at this place among them.
const fn elements(length: usize, place: usize) -> Slice {
    Slice {
        kind: Kind::Elements(length),
        element: Some(place),
        ..out(length)
    }
}

/// A row's columns.
const fn row(columns: usize) -> Slice {
    elements(columns, columns - 1)
}

/// The bitwise counters, and its table: what is charged is of the first row and the first kind.
const COUNTERS: Slice = elements(NUM_COUNTERS, 0);
const BITWISE: Slice = elements(bitwise::TABLE_WORDS, bitwise::NUM_PRECOMPUTED_COLS);

/// A list or a table, with a place where p is refused by 5 or none.
const fn list(kind: Kind, element: Option<usize>) -> Slice {
    Slice {
        kind,
        short: None,
        whole: true,
        element,
    }
}

const OPS: Slice = list(Kind::Operations, None);
const LOOKUPS: Slice = list(Kind::Lookups, None);
const KEYS: Slice = list(Kind::Keys, Some(0));
const ROWS: Slice = list(Kind::Rows, Some(0));
const CORE: Slice = list(Kind::Core, Some(7));
const ROUND: Slice = list(Kind::Round, Some(1479));
const SEGMENTS: Slice = list(Kind::Segments, None);
const FILES: Slice = Slice {
    whole: false,
    ..list(Kind::Files, None)
};
/// Two ledgers, of which the first register's is looked at.
const LEDGERS: Slice = Slice {
    short: None,
    ..elements(20, 3)
};
/// The scratch for these two tables.
const SCRATCH: Slice = out(4 * (4 + 128));

/// The numbers and slices of a call. `number` is an index, a kind, Z, a round, a count or a register.
struct Given {
    with: Parameters,
    number: usize,
    address: u64,
    timestamp: u64,
    slices: Vec<Vec<u64>>,
    bytes: Vec<u8>,
}

/// The bytes that are lent.
#[derive(Clone, Copy)]
enum Bytes {
    /// None, or bytes to write to, so many.
    Any(usize),
    /// An operation file of three records.
    File,
}

/// A change that makes a call refuse.
#[derive(Clone, Copy)]
enum Change {
    Rounds,
    Floor,
    Number,
    /// More operations, keys or rows than there may be, in the first slice.
    Long,
    Shorter(usize),
    Longer(usize),
    Element(usize),
    /// A word of the first operation of the list.
    Operation(usize, u64),
    Other(fn(&mut Given)),
}

/// A refusal's number, and what makes a call refuse by it.
type Other = (u64, fn(&mut Given));

/// A call's numbers, the slices and the bytes that it is lent.
type Run = fn(&Given, [&mut [u64]; 5], &mut [u8]) -> Result<(), Refusal>;

/// A call of the archive.
struct Call {
    name: &'static str,
    slices: &'static [Slice],
    bytes: Bytes,
    /// Whether it takes a number that can be past its end.
    numbered: bool,
    /// What else it refuses.
    others: &'static [Other],
    run: Run,
}

/// A call that takes slices, and nothing else that can be wrong.
const fn call(name: &'static str, slices: &'static [Slice], run: Run) -> Call {
    Call {
        name,
        slices,
        bytes: Bytes::Any(0),
        numbered: false,
        others: &[],
        run,
    }
}

/// One that takes a number too.
const fn numbered(name: &'static str, slices: &'static [Slice], run: Run) -> Call {
    Call {
        numbered: true,
        ..call(name, slices, run)
    }
}

impl Call {
    const fn with_bytes(self, bytes: Bytes) -> Self {
        Self { bytes, ..self }
    }

    const fn and(self, others: &'static [Other]) -> Self {
        Self { others, ..self }
    }

    /// Every change that makes it refuse by this number.
    fn changes(&self, number: u64) -> Vec<Change> {
        let places = |test: fn(&Slice) -> bool| (0..self.slices.len()).filter(move |&slice| test(&self.slices[slice]));
        let listed = self.slices.iter().any(|slice| slice.kind == Kind::Operations);
        let operation = |place, word| listed.then_some(Change::Operation(place, word)).into_iter().collect();
        let mut changes: Vec<Change> = match number {
            1 => {
                let long = matches!(
                    self.slices.first().map(|slice| slice.kind),
                    Some(Kind::Operations | Kind::Keys | Kind::Rows)
                );
                let number = self.numbered.then_some(Change::Number);
                number.into_iter().chain(long.then_some(Change::Long)).collect()
            }
            2 => places(|slice| slice.whole).map(Change::Longer).collect(),
            3 => places(|slice| slice.short.is_some()).map(Change::Shorter).collect(),
            4 => operation(1, u64::MAX - 7),
            5 => places(|slice| slice.element.is_some()).map(Change::Element).collect(),
            7 => operation(1, 4100),
            8 => vec![Change::Rounds],
            9 => vec![Change::Floor],
            11 => operation(SEGMENT_WORD, 1 << 32),
            _ => vec![],
        };
        let others = self.others.iter().filter(|(other, _)| *other == number);
        changes.extend(others.map(|&(_, change)| Change::Other(change)));
        changes
    }

    /// What it is lent where nothing is refused.
    fn given(&self, words: &mut Words) -> Given {
        let slices = self.slices.iter().map(|slice| drawn(slice.kind, words)).collect();
        let bytes = match self.bytes {
            Bytes::Any(length) => (0..length).map(|_| words.word() as u8).collect(),
            Bytes::File => plain_file::file_of(&words.operations(3)),
        };
        Given {
            with: Parameters::default(),
            number: 0,
            address: 4096,
            timestamp: words.below(1 << 40),
            slices,
            bytes,
        }
    }

    /// One refusal: its number, and every slice as it was.
    fn one(&self, comparison: &mut Comparison, words: &mut Words, number: u64, change: Change, long: &mut [u64]) {
        let mut given = self.given(words);
        changed(&mut given, self.slices, change);
        let mut lent: Vec<Lent> = given.slices.iter().map(|slice| Lent::new(slice, words)).collect();
        let mut bytes = LentBytes::new(&given.bytes, words);
        let mut slices: [&mut [u64]; 5] = Default::default();
        for (slice, lent) in slices.iter_mut().zip(&mut lent) {
            *slice = lent.slice();
        }
        if let (Change::Long, Some(first)) = (change, self.slices.first()) {
            slices[0] = &mut long[..too_long(first.kind)];
        }
        let answer = (self.run)(&given, slices, bytes.slice());
        let found = answer.err().map_or(0, |refusal| refusal.number());
        let name = self.name;
        comparison.called();
        comparison.equal(|_| format!("the refusal of {name}"), &[found], &[number]);
        for (slice, lent) in lent.iter().enumerate() {
            lent.kept(comparison, |_| format!("slice {slice} of {name}, refused by {number}"));
        }
        bytes.holds(comparison, || format!("the bytes of {name}, refused by {number}"), &[]);
    }
}

/// Words of this kind.
fn drawn(kind: Kind, words: &mut Words) -> Vec<u64> {
    match kind {
        Kind::Any(length) => repeated(length, &words.take(length.min(65_537))),
        Kind::Elements(length) => {
            let some: Vec<u64> = (0..length.min(65_537)).map(|_| words.element()).collect();
            repeated(length, &some)
        }
        Kind::Operations => words.operations(3),
        Kind::Lookups => vec![0; 2 * bitwise::LOOKUP_WORDS],
        Kind::Keys => (0..2)
            .flat_map(|_| [words.below(1 << 32), words.below(1 << 16)])
            .collect(),
        Kind::Rows => (0..2)
            .flat_map(|_| [words.below(1 << 32), words.below(1 << 16), 1 + words.below(1 << 19)])
            .collect(),
        Kind::Core => keccak::keccak_table(&words.operations(3)).expect("a core table"),
        Kind::Round => keccak_rnd::keccak_rnd_table(&words.operations(3)).expect("a round table"),
        Kind::Segments => vec![1, 24, 3, 104],
        Kind::Files => (0..5).map(|_| words.below(MAX_OPS as u64)).collect(),
    }
}

/// These words over and over.
fn repeated(length: usize, some: &[u64]) -> Vec<u64> {
    some.iter().copied().cycle().take(length).collect()
}

/// The words of a list with one operation, key or row more than there may be.
const fn too_long(kind: Kind) -> usize {
    match kind {
        Kind::Operations => (MAX_OPS + 1) * OP_WORDS,
        Kind::Keys => (MAX_KEYS + 1) * 2,
        _ => (MAX_KEYS + 1) * is_wh::ROW_WORDS,
    }
}

/// Puts the change into what is given.
fn changed(given: &mut Given, slices: &[Slice], change: Change) {
    match change {
        Change::Rounds => given.with = given.with.rounds(25),
        Change::Floor => given.with = given.with.floor(3),
        Change::Number => given.number = usize::MAX,
        Change::Long => {}
        Change::Shorter(slice) => given.slices[slice].truncate(slices[slice].short.unwrap_or(0)),
        Change::Longer(slice) => given.slices[slice].push(0),
        Change::Element(slice) => given.slices[slice][slices[slice].element.unwrap_or(0)] = P,
        Change::Operation(place, word) => {
            let ops = slices.iter().position(|slice| slice.kind == Kind::Operations);
            given.slices[ops.expect("a list")][place] = word;
        }
        Change::Other(change) => change(given),
    }
}

/// Every call with every number of [`MATRIX`]; one for which nothing is changed here is a difference.
pub fn compare(comparison: &mut Comparison, words: &mut Words) {
    comparison.group("refusals: every lent word after each refusal of each call");
    let Some(mut long) = Untouched::new(too_long(Kind::Rows), "the longest list") else {
        return;
    };
    for (name, numbers) in MATRIX {
        let known = CALLS.iter().find(|call| call.name == name);
        for &number in numbers.iter().filter(|&&number| number != 0) {
            let changes = known.map_or(vec![], |call| call.changes(number));
            let is_tried = u64::from(!changes.is_empty());
            comparison.equal(
                |_| format!("whether {name} is refused by {number} here"),
                &[is_tried],
                &[1],
            );
            for change in changes {
                let call = known.expect("a call that has changes");
                call.one(comparison, words, number, change, long.words_mut());
            }
        }
    }
}

/// Too few bytes for any line or file.
const FEW_BYTES: (u64, fn(&mut Given)) = (3, |given| given.bytes.truncate(3));
/// A message that is too long.
const LONG_MESSAGE: (u64, fn(&mut Given)) = (12, |given| given.bytes = vec![7; MAX_MESSAGE + 1]);
/// A file whose second record is at a high address, and one with a wrong mark.
const HIGH_RECORD: (u64, fn(&mut Given)) = (4, |given| {
    let start = plain_file::records(&given.bytes)[1].0;
    given.bytes[start + 10..start + 18].fill(255);
});
const WRONG_MARK: (u64, fn(&mut Given)) = (6, |given| {
    let start = plain_file::records(&given.bytes)[1].0;
    given.bytes[start] = 0;
});
/// A kind past the last.
const WRONG_KIND: Other = (1, |given| given.slices[1][bitwise::LOOKUP_WORDS] = 10);
/// Whichever counter is charged, it is no element.
const NO_COUNTERS: Other = (5, |given| given.slices[1].fill(P));
/// A register that is not in use.
const NO_REGISTER: Other = (10, |given| given.number = 2);

/// A kind of lookup.
const AND: BitwiseOperationType = BitwiseOperationType::ALL[7];

/// A reader that has read the bytes.
fn fed(bytes: &[u8]) -> Tally {
    let mut tally = Tally::new();
    tally.feed(bytes);
    tally
}

/// Every call of the archive that refuses anything.
const CALLS: [Call; 58] = [
    numbered("generate_bitwise_row", &[out(11)], |given, [row, ..], _| {
        bitwise::generate_bitwise_row(given.number, row)
    }),
    numbered("bitwise_row_index", &[], |given, _, _| {
        bitwise::row_index(1, 2, given.number as u8).map(drop)
    }),
    numbered("bitwise_bump", &[COUNTERS], |given, [counters, ..], _| {
        bitwise::bump_numbered(counters, given.number, 0, 0, 0)
    }),
    numbered("lookup_new", &[], |given, _, _| {
        BitwiseOperation::new(AND, 1, 2, given.number as u8).map(drop)
    }),
    numbered("lookup_zero", &[], |given, _, _| {
        BitwiseOperation::zero(given.number as u32).map(drop)
    }),
    numbered("lookup_shift_op", &[], |given, _, _| {
        BitwiseOperation::shift_op(AND, 1, 2, given.number as u8).map(drop)
    }),
    numbered("lookup_b20", &[], |given, _, _| {
        BitwiseOperation::b20(1, 2, given.number as u8).map(drop)
    }),
    call(
        "generate_bitwise_trace",
        &[out(bitwise::TABLE_WORDS)],
        |_, [table, ..], _| bitwise::generate_bitwise_trace(table),
    ),
    call(
        "fill_multiplicities",
        &[COUNTERS, out(bitwise::TABLE_WORDS)],
        |_, [counters, table, ..], _| bitwise::fill_multiplicities(counters, table),
    ),
    numbered("bump_n", &[COUNTERS], |given, [counters, ..], _| {
        bitwise::bump_n_numbered(counters, given.number, 0, 0, 0, 5)
    }),
    call("merge", &[COUNTERS, COUNTERS], |_, [counters, other, ..], _| {
        bitwise::merge(counters, other)
    }),
    call("add_ops", &[COUNTERS, LOOKUPS], |_, [counters, ops, ..], _| {
        bitwise::add_ops(counters, ops)
    })
    .and(&[WRONG_KIND]),
    call(
        "bitwise_update_multiplicities",
        &[BITWISE, LOOKUPS],
        |_, [table, ops, ..], _| bitwise::update_multiplicities(table, ops),
    )
    .and(&[WRONG_KIND]),
    numbered(
        "bitwise_bus_interaction",
        &[row(21), tuple(2)],
        |given, [row, out, ..], _| bitwise::bus_interaction(row, given.number, out).map(drop),
    ),
    numbered("keccak_rc_generate_row", &[out(9)], |given, [row, ..], _| {
        keccak_rc::generate_row(given.number, row)
    }),
    call("generate_keccak_rc_trace", &[out(320)], |_, [table, ..], _| {
        keccak_rc::generate_keccak_rc_trace(table)
    }),
    numbered(
        "keccak_rc_update_multiplicities",
        &[out(320)],
        |given, [table, ..], _| keccak_rc::update_multiplicities_with(given.with, table, given.number as u64),
    ),
    numbered(
        "keccak_rc_bus_interaction",
        &[row(10), tuple(2)],
        |given, [row, out, ..], _| keccak_rc::bus_interaction(row, given.number, out).map(drop),
    ),
    call(
        "dedup_is_wh_rows",
        &[KEYS, out(2), out(2), out(6)],
        |_, [keys, codes, spare, rows, ..], _| is_wh::dedup_is_wh_rows(keys, codes, spare, rows).map(drop),
    ),
    numbered("is_wh_height", &[], |given, _, _| {
        is_wh::is_wh_height(given.number).map(drop)
    }),
    call("generate_is_wh_trace", &[ROWS, out(16)], |_, [rows, table, ..], _| {
        is_wh::generate_is_wh_trace(rows, table)
    }),
    call(
        "collect_bitwise_from_is_wh",
        &[ROWS, out(NUM_COUNTERS)],
        |_, [rows, counters, ..], _| is_wh::collect_bitwise_from_is_wh(rows, counters),
    )
    .and(&[NO_COUNTERS]),
    numbered(
        "is_wh_bus_interaction",
        &[row(4), tuple(1)],
        |given, [row, out, ..], _| is_wh::bus_interaction(row, given.number, out).map(drop),
    ),
    numbered("keccak_row", &[OPS, out(486)], |given, [ops, row, ..], _| {
        keccak::keccak_row(ops, given.number, row)
    }),
    call(
        "generate_keccak_trace",
        &[OPS, out(4 * 486)],
        |given, [ops, table, ..], _| keccak::generate_keccak_trace_with(given.with, ops, table),
    ),
    call("keccak_rows", &[OPS, out(3 * 486)], |_, [ops, table, ..], _| {
        keccak::keccak_rows(ops, table)
    }),
    call("is_wh_keys", &[OPS, out(3 * 50)], |_, [ops, keys, ..], _| {
        keccak::is_wh_keys(ops, keys)
    }),
    numbered("keccak_height", &[], |given, _, _| {
        keccak::keccak_height_with(given.with, given.number).map(drop)
    }),
    call("keccak_values", &[row(486), out(52)], |_, [row, out, ..], _| {
        keccak::core_values(row, out)
    }),
    numbered(
        "keccak_bus_interaction",
        &[row(486), tuple(2)],
        |given, [row, out, ..], _| keccak::bus_interaction_with(given.with, row, given.number, 0, out).map(drop),
    ),
    call(
        "keccak_bus_interactions",
        &[row(486), out(1457)],
        |given, [row, out, ..], _| keccak::bus_interactions_with(given.with, row, 0, out),
    ),
    numbered("keccak_rnd_row", &[out(25), out(1480)], |given, [start, row, ..], _| {
        keccak_rnd::keccak_rnd_row(given.timestamp, start, given.number, row)
    }),
    call(
        "generate_keccak_rnd_trace",
        &[OPS, out(128 * 1480)],
        |given, [ops, table, ..], _| keccak_rnd::generate_keccak_rnd_trace_with(given.with, ops, table),
    ),
    call(
        "keccak_rnd_rows",
        &[OPS, out(72 * 1480)],
        |given, [ops, table, ..], _| keccak_rnd::keccak_rnd_rows_with(given.with, ops, table),
    ),
    numbered("keccak_rnd_height", &[], |given, _, _| {
        keccak_rnd::keccak_rnd_height_with(given.with, given.number).map(drop)
    }),
    numbered("padding_are_bytes", &[], |given, _, _| {
        keccak_rnd::padding_are_bytes_with(given.with, given.number).map(drop)
    }),
    call("keccak_rnd_values", &[row(1480), out(141)], |_, [row, out, ..], _| {
        keccak_rnd::round_values(row, out)
    }),
    numbered(
        "keccak_rnd_bus_interaction",
        &[row(1480), tuple(2)],
        |given, [row, out, ..], _| keccak_rnd::bus_interaction(row, given.number, out).map(drop),
    ),
    call(
        "keccak_rnd_bus_interactions",
        &[row(1480), out(8211)],
        |_, [row, out, ..], _| keccak_rnd::bus_interactions(row, out),
    ),
    call("charge", &[OPS, COUNTERS], |given, [ops, counters, ..], _| {
        segment::charge_with(given.with, ops, counters)
    }),
    call(
        "look",
        &[OPS, COUNTERS, out(NUM_COUNTERS), out(20)],
        |given, [ops, counters, copy, out, ..], _| segment::look_with(given.with, ops, counters, copy, out),
    ),
    call(
        "register_charge",
        &[OPS, COUNTERS, LEDGERS],
        |given, [ops, counters, ledgers, ..], _| {
            registers::charge_with(given.with, given.number as u64, ops, counters, ledgers)
        },
    )
    .and(&[NO_REGISTER]),
    call(
        "register_look",
        &[OPS, COUNTERS, LEDGERS, out(NUM_COUNTERS), out(30)],
        |given, [ops, counters, ledgers, copy, out], _| {
            registers::look_with(given.with, given.number as u64, ops, counters, ledgers, copy, out)
        },
    )
    .and(&[NO_REGISTER]),
    call("month", &[FILES, out(39)], |given, [counts, out, ..], _| {
        month_with(given.with, counts, out)
    })
    .and(&[
        (1, |given| given.slices[0][1] = MAX_OPS as u64 + 1),
        (14, |given| given.slices[0] = vec![1; MAX_FILES + 1]),
    ]),
    call("keccak_f", &[out(25)], |given, [state, ..], _| {
        permutation::keccak_f_with(given.with, state)
    }),
    call(
        "message_operations",
        &[out(2 * OP_WORDS)],
        |given, [ops, ..], message| message_operations(message, given.address, given.timestamp, ops).map(drop),
    )
    .with_bytes(Bytes::Any(200))
    .and(&[
        (4, |given| given.address = u64::MAX - 7),
        (7, |given| given.address = 4100),
        LONG_MESSAGE,
        (13, |given| given.timestamp = u64::MAX),
    ]),
    call("judge_message", &[OPS], |_, [ops, ..], message| {
        judge_message(message, ops).map(drop)
    })
    .with_bytes(Bytes::Any(200))
    .and(&[LONG_MESSAGE]),
    call("verdict", &[CORE, ROUND], |given, [core, round, ..], _| {
        verdict::verdict_alone_with(given.with, core, round).map(drop)
    }),
    call("verdict_line", &[CORE, ROUND], |given, [core, round, ..], line| {
        verdict::verdict_line_alone_with(given.with, core, round, line).map(drop)
    })
    .with_bytes(Bytes::Any(LINE_MOST))
    .and(&[FEW_BYTES]),
    call(
        "verdict_within",
        &[CORE, ROUND, SCRATCH],
        |given, [core, round, scratch, ..], _| verdict::verdict_within_with(given.with, core, round, scratch).map(drop),
    ),
    call(
        "verdict_line_within",
        &[CORE, ROUND, SCRATCH],
        |given, [core, round, scratch, ..], line| {
            verdict::verdict_line_within_with(given.with, core, round, line, scratch).map(drop)
        },
    )
    .with_bytes(Bytes::Any(LINE_MOST))
    .and(&[(3, |given| given.bytes.truncate(LINE_MOST - 1)), FEW_BYTES]),
    call(
        "job",
        &[CORE, ROUND, SEGMENTS, out(12)],
        |given, [core, round, counts, report, ..], _| job::job_alone_with(given.with, core, round, counts, report),
    ),
    call(
        "job_within",
        &[CORE, ROUND, SEGMENTS, out(12), SCRATCH],
        |given, [core, round, counts, report, scratch], _| {
            job::job_within_with(given.with, core, round, counts, report, scratch)
        },
    ),
    call("same_operations", &[CORE], |_, [core, ..], file| {
        same_operations(core, file).map(drop)
    })
    .with_bytes(Bytes::File)
    .and(&[HIGH_RECORD, WRONG_MARK]),
    call("tally_feed", &[], |_, _, file| fed(file).fault().map_or(Ok(()), Err))
        .with_bytes(Bytes::File)
        .and(&[HIGH_RECORD, WRONG_MARK]),
    call("tally_finish", &[], |given, _, file| {
        fed(file).finish_with(given.with).map(drop)
    })
    .with_bytes(Bytes::File)
    .and(&[HIGH_RECORD, WRONG_MARK]),
    call("read_operations", &[out(3 * OP_WORDS)], |_, [ops, ..], file| {
        read_operations(file, ops)
    })
    .with_bytes(Bytes::File)
    .and(&[HIGH_RECORD, WRONG_MARK]),
    call("write_operations", &[OPS], |_, [ops, ..], file| {
        write_operations(ops, file)
    })
    .with_bytes(Bytes::Any(3 * SEGMENT_RECORD_BYTES))
    .and(&[FEW_BYTES]),
];
