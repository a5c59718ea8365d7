//! Every function of the safe interface, called once or more, with a check on its answer and on a refusal.

#[allow(dead_code)]
mod interface;

use keccak_tables::bitwise::{BitwiseOperation, BitwiseOperationType};
use keccak_tables::is_wh::{IsWhKey, IsWhRows};
use keccak_tables::job::Report;
use keccak_tables::month::{Fill, Month};
use keccak_tables::operation_file::Tally;
use keccak_tables::registers::RegisterLook;
use keccak_tables::same_operations::Agreement;
use keccak_tables::segment::KindLook;
use keccak_tables::verdict::{Table, Verdict};
use keccak_tables::{
    Bus, BusInteraction, FLOOR, Lent, MAX_FLOOR, MAX_OPS, OP_WORDS, Operation, P, Parameters, Refusal, SEGMENT_WORD,
    Side, bitwise, is_wh, job, keccak, keccak_rc, keccak_rnd, message, month, operation_file, permutation, registers,
    same_operations, segment, tuples, verdict,
};

const GUARD: u64 = 0xA5A5_A5A5_A5A5_A5A5;
const TOO_MANY: Refusal = past_end("n", MAX_OPS as u64 + 1);

const fn past_end(argument: &'static str, limit: u64) -> Refusal {
    Refusal::PastEnd { argument, limit }
}

fn not_whole(argument: &'static str) -> Refusal {
    let which = Lent::List;
    Refusal::NotWhole { argument, which }
}

fn too_short(argument: &'static str, needed: u64) -> Refusal {
    Refusal::TooShort { argument, needed }
}

fn not_element(argument: &'static str, place: u64) -> Refusal {
    Refusal::NotElement { argument, place }
}

fn twelve() -> Parameters {
    Parameters::default().rounds(12)
}

fn operation() -> Operation {
    Operation {
        timestamp: 5,
        address: 0x0003_0002_0008,
        input: [0; 25],
        output: [0; 25],
        segment: 0,
    }
}

fn received(bus: Bus, length: usize, multiplicity: u64) -> Result<BusInteraction, Refusal> {
    Ok(BusInteraction {
        bus,
        side: Side::Receiver,
        length,
        multiplicity,
    })
}

#[test]
fn bitwise_calls() {
    let mut row = [GUARD; 12];
    assert_eq!(bitwise::generate_bitwise_row(266_804, &mut row), Ok(()));
    assert_eq!(row, [52, 18, 4, 16, 54, 38, 0, 0, 0, 9024, 1, GUARD]);
    let refused = bitwise::generate_bitwise_row(bitwise::NUM_ROWS, &mut row);
    assert_eq!(refused, Err(past_end("index", 1_048_576)));

    assert_eq!(bitwise::row_index(52, 18, 4), Ok(266_804));
    assert_eq!(bitwise::row_index(52, 18, 16), Err(past_end("z", 16)));

    let mut counters = vec![0; bitwise::NUM_COUNTERS];
    counters[2_668_047] = P - 1;
    assert_eq!(bitwise::bump_numbered(&mut counters, 9, 52, 18, 4), Ok(()));
    assert_eq!(
        bitwise::bump(&mut counters, BitwiseOperationType::ByteAluAnd, 52, 18, 4),
        Ok(())
    );
    assert_eq!(counters[2_668_045..2_668_051], [0, 0, 0, 0, 1, 0]);
    assert_eq!(BitwiseOperationType::ByteAluAnd.number(), 7);
    let refused = bitwise::bump_numbered(&mut counters, 10, 52, 18, 16);
    assert_eq!(refused, Err(past_end("kind", 10)));

    let mut all = [7; bitwise::NUM_COLUMNS];
    all[..11].copy_from_slice(&row[..11]);
    let mut out = [GUARD; 5];
    assert_eq!(
        bitwise::bus_interaction(&all, 9, &mut out),
        received(Bus::ByteAlu, 4, 7)
    );
    assert_eq!(out, [2, 52, 18, 38, GUARD]);
    all[20] = P;
    let refused = bitwise::bus_interaction(&all, 9, &mut out);
    assert_eq!(refused, Err(not_element("row", 20)));
}

/// A table whole, its multiplicities from counters and from a list of lookups.
#[test]
fn bitwise_table_calls() {
    let mut table = vec![GUARD; bitwise::TABLE_WORDS + 1];
    assert_eq!(bitwise::generate_bitwise_trace(&mut table), Ok(()));
    let row = |table: &[u64]| table[266_804 * bitwise::NUM_COLUMNS..][..bitwise::NUM_COLUMNS].to_vec();
    let fixed = [52, 18, 4, 16, 54, 38, 0, 0, 0, 9024, 1];
    assert_eq!(row(&table), [&fixed[..], &[0; 10]].concat());
    assert_eq!(table[bitwise::TABLE_WORDS], GUARD);
    let short = Err(too_short("table", 22_020_096));
    assert_eq!(bitwise::generate_bitwise_trace(&mut table[..22_020_095]), short);

    let mut counters = vec![0; bitwise::NUM_COUNTERS];
    for (kind, count) in counters[2_668_040..2_668_050].iter_mut().enumerate() {
        *count = 100 + kind as u64;
    }
    assert_eq!(bitwise::fill_multiplicities(&counters, &mut table), Ok(()));
    let filled: Vec<u64> = (100..110).collect();
    assert_eq!(row(&table), [&fixed[..], &filled].concat());
    assert_eq!(bitwise::fill_multiplicities(&counters, &mut table[..22_020_095]), short);

    let ops = [9, 52, 18, 4, 9, 52, 18, 4, 0, 0, 0, 0];
    table[11] = P - 1;
    assert_eq!(bitwise::update_multiplicities(&mut table, &ops), Ok(()));
    assert_eq!((row(&table)[20], table[11], table[12]), (111, 0, 0));
    let refused = bitwise::update_multiplicities(&mut table, &ops[..11]);
    assert_eq!(refused, Err(not_whole("ops")));
}

#[test]
fn lookup_calls() {
    let words = |lookup: BitwiseOperation| lookup.words();
    let kind = BitwiseOperationType::ByteAluXor;
    assert_eq!(BitwiseOperation::new(kind, 52, 18, 4).map(words), Ok([9, 52, 18, 4]));
    assert_eq!(BitwiseOperation::byte_op(kind, 52, 18).words(), [9, 52, 18, 0]);
    let single = BitwiseOperation::single_byte(BitwiseOperationType::Msb8, 52);
    assert_eq!(single.words(), [0, 52, 0, 0]);
    let half = BitwiseOperation::halfword(BitwiseOperationType::IsHalf, 52, 18);
    assert_eq!(BitwiseOperation::list(&[single, half]), [0, 52, 0, 0, 4, 52, 18, 0]);
    assert_eq!(BitwiseOperation::zero(266_804).map(words), Ok([2, 52, 18, 4]));
    let shift = BitwiseOperation::shift_op(BitwiseOperationType::Hwsl, 52, 18, 15);
    assert_eq!(shift.map(words), Ok([6, 52, 18, 15]));
    assert_eq!(BitwiseOperation::b20(52, 18, 4).map(words), Ok([5, 52, 18, 4]));

    let refused = Err(past_end("z", 16));
    assert_eq!(BitwiseOperation::new(kind, 52, 18, 16), refused);
    assert_eq!(BitwiseOperation::shift_op(kind, 52, 18, 255), refused);
    assert_eq!(BitwiseOperation::b20(52, 18, 16), refused);
    let refused = BitwiseOperation::zero(1_048_576);
    assert_eq!(refused, Err(past_end("value", 1_048_576)));
}

#[test]
fn counter_calls() {
    let mut counters = vec![0; bitwise::NUM_COUNTERS];
    let (kind, place) = (BitwiseOperationType::ByteAluAnd, 2_668_047);
    assert_eq!(bitwise::bump_n(&mut counters, kind, 52, 18, 4, P + 5), Ok(()));
    assert_eq!(bitwise::bump_n_numbered(&mut counters, 7, 52, 18, 4, P - 6), Ok(()));
    assert_eq!(counters[place], P - 1);
    let refused = bitwise::bump_n_numbered(&mut counters, 7, 52, 18, 16, 0);
    assert_eq!(refused, Err(past_end("z", 16)));

    let ops = [7, 52, 18, 4, 3, 1, 2, 0, 3, 1, 2, 0];
    assert_eq!(bitwise::add_ops(&mut counters, &ops), Ok(()));
    assert_eq!((counters[place], counters[5133]), (0, 2));
    let refused = bitwise::add_ops(&mut counters, &[3, 1, 256, 0]);
    assert_eq!(refused, Err(not_element("ops", 2)));

    let mut other = vec![0; bitwise::NUM_COUNTERS];
    other[5133] = P - 1;
    assert_eq!(bitwise::merge(&mut counters, &other), Ok(()));
    assert_eq!((counters[5133], counters.iter().sum::<u64>()), (1, 1));
    other[9] = P;
    assert_eq!(bitwise::merge(&mut counters, &other), Err(not_element("other", 9)));
}

#[test]
fn constant_calls() {
    let last = [23, 8, 128, 0, 128, 0, 0, 0, 128];
    let mut row = [GUARD; 10];
    assert_eq!(keccak_rc::generate_row(23, &mut row), Ok(()));
    assert_eq!((&row[..9], row[9]), (&last[..], GUARD));
    assert_eq!(keccak_rc::generate_row(32, &mut row), Err(past_end("round", 32)));

    let mut table = [GUARD; keccak_rc::TABLE_WORDS + 1];
    assert_eq!(keccak_rc::generate_keccak_rc_trace(&mut table), Ok(()));
    assert_eq!((&table[230..239], table[239], table[320]), (&last[..], 0, GUARD));
    let refused = keccak_rc::generate_keccak_rc_trace(&mut table[..319]);
    assert_eq!(refused, Err(too_short("table", 320)));

    assert_eq!(keccak_rc::update_multiplicities(&mut table, 9), Ok(()));
    assert_eq!([table[9], table[239], table[249]], [9, 9, 0]);
    assert_eq!(keccak_rc::update_multiplicities_with(twelve(), &mut table, 7), Ok(()));
    assert_eq!(
        [table[9], table[119], table[129], table[239], table[249]],
        [0, 0, 7, 7, 0]
    );
    let refused = keccak_rc::update_multiplicities(&mut table, MAX_OPS as u64 + 1);
    assert_eq!(refused, Err(TOO_MANY));

    let answer = keccak_rc::bus_interaction(&table[230..240], 0, &mut row);
    assert_eq!(answer, received(Bus::KeccakRc, 9, 7));
    assert_eq!((&row[..9], row[9]), (&last[..], GUARD));
    let refused = keccak_rc::bus_interaction(&table[230..240], 1, &mut row);
    assert_eq!(refused, Err(past_end("index", 1)));
}

#[test]
fn key_calls() {
    let key = IsWhKey::of_dword(0x0123_4567_89AB_CDEF);
    assert_eq!((key.word, key.half), (0x0123_4567, 0x89AB));

    let mut out = [GUARD; 3];
    let answer = is_wh::bus_interaction(&[3, 2, 1, 9], 4, &mut out);
    assert_eq!(answer, received(Bus::IsWh, 2, 9));
    assert_eq!(out, [65_538, 3, GUARD]);
    let refused = is_wh::bus_interaction(&[3, 2, 1, 9], 4, &mut out[..1]);
    assert_eq!(refused, Err(too_short("out", 2)));
}

#[test]
fn key_row_calls() {
    let keys = [7, 9, 7, 8, 0, 65_535, 7, 9];
    let [mut codes, mut spare] = [[GUARD; 5]; 2];
    let mut rows = [GUARD; 13];
    let answer = is_wh::dedup_is_wh_rows(&keys, &mut codes, &mut spare, &mut rows);
    assert_eq!(answer, Ok(3));
    let expected = [0, 65_535, 1, 7, 8, 1, 7, 9, 2];
    assert_eq!((&rows[..9], &rows[9..]), (&expected[..], &[GUARD; 4][..]));
    assert_eq!((codes[4], spare[4]), (GUARD, GUARD));
    let refused = is_wh::dedup_is_wh_rows(&keys, &mut codes, &mut spare, &mut rows[..11]);
    assert_eq!(refused, Err(too_short("rows", 12)));

    assert_eq!(is_wh::is_wh_height(5), Ok(8));
    let refused = is_wh::is_wh_height(is_wh::MAX_KEYS + 1);
    assert_eq!(refused, Err(past_end("n", 2_236_962_126)));

    let mut table = [GUARD; 17];
    assert_eq!(is_wh::generate_is_wh_trace(&rows[..9], &mut table), Ok(()));
    let words = [65_535, 0, 0, 1, 8, 7, 0, 1, 9, 7, 0, 2, 0, 0, 0, 0, GUARD];
    assert_eq!(table, words);
    let refused = is_wh::generate_is_wh_trace(&[1, 2, 1 << 20], &mut table);
    assert_eq!(refused, Err(not_element("rows", 2)));

    let mut counters = vec![0; bitwise::NUM_COUNTERS];
    assert_eq!(is_wh::collect_bitwise_from_is_wh(&rows[..9], &mut counters), Ok(()));
    // IsHalfword of 7, 8, 9 and 65,535; IsB20 of 0, 1 and 2.
    let charged: Vec<(usize, u64)> = (0..)
        .zip(counters.iter().copied())
        .filter(|&(_, count)| count > 0)
        .collect();
    assert_eq!(
        charged,
        [
            (4, 5),
            (5, 1),
            (15, 2),
            (25, 1),
            (74, 3),
            (84, 1),
            (94, 2),
            (655_354, 1)
        ]
    );
    let refused = is_wh::collect_bitwise_from_is_wh(&rows[..8], &mut counters);
    assert_eq!(refused, Err(not_whole("rows")));
}

/// The same in memory of their own, and from operations.
#[test]
fn key_rows_of_their_own() {
    let rows = IsWhRows::of_keys(&[7, 9, 7, 8, 0, 65_535, 7, 9]).expect("rows");
    assert_eq!(rows.words(), [0, 65_535, 1, 7, 8, 1, 7, 9, 2]);
    assert_eq!(rows.table().map(|table| table[4..8].to_vec()), Ok(vec![8, 7, 0, 1]));
    let of_operations = IsWhRows::of_operations(&operation().words()).expect("rows");
    assert_eq!(of_operations.words(), [3, 2, 25]);
    let mut counters = vec![0; bitwise::NUM_COUNTERS];
    assert_eq!(of_operations.charge(&mut counters), Ok(()));
    assert_eq!((counters[5], counters[255], counters[34]), (3, 1, 25));
    assert_eq!(IsWhRows::of_keys(&[]).map(|rows| rows.words().len()), Ok(0));
    assert_eq!(IsWhRows::of_keys(&[1]), Err(not_whole("keys")));
    let refused = IsWhRows::of_operations(&operation().words()[1..]);
    assert_eq!(refused, Err(not_whole("ops")));
}

/// What the one operation sends: a pointer's low halfword, the alignment, four pairs of address bytes; in its round rows 24 times 220
/// pairs of bytes, 200 ANDs and 608 XORs; in the 8 padding rows 220 pairs.
#[test]
fn segment_calls() {
    let list = operation().words();
    let sums = [0, 0, 0, 4 + 32 * 220, 25, 0, 0, 1 + 24 * 200, 0, 24 * 608];
    let mut counters = vec![P - 1; bitwise::NUM_COUNTERS + 1];
    counters[bitwise::NUM_COUNTERS] = GUARD;
    let mut copy = vec![GUARD; bitwise::NUM_COUNTERS + 1];
    let mut out = [GUARD; segment::LOOK_WORDS + 1];
    assert_eq!(segment::look(&list, &counters, &mut copy, &mut out), Ok(()));
    assert_eq!((copy[bitwise::NUM_COUNTERS], out[20]), (GUARD, GUARD));
    assert!(
        counters[..bitwise::NUM_COUNTERS]
            .iter()
            .all(|&counter| counter == P - 1)
    );
    let look = segment::Look::new(&list, &counters).expect("a look");
    for (kind, KindLook { kind: of, sum, largest }) in look.kinds().into_iter().enumerate() {
        assert_eq!(
            (of.number(), sum, out[2 * kind]),
            (kind, sums[kind], sum),
            "{}",
            of.name()
        );
        // Not every counter returns to zero.
        assert_eq!((largest, out[2 * kind + 1]), (P - 1, P - 1));
    }
    assert_eq!(segment::charge(&list, &mut counters), Ok(()));
    assert!(counters == copy && counters[..bitwise::NUM_COUNTERS] == *look.counters());
    // The pointers' low halfwords begin with 8, each once.
    assert_eq!([counters[84], counters[94], counters[2004]], [0, P - 1, 0]);

    let shipped = Parameters::default().shipped();
    let mut zeros = vec![0; bitwise::NUM_COUNTERS];
    assert_eq!(segment::charge(&[], &mut zeros), Ok(()));
    assert!(zeros.iter().all(|&counter| counter == 0));
    assert_eq!(segment::look_with(shipped, &[], &zeros, &mut copy, &mut out), Ok(()));
    assert_eq!((out[6], out[7], copy[3]), (880, 880, 880));
    assert_eq!(segment::charge_with(shipped, &[], &mut zeros), Ok(()));
    assert_eq!((zeros[3], zeros.iter().sum()), (880, 880));
    let look = segment::Look::with(shipped, &[], &zeros).expect("a look");
    assert_eq!(look.kinds()[3].largest, 1760);
    let look = segment::Look::with(twelve(), &list, &zeros).expect("a look");
    let fewer = [0, 0, 0, 4 + 16 * 220, 25, 0, 0, 1 + 12 * 200, 0, 12 * 608];
    assert_eq!(look.kinds().map(|kind| kind.sum), fewer);
    assert_eq!(segment::charge_with(twelve(), &list, &mut zeros), Ok(()));
    assert_eq!(zeros, look.counters());
    // The floor alone decides how many padding rows there are: 40 of 64, and all 64.
    let look = segment::Look::with(shipped.floor(64), &list, &zeros).expect("a look");
    assert_eq!(look.kinds()[3].sum, 4 + 64 * 220);
    let look = segment::Look::with(shipped.floor(64), &[], &zeros).expect("a look");
    assert_eq!(look.kinds()[3].sum, 64 * 220);
    assert_eq!(segment::charge_with(shipped.floor(64), &[], &mut zeros), Ok(()));
    assert_eq!(zeros, look.counters());

    let refused = segment::charge(&list[1..], &mut counters);
    assert_eq!(refused, Err(not_whole("ops")));
    let refused = segment::look(&list, &zeros, &mut copy, &mut out[..19]);
    assert_eq!(refused, Err(too_short("out", 20)));
}

/// The same charges through two of three registers, whose ledgers stand before a cut one: what one is shown and gets goes by its own calls,
/// and the ledgers add up to the counters.
#[test]
fn register_calls() {
    let list = operation().words();
    let sums = [0, 0, 0, 4 + 32 * 220, 25, 0, 0, 1 + 24 * 200, 0, 24 * 608];
    let mut counters = vec![0; bitwise::NUM_COUNTERS + 1];
    counters[bitwise::NUM_COUNTERS] = GUARD;
    let mut ledgers = [0; 35];
    ledgers[30..].fill(GUARD);
    for (words, used) in [
        (0, 0),
        (9, 0),
        (10, 1),
        (35, 3),
        (159, 15),
        (160, 16),
        (161, 16),
        (170, 16),
    ] {
        assert_eq!(registers::in_use(words), used);
    }

    let mut copy = vec![GUARD; bitwise::NUM_COUNTERS + 1];
    let mut out = [GUARD; registers::REGISTER_LOOK_WORDS + 1];
    let seen = registers::look(1, &list, &counters, &ledgers, &mut copy, &mut out);
    assert_eq!((seen, out[20..30] == sums, out[30]), (Ok(()), true, GUARD));
    assert_eq!(copy[bitwise::NUM_COUNTERS], GUARD);
    assert!(ledgers[..30].iter().chain(&counters[..10]).all(|&word| word == 0));
    assert_eq!(registers::charge(1, &list, &mut counters, &mut ledgers), Ok(()));
    assert!(counters == copy && ledgers[10..20] == sums);

    // Another register charges, and the first again: its ledger has twice its own sums.
    let twelve_shipped = twelve().shipped();
    let (before, nothing) = (ledgers, [0; 10]);
    let seen = registers::charge_with(twelve_shipped, 2, &[], &mut counters, &mut ledgers);
    assert_eq!((seen, &ledgers[..20]), (Ok(()), &before[..20]));
    assert_eq!((ledgers[23], &ledgers[30..]), (880, &[GUARD; 5][..]));
    let look = RegisterLook::new(1, &list, &counters, &ledgers).expect("a look");
    assert_eq!(*look.ledger(), sums.map(|sum| 2 * sum));
    assert_eq!(look.look().kinds().map(|kind| kind.sum), sums);
    let look = RegisterLook::with(twelve_shipped, 1, &[], &counters, &ledgers).expect("a look");
    assert_eq!((look.ledger()[3], look.ledger()[9]), (sums[3] + 880, sums[9]));
    assert_eq!(registers::charge(1, &list, &mut counters, &mut ledgers), Ok(()));
    assert_eq!(
        (&ledgers[..10], ledgers[10..20] == sums.map(|sum| 2 * sum)),
        (&nothing[..], true)
    );
    for kind in 0..10 {
        let of_kind = |words: &[u64]| words.iter().skip(kind).step_by(10).sum::<u64>();
        assert_eq!(
            of_kind(&counters[..bitwise::NUM_COUNTERS]),
            of_kind(&ledgers[..30]),
            "kind {kind}"
        );
    }

    // A sum returns to zero at p; a word that is none is refused in its own ledger alone, by its place among all of them.
    ledgers[9] = P - 14_592;
    ledgers[15] = P;
    assert_eq!(registers::charge(0, &list, &mut counters, &mut ledgers), Ok(()));
    assert_eq!((ledgers[9], ledgers[15]), (0, P));
    let refused = registers::charge(1, &list, &mut counters, &mut ledgers);
    assert_eq!(refused, Err(not_element("ledgers", 15)));
    let refused = registers::look_with(twelve(), 1, &list, &counters, &ledgers, &mut copy, &mut out);
    assert_eq!(refused, Err(not_element("ledgers", 15)));
    let refused = registers::look(3, &list[1..], &[P], &ledgers, &mut copy, &mut out);
    assert_eq!(refused, Err(Refusal::Register { register: 3 }));
    let refused = registers::look(0, &list, &counters, &ledgers, &mut copy, &mut out[..29]);
    assert_eq!(refused, Err(too_short("out", 30)));
}

/// Tables of 32, 64 and 128 rows that are equally full, and one that is empty.
#[test]
fn month_calls() {
    let counts = [0, 1, 2, 4];
    let mut out = [GUARD; month::MONTH_WORDS + 1];
    assert_eq!(month::month(&counts, &mut out), Ok(()));
    assert_eq!(out[..8], [4, 7, 168, 60, 24, 32, 0, 4]);
    let at = |power: usize| u64::from([2, 5, 6, 7].contains(&power));
    assert_eq!(out[8..38], std::array::from_fn::<u64, 30, _>(|place| at(place + 2)));
    assert_eq!(out[38..], [1, GUARD]);
    let named = Month {
        files: 4,
        operations: 7,
        used_rows: 168,
        padding_rows: 60,
        fullest: Some(Fill { used: 24, total: 32 }),
        emptiest: Some(Fill { used: 0, total: 4 }),
        files_at: std::array::from_fn(|place| at(place + 2)),
    };
    assert_eq!(Month::new(&counts), Ok(named));
    let heights: Vec<(u64, u64)> = named.heights().collect();
    assert_eq!((heights[0], heights[3], heights[29]), ((4, 1), (32, 1), (1 << 31, 0)));
    // The other way round another of the tied is shown, and nothing else changes.
    let turned = Month {
        fullest: Some(Fill { used: 96, total: 128 }),
        ..named
    };
    assert_eq!(Month::new(&[4, 2, 1, 0]), Ok(turned));

    // With a floor of 64 rows only the last fills more than the others, and a number of rounds has its part in it.
    assert_eq!(month::month_with(twelve().floor(64), &counts, &mut out), Ok(()));
    assert_eq!(out[..8], [4, 7, 84, 172, 48, 64, 0, 64]);
    assert_eq!((out[12], out[38]), (4, 1));
    let most = Month::with(Parameters::default(), &[MAX_OPS as u64]).expect("a month");
    assert_eq!(most.fullest, most.emptiest);
    assert_eq!((most.used_rows + most.padding_rows, most.files_at[29]), (1 << 31, 1));

    let none = Month::new(&[]).expect("a month without files");
    assert_eq!((none.files, none.fullest, none.emptiest), (0, None, None));
    assert_eq!(month::month(&[], &mut out), Ok(()));
    assert_eq!(out[..month::MONTH_WORDS], [0; month::MONTH_WORDS]);

    let mut many = vec![0; month::MAX_FILES + 1];
    assert_eq!(
        Month::new(&many[1..]).map(|month| month.padding_rows),
        Ok(4 * month::MAX_FILES as u64)
    );
    many[4] = MAX_OPS as u64 + 1;
    let mut short = [GUARD; month::MONTH_WORDS - 1];
    assert_eq!(month::month(&many, &mut short), Err(Refusal::Files { files: 4097 }));
    let past = Err(past_end("counts", 89_478_486));
    assert_eq!(month::month(&many[1..], &mut short), past);
    assert_eq!(Month::new(&many[1..]).map(drop), past);
    assert_eq!(month::month(&counts, &mut short), Err(too_short("out", 39)));
    assert_eq!(short, [GUARD; month::MONTH_WORDS - 1]);
}

/// The core row of the operation, and a word past it.
fn core_row() -> [u64; keccak::NUM_COLUMNS + 1] {
    let mut row = [GUARD; keccak::NUM_COLUMNS + 1];
    assert_eq!(keccak::keccak_row(&operation().words(), 0, &mut row), Ok(()));
    row
}

#[test]
fn core_row_and_table_calls() {
    let list = operation().words();
    let mut row = core_row();
    assert_eq!(row[..10], [5, 0, 8, 0, 2, 0, 3, 0, 0, 0]);
    assert_eq!(row[485..], [1, GUARD]);
    let refused = keccak::keccak_row(&list, 1, &mut row);
    assert_eq!(refused, Err(past_end("index", 1)));

    let mut table = vec![GUARD; 4 * keccak::NUM_COLUMNS + 1];
    assert_eq!(keccak::generate_keccak_trace(&list, &mut table), Ok(()));
    assert_eq!((&table[..486], table[486 + 413], table[1944]), (&row[..486], 8, GUARD));
    assert_eq!(keccak::keccak_table(&list), Ok(table[..1944].to_vec()));
    let refused = keccak::generate_keccak_trace(&list[..OP_WORDS - 1], &mut table);
    assert_eq!(refused, Err(not_whole("ops")));
    assert_eq!(keccak::keccak_table(&list[1..]), Err(not_whole("ops")));
}

/// The rows of two operations, by one call and by one each into its own part; a list that is refused as the table is.
#[test]
fn core_rows_calls() {
    let list = Operation::list(&[
        operation(),
        Operation {
            timestamp: 6,
            ..operation()
        },
    ]);
    let words = 2 * keccak::NUM_COLUMNS;
    let mut rows = vec![GUARD; words + 1];
    assert_eq!(keccak::keccak_rows(&list, &mut rows), Ok(()));
    assert_eq!((&rows[..486], rows[486], rows[words]), (&core_row()[..486], 6, GUARD));
    let mut parts = vec![GUARD; words];
    for (part, ops) in parts.chunks_mut(486).zip(list.chunks(OP_WORDS)) {
        assert_eq!(keccak::keccak_rows(ops, part), Ok(()));
    }
    assert_eq!(parts, rows[..words]);
    let refused = keccak::keccak_rows(&list, &mut rows[..words - 1]);
    assert_eq!(refused, Err(too_short("table", words as u64)));
    assert_eq!(parts, rows[..words]);
}

#[test]
fn core_key_and_height_calls() {
    let mut list = operation().words();
    let mut keys = [GUARD; keccak::KEY_WORDS + 1];
    assert_eq!(keccak::is_wh_keys(&list, &mut keys), Ok(()));
    assert_eq!((keys[0], keys[1], keys[50]), (3, 2, GUARD));
    list[1] = keccak::LAST_ADDRESS + 1;
    let refused = keccak::is_wh_keys(&list, &mut keys);
    assert_eq!(refused, Err(Refusal::HighAddress { address: list[1] }));
    list[1] = keccak::LAST_ADDRESS;
    let refused = keccak::is_wh_keys(&list, &mut keys);
    assert_eq!(refused, Err(Refusal::Unaligned { address: list[1] }));

    assert_eq!(keccak::keccak_height(5), Ok(8));
    assert_eq!(keccak::keccak_height(MAX_OPS + 1), Err(TOO_MANY));
}

#[test]
fn core_value_and_tuple_calls() {
    let row = core_row();
    let mut values = [GUARD; keccak::NUM_VALUES + 1];
    assert_eq!(keccak::core_values(&row, &mut values), Ok(()));
    assert_eq!((&values[..52], values[52]), (&[0; 52][..], GUARD));
    let refused = keccak::core_values(&row[..485], &mut values);
    assert_eq!(refused, Err(too_short("row", 486)));

    let mut out = [GUARD; keccak::MAX_TUPLE_LENGTH];
    let answer = keccak::bus_interaction(&row, 0, 0x7_0000_0006, &mut out);
    assert_eq!(answer, received(Bus::Ecall, 4, 1));
    assert_eq!(out[..5], [5, 0, 6, 7, GUARD]);
    let refused = keccak::bus_interaction(&row, 84, 0, &mut out);
    assert_eq!(refused, Err(past_end("index", 84)));

    let mut all = [GUARD; keccak::TUPLE_WORDS + 1];
    assert_eq!(keccak::bus_interactions(&row, 0x7_0000_0006, &mut all), Ok(()));
    assert_eq!(
        (&all[..4], &all[4..8], all[1457]),
        (&[7, 1, 4, 1][..], &out[..4], GUARD)
    );
    assert_eq!(tuples(&all[..1457]).count(), keccak::NUM_TUPLES);
    let refused = keccak::bus_interactions(&row, 0, &mut all[..1456]);
    assert_eq!(refused, Err(too_short("out", 1457)));
}

/// The core row's INPUT goes to the first round.
#[test]
fn core_tuples_by_rounds() {
    let row = core_row();
    let mut out = [GUARD; keccak::MAX_TUPLE_LENGTH];
    let mut all = [GUARD; keccak::TUPLE_WORDS];
    for rounds in 1..=24 {
        let parameters = Parameters::default().rounds(rounds);
        assert_eq!(keccak::bus_interactions_with(parameters, &row, 0, &mut all), Ok(()));
        let on_keccak = tuples(&all).filter(|(tuple, _)| tuple.bus == Bus::Keccak);
        assert!(on_keccak.map(|(_, values)| values[2]).eq([24 - rounds, 24]));
        for (index, (tuple, values)) in tuples(&all).enumerate() {
            let answer = keccak::bus_interaction_with(parameters, &row, index, 0, &mut out);
            assert_eq!((answer, &out[..tuple.length]), (Ok(tuple), values));
        }
    }
    let mut today = [GUARD; keccak::TUPLE_WORDS];
    assert_eq!(keccak::bus_interactions(&row, 0, &mut today), Ok(()));
    assert_eq!(all, today);
}

/// The row of round 0 from the zero state, and a word past it.
fn round_row() -> [u64; keccak_rnd::NUM_COLUMNS + 1] {
    let mut row = [GUARD; keccak_rnd::NUM_COLUMNS + 1];
    assert_eq!(keccak_rnd::keccak_rnd_row(5, &[0; 25], 0, &mut row), Ok(()));
    row
}

#[test]
fn round_row_and_table_calls() {
    let list = operation().words();
    let mut row = round_row();
    assert_eq!((row[0], row[1471], row[1479], row[1480]), (5, 1, 1, GUARD));
    let refused = keccak_rnd::keccak_rnd_row(5, &[0; 24], 0, &mut row);
    assert_eq!(refused, Err(too_short("start", 25)));

    let words = 32 * keccak_rnd::NUM_COLUMNS;
    let mut table = vec![GUARD; words + 1];
    assert_eq!(keccak_rnd::generate_keccak_rnd_trace(&list, &mut table), Ok(()));
    assert_eq!((&table[..1480], table[words]), (&row[..1480], GUARD));
    assert_eq!(keccak_rnd::keccak_rnd_table(&list), Ok(table[..words].to_vec()));
    let refused = keccak_rnd::generate_keccak_rnd_trace(&list, &mut table[..words - 1]);
    assert_eq!(refused, Err(too_short("table", words as u64)));

    assert_eq!(keccak_rnd::keccak_rnd_height(2_731), Ok(131_072));
    assert_eq!(keccak_rnd::keccak_rnd_height(MAX_OPS + 1), Err(TOO_MANY));
    assert_eq!(keccak_rnd::padding_are_bytes(2), Ok(3_520));
    assert_eq!(keccak_rnd::padding_are_bytes(MAX_OPS + 1), Err(TOO_MANY));
}

/// The same of the round rows, 24 to each operation.
#[test]
fn round_rows_calls() {
    let list = Operation::list(&[
        operation(),
        Operation {
            timestamp: 6,
            ..operation()
        },
    ]);
    let part_words = 24 * keccak_rnd::NUM_COLUMNS;
    let mut rows = vec![GUARD; 2 * part_words + 1];
    assert_eq!(keccak_rnd::keccak_rnd_rows(&list, &mut rows), Ok(()));
    assert_eq!((&rows[..1480], rows[part_words]), (&round_row()[..1480], 6));
    assert_eq!(rows[2 * part_words], GUARD);
    let mut parts = vec![GUARD; 2 * part_words];
    for (part, ops) in parts.chunks_mut(part_words).zip(list.chunks(OP_WORDS)) {
        assert_eq!(keccak_rnd::keccak_rnd_rows(ops, part), Ok(()));
    }
    assert_eq!(parts, rows[..2 * part_words]);
    let refused = keccak_rnd::keccak_rnd_rows(&list[..2 * OP_WORDS - 1], &mut rows);
    assert_eq!(refused, Err(not_whole("ops")));
    assert_eq!(parts, rows[..2 * part_words]);
}

/// Tables of fewer rounds: the rows of the last ones, each from the state that the row before sends.
#[test]
fn round_tables_by_rounds() {
    let list = Operation::list(&[operation(), operation()]);
    for (rounds, height) in [(1, 4), (2, 4), (3, 8), (12, 32), (16, 32), (17, 64), (23, 64), (24, 64)] {
        let parameters = Parameters::default().rounds(rounds);
        assert_eq!(keccak_rnd::keccak_rnd_height_with(parameters, 2), Ok(height));
        let padding = height as u64 - 2 * rounds;
        assert_eq!(keccak_rnd::padding_are_bytes_with(parameters, 2), Ok(220 * padding));
        assert_eq!(keccak_rnd::padding_are_bytes_with(parameters, 0), Ok(0));
        let words = height * keccak_rnd::NUM_COLUMNS;
        let mut table = vec![GUARD; words + 1];
        let answer = keccak_rnd::generate_keccak_rnd_trace_with(parameters, &list, &mut table);
        assert_eq!((answer, table[words]), (Ok(()), GUARD));
        let active = 2 * rounds as usize * keccak_rnd::NUM_COLUMNS;
        let mut rows = vec![GUARD; active + 1];
        let answer = keccak_rnd::keccak_rnd_rows_with(parameters, &list, &mut rows);
        assert_eq!((answer, rows[active]), (Ok(()), GUARD));
        assert!(rows[..active] == table[..active] && table[active..words].iter().all(|&word| word == 0));
        let mut expected = [0; keccak_rnd::NUM_COLUMNS];
        let mut state = [0; 25];
        for (at, row) in rows[..active].chunks(keccak_rnd::NUM_COLUMNS).enumerate() {
            let step = at % rounds as usize;
            if step == 0 {
                state = operation().input;
            }
            let round = 24 - rounds as usize + step;
            assert_eq!(keccak_rnd::keccak_rnd_row(5, &state, round, &mut expected), Ok(()));
            assert!(row == expected, "row {at} of {rounds} rounds");
            state = sent_on(row);
        }
        let short = keccak_rnd::keccak_rnd_rows_with(parameters, &list, &mut rows[..active - 1]);
        assert_eq!(short, Err(too_short("table", active as u64)));
        assert_eq!(
            keccak_rnd::keccak_rnd_table_with(parameters, &list),
            Ok(table[..words].to_vec())
        );
    }
    assert_eq!(
        keccak_rnd::keccak_rnd_table_with(Parameters::default(), &list),
        keccak_rnd::keccak_rnd_table(&list)
    );
}

/// Tables of every floor: the rows are those of floor 4, and the rest is padding, as many rows as make the floor.
#[test]
fn tables_by_floor() {
    let list = Operation::list(&[operation(), operation()]);
    let core = keccak::keccak_table(&list).expect("a core table");
    let today = keccak_rnd::keccak_rnd_table_with(twelve(), &list).expect("a round table");
    let padding = &core[3 * keccak::NUM_COLUMNS..];
    for power in 2..=8 {
        let floor = 1usize << power;
        let parameters = twelve().floor(floor as u64);
        assert_eq!(keccak::keccak_height_with(parameters, 2), Ok(floor));
        assert_eq!(keccak::keccak_height_with(parameters, floor), Ok(floor));
        assert_eq!(keccak::keccak_height_with(parameters, floor + 1), Ok(2 * floor));
        let words = floor * keccak::NUM_COLUMNS;
        let mut table = vec![GUARD; words + 1];
        let answer = keccak::generate_keccak_trace_with(parameters, &list, &mut table);
        assert_eq!((answer, table[words]), (Ok(()), GUARD));
        let (rows, rest) = table[..words].split_at(2 * keccak::NUM_COLUMNS);
        assert!(*rows == core[..rows.len()] && rest.chunks(keccak::NUM_COLUMNS).all(|row| row == padding));
        assert_eq!(
            keccak::keccak_table_with(parameters, &list),
            Ok(table[..words].to_vec())
        );
        let short = keccak::generate_keccak_trace_with(parameters, &list, &mut table[..words - 1]);
        assert_eq!(short, Err(too_short("table", words as u64)));

        let height = floor.max(32);
        assert_eq!(keccak_rnd::keccak_rnd_height_with(parameters, 2), Ok(height));
        let sent = 220 * (height as u64 - 24);
        assert_eq!(keccak_rnd::padding_are_bytes_with(parameters, 2), Ok(sent));
        assert_eq!(keccak_rnd::padding_are_bytes_with(parameters, 0), Ok(0));
        let words = height * keccak_rnd::NUM_COLUMNS;
        let mut table = vec![GUARD; words + 1];
        let answer = keccak_rnd::generate_keccak_rnd_trace_with(parameters, &list, &mut table);
        assert_eq!((answer, table[words]), (Ok(()), GUARD));
        assert!(table[..today.len()] == today && table[today.len()..words].iter().all(|&word| word == 0));
        assert!(keccak_rnd::keccak_rnd_table_with(parameters, &list).is_ok_and(|own| own == table[..words]));
    }
    assert_eq!(
        keccak::keccak_height_with(twelve().floor(MAX_FLOOR), 65_537),
        Ok(131_072)
    );
    assert_eq!(
        keccak::keccak_height_with(twelve().floor(FLOOR), 0),
        keccak::keccak_height(0)
    );
}

/// Every call that takes a floor refuses another after the rounds and before anything else, and writes nothing.
#[test]
fn no_floor() {
    type Call = fn(Parameters, &mut [u64]) -> Result<(), Refusal>;
    let of_core: [Call; 4] = [
        |with, table| keccak::generate_keccak_trace_with(with, &[P], table),
        |with, _| keccak::keccak_table_with(with, &[P]).map(drop),
        |with, _| keccak::keccak_height_with(with, usize::MAX).map(drop),
        |with, _| cut_tally().finish_with(with).map(drop),
    ];
    let of_rounds: [Call; 12] = [
        |with, counters| registers::charge_with(with, 9, &[P], counters, &mut []),
        |with, copy| registers::look_with(with, 9, &[P], &[P], &[], copy, &mut []),
        |with, _| RegisterLook::with(with, 9, &[P], &[P], &[]).map(drop),
        |with, table| keccak_rnd::generate_keccak_rnd_trace_with(with, &[P], table),
        |with, _| keccak_rnd::keccak_rnd_table_with(with, &[P]).map(drop),
        |with, _| keccak_rnd::keccak_rnd_height_with(with, usize::MAX).map(drop),
        |with, _| keccak_rnd::padding_are_bytes_with(with, usize::MAX).map(drop),
        |with, counters| segment::charge_with(with, &[P], counters),
        |with, copy| segment::look_with(with, &[P], &[P], copy, &mut []),
        |with, _| segment::Look::with(with, &[P], &[P]).map(drop),
        |with, out| month::month_with(with, &[P], out),
        |with, _| Month::with(with, &[P]).map(drop),
    ];
    for floor in [0, 1, 2, 3, 5, 6, 65_535, 65_537, 131_072, 1 << 32, 1 << 63, u64::MAX] {
        for rounds in [24, 0, 25] {
            let parameters = Parameters::default().rounds(rounds).floor(floor).shipped();
            let first = match rounds {
                24 => Refusal::Floor { floor },
                rounds => Refusal::Rounds { rounds },
            };
            let none = of_core.map(|call| (call, Refusal::Floor { floor }));
            for (place, (call, refusal)) in none.into_iter().chain(of_rounds.map(|call| (call, first))).enumerate() {
                let mut lent = [GUARD; 2];
                let answer = call(parameters, &mut lent);
                assert_eq!(
                    (answer, lent),
                    (Err(refusal), [GUARD; 2]),
                    "call {place}, floor {floor}"
                );
            }
        }
    }
    // Where nothing depends on it, it is not looked at.
    let parameters = Parameters::default().floor(5);
    let mut rows = vec![GUARD; 24 * keccak_rnd::NUM_COLUMNS];
    assert_eq!(
        keccak_rnd::keccak_rnd_rows_with(parameters, &operation().words(), &mut rows),
        Ok(())
    );
    let holds = verdict::verdict_with(parameters, &[], &[]);
    assert_eq!(holds, Ok(Verdict::Holds { active: 0 }));
}

/// A reader in the middle of a record.
fn cut_tally() -> Tally {
    let mut tally = Tally::new();
    tally.feed(&[0x4B]);
    tally
}

/// The lanes that a round row sends.
fn sent_on(row: &[u64]) -> [u64; 25] {
    use keccak_rnd::cols::{CHI, IOTA};
    std::array::from_fn(|lane| {
        let bytes = if lane == 0 {
            &row[IOTA..]
        } else {
            &row[CHI + 8 * lane..]
        };
        bytes[..8].iter().rev().fold(0, |number, byte| number << 8 | byte)
    })
}

/// Every call that takes a number of rounds refuses another before anything else, and writes nothing.
#[test]
fn no_number_of_rounds() {
    type Call = fn(Parameters, &mut [u64]) -> Result<(), Refusal>;
    let calls: [Call; 24] = [
        |with, report| job::job_with(with, &[P], &[P], &[P], report),
        |with, report| job::job_alone_with(with, &[P], &[P], &[P], report),
        |with, scratch| job::job_within_with(with, &[P], &[P], &[P], &mut [], scratch),
        |with, counters| registers::charge_with(with, 9, &[P], counters, &mut []),
        |with, copy| registers::look_with(with, 9, &[P], &[P], &[], copy, &mut []),
        |with, table| keccak_rnd::generate_keccak_rnd_trace_with(with, &[P], table),
        |with, table| keccak_rnd::keccak_rnd_rows_with(with, &[P], table),
        |with, _| keccak_rnd::keccak_rnd_table_with(with, &[P]).map(drop),
        |with, _| keccak_rnd::keccak_rnd_height_with(with, usize::MAX).map(drop),
        |with, _| keccak_rnd::padding_are_bytes_with(with, usize::MAX).map(drop),
        |with, table| keccak_rc::update_multiplicities_with(with, table, u64::MAX),
        |with, out| keccak::bus_interaction_with(with, &[P], usize::MAX, 0, out).map(drop),
        |with, out| keccak::bus_interactions_with(with, &[P], 0, out),
        |with, _| verdict::verdict_with(with, &[P], &[P]).map(drop),
        |with, _| verdict::verdict_alone_with(with, &[P], &[P]).map(drop),
        |with, scratch| verdict::verdict_within_with(with, &[P], &[P], scratch).map(drop),
        |with, _| verdict::verdict_line_with(with, &[P], &[P], &mut []).map(drop),
        |with, _| verdict::verdict_line_alone_with(with, &[P], &[P], &mut []).map(drop),
        |with, scratch| verdict::verdict_line_within_with(with, &[P], &[P], &mut [], scratch).map(drop),
        |with, _| verdict::verdict_text_with(with, &[P], &[P]).map(drop),
        |with, counters| segment::charge_with(with, &[P], counters),
        |with, copy| segment::look_with(with, &[P], &[P], copy, &mut []),
        |with, out| month::month_with(with, &[P], out),
        |with, _| Month::with(with, &[P]).map(drop),
    ];
    for rounds in [0, 25, 1 << 32, u64::MAX] {
        for (place, call) in calls.into_iter().enumerate() {
            let mut lent = [GUARD; 2];
            let answer = call(Parameters::default().rounds(rounds).floor(5).shipped(), &mut lent);
            assert_eq!(
                (answer, lent),
                (Err(Refusal::Rounds { rounds }), [GUARD; 2]),
                "call {place}"
            );
        }
    }
}

/// The zero state by 24 rounds and by the last alone, each in its place; and what is refused.
#[test]
fn permutation_calls() {
    let mut state = [0; permutation::LANES + 1];
    state[25] = GUARD;
    assert_eq!(permutation::keccak_f(&mut state), Ok(()));
    assert_eq!(
        (state[0], state[24], state[25]),
        (0xF125_8F79_40E1_DDE7, 0xEAF1_FF7B_5CEC_A249, GUARD)
    );
    let permuted = state;
    let short = permutation::keccak_f(&mut state[..24]);
    assert_eq!((short, state), (Err(too_short("state", 25)), permuted));
    for rounds in [0, 25, u64::MAX] {
        let parameters = Parameters::default().rounds(rounds);
        let refused = permutation::keccak_f_with(parameters, &mut state[..24]);
        assert_eq!((refused, state), (Err(Refusal::Rounds { rounds }), permuted));
    }
    let mut state = [0; permutation::LANES];
    assert_eq!(
        permutation::keccak_f_with(Parameters::default().rounds(1), &mut state),
        Ok(())
    );
    assert_eq!((state[0], state[1..].iter().sum::<u64>()), (0x8000_0000_8000_8008, 0));
}

/// Two blocks, their digest, and what is judged; lengths about a block's, and every refusal.
#[test]
fn message_calls() {
    let page = [0xA3; 200];
    let mut ops = [GUARD; 2 * OP_WORDS + 1];
    let written = message::message_operations(&page, 4096, 5, &mut ops);
    assert_eq!((written, ops[2 * OP_WORDS]), (Ok(2), GUARD));
    let list = &ops[..2 * OP_WORDS];
    let of = [&list[..OP_WORDS], &list[OP_WORDS..]].map(|words| Operation::from_words(words.try_into().expect("one")));
    let [first, second] = of.map(|operation| operation.expect("an operation"));
    assert_eq!((first.timestamp, first.address, first.segment), (5, 4096, 0));
    assert_eq!((second.timestamp, second.address, second.segment), (6, 4096, 0));
    assert_eq!((first.input[0], first.input[17]), (0xA3A3_A3A3_A3A3_A3A3, 0));
    assert_eq!(second.input[17..], first.output[17..]);

    let digest = message::Digest::new(&page, 4096, 5).expect("a digest");
    assert_eq!(digest.list(), list);
    let published = "79f38adec5c20307a98ef76e8324afbfd46cfd81b22e3973c65fa1bd9de31787";
    assert_eq!((digest.to_string().as_str(), digest.bytes()[31]), (published, 0x87));
    let (core, round) = (keccak::keccak_table(list), keccak_rnd::keccak_rnd_table(list));
    let verdict = verdict::verdict(&core.expect("a table"), &round.expect("a table"));
    assert_eq!(verdict, Ok(Verdict::Holds { active: 2 }));

    assert_eq!(message::judge_message(&page, list), Ok(true));
    assert_eq!(message::judge_message(&page[1..], list), Ok(false));
    assert_eq!(message::judge_message(&page, &[]), Ok(false));
    for (bytes, operations) in [(0, 1), (135, 1), (136, 2), (137, 2), (271, 2), (272, 3), (65_536, 482)] {
        assert_eq!(message::operation_count(bytes), operations);
    }
    let most = vec![7; message::MAX_MESSAGE + 1];
    assert_eq!(
        message::message_operations(&most[1..], 8, 0, &mut vec![0; 482 * OP_WORDS]),
        Ok(482)
    );

    let refused =
        |message: &[u8], address, timestamp| message::message_operations(message, address, timestamp, &mut [0; 105]);
    let (long, late) = (
        Refusal::LongMessage { length: 65_537 },
        Refusal::LateTimestamp { timestamp: u64::MAX },
    );
    assert_eq!(refused(&most, 1, u64::MAX), Err(long));
    assert_eq!(refused(&page, 1, u64::MAX), Err(late));
    assert_eq!(refused(&page, 1, u64::MAX - 1), Err(too_short("ops", 106)));
    assert_eq!(refused(b"", 4100, u64::MAX), Err(Refusal::Unaligned { address: 4100 }));
    assert_eq!(
        refused(b"", u64::MAX, 0),
        Err(Refusal::HighAddress { address: u64::MAX })
    );
    assert_eq!(message::Digest::new(&most, 1, u64::MAX), Err(long));
    assert_eq!(message::judge_message(&most, &list[1..]), Err(long));
    assert_eq!(message::judge_message(&page, &list[1..]), Err(not_whole("ops")));
    let changed = |place: usize, word| {
        let mut changed = list.to_vec();
        changed[place] = word;
        message::judge_message(&page, &changed)
    };
    assert_eq!(changed(0, u64::MAX), Ok(false));
    assert_eq!(changed(OP_WORDS + 1, 4100), Err(Refusal::Unaligned { address: 4100 }));
    assert_eq!(changed(SEGMENT_WORD, 1), Ok(false));
    assert_eq!(changed(SEGMENT_WORD, 1 << 32), Err(Refusal::Segment { word: 1 << 32 }));
}

type OnOperations = fn(&[u64]) -> Result<(), Refusal>;

/// Everything that takes operations, for a list of two.
const ON_OPERATIONS: [OnOperations; 15] = [
    |ops| message::judge_message(b"", ops).map(drop),
    |ops| registers::charge(0, ops, &mut vec![0; bitwise::NUM_COUNTERS], &mut [0; 10]),
    |ops| RegisterLook::new(0, ops, &vec![0; bitwise::NUM_COUNTERS], &[0; 10]).map(drop),
    |ops| segment::charge(ops, &mut vec![0; bitwise::NUM_COUNTERS]),
    |ops| segment::Look::new(ops, &vec![0; bitwise::NUM_COUNTERS]).map(drop),
    |ops| keccak::keccak_row(ops, 0, &mut [0; 486]),
    |ops| keccak::generate_keccak_trace(ops, &mut [0; 4 * 486]),
    |ops| keccak::keccak_rows(ops, &mut [0; 2 * 486]),
    |ops| keccak::keccak_table(ops).map(drop),
    |ops| keccak::is_wh_keys(ops, &mut [0; 100]),
    |ops| keccak_rnd::generate_keccak_rnd_trace(ops, &mut vec![0; 64 * 1480]),
    |ops| keccak_rnd::keccak_rnd_rows(ops, &mut vec![0; 48 * 1480]),
    |ops| keccak_rnd::keccak_rnd_table(ops).map(drop),
    |ops| IsWhRows::of_operations(ops).map(drop),
    |ops| operation_file::write_operations(ops, &mut [0; 2 * operation_file::SEGMENT_RECORD_BYTES]),
];

/// The highest accepted address, the next multiple of 8, what is between them; and of several that are refused, the first that is too high
/// before any that is no multiple of 8.
#[test]
fn addresses_on_and_off_the_eight() {
    let high = |address| Err(Refusal::HighAddress { address });
    let unaligned = |address| Err(Refusal::Unaligned { address });
    for (addresses, answer) in [
        ([18_446_744_073_709_551_416, 0], Ok(())),
        ([18_446_744_073_709_551_424, 0], high(18_446_744_073_709_551_424)),
        ([18_446_744_073_709_551_423, 0], unaligned(18_446_744_073_709_551_423)),
        ([8, 4100], unaligned(4100)),
        ([4100, 1], unaligned(4100)),
        ([4100, u64::MAX], high(u64::MAX)),
        ([u64::MAX, 4100], high(u64::MAX)),
    ] {
        let list = Operation::list(&addresses.map(|address| Operation { address, ..operation() }));
        for (place, call) in ON_OPERATIONS.into_iter().enumerate() {
            assert_eq!(call(&list), answer, "call {place}, {addresses:?}");
        }
        // What is not whole or too short comes first.
        assert_eq!(
            keccak::keccak_rows(&list[..2 * OP_WORDS - 1], &mut []),
            Err(not_whole("ops"))
        );
        assert_eq!(keccak::is_wh_keys(&list, &mut [0; 99]), Err(too_short("out", 100)));
    }
}

/// Segment numbers of 32 bits, and words of more: the first such word is told, after every address that is refused. No row depends on them.
#[test]
fn segment_words_of_32_bits() {
    let (last, wide) = (u64::from(u32::MAX), |word| Err(Refusal::Segment { word }));
    let unaligned = Err(Refusal::Unaligned { address: 4100 });
    let high = Err(Refusal::HighAddress { address: u64::MAX });
    for (address, segments, answer) in [
        (8, [last, 7], Ok(())),
        (8, [last + 1, 0], wide(last + 1)),
        (8, [0, u64::MAX], wide(u64::MAX)),
        (8, [1 << 40, last + 1], wide(1 << 40)),
        (4100, [last + 1, 0], unaligned),
        (u64::MAX, [last + 1, 0], high),
    ] {
        let mut list = Operation::list(&[operation(), Operation { address, ..operation() }]);
        list[SEGMENT_WORD] = segments[0];
        list[OP_WORDS + SEGMENT_WORD] = segments[1];
        for (place, call) in ON_OPERATIONS.into_iter().enumerate() {
            assert_eq!(call(&list), answer, "call {place}, at {address}, {segments:?}");
        }
        // What is not whole or too short comes first.
        assert_eq!(keccak::keccak_rows(&list[1..], &mut []), Err(not_whole("ops")));
        assert_eq!(keccak::is_wh_keys(&list, &mut [0; 99]), Err(too_short("out", 100)));
    }
    // And 5 later.
    let mut words = operation().words();
    words[SEGMENT_WORD] = last + 1;
    let mut counters = vec![P; bitwise::NUM_COUNTERS];
    assert_eq!(segment::charge(&words, &mut counters), wide(last + 1));
    assert_eq!(Operation::from_words(&words), Err(Refusal::Segment { word: last + 1 }));
    words[SEGMENT_WORD] = last;
    assert_eq!(segment::charge(&words, &mut counters), Err(not_element("counters", 0)));
    let of = Operation::from_words(&words).expect("an operation");
    assert_eq!((of.segment, of.words()), (u32::MAX, words));
    assert_eq!(keccak::keccak_table(&words), keccak::keccak_table(&operation().words()));
    assert_eq!(
        keccak_rnd::keccak_rnd_table(&words),
        keccak_rnd::keccak_rnd_table(&operation().words())
    );
}

/// A table in memory of its own, as the call on the whole list writes it: of lists that are written on all cores and of one
/// operation fewer; and refused as that call refuses.
#[test]
fn tables_on_all_cores_are_those_of_one_call() {
    type Table = fn(&[u64]) -> Result<Vec<u64>, Refusal>;
    type Call = fn(&[u64], &mut [u64]) -> Result<(), Refusal>;
    let core: (Table, Call) = (keccak::keccak_table, keccak::generate_keccak_trace);
    let round: (Table, Call) = (keccak_rnd::keccak_rnd_table, keccak_rnd::generate_keccak_rnd_trace);
    for ((table, call), n) in [
        (core, 1078),
        (core, 1079),
        (core, 5001),
        (round, 14),
        (round, 15),
        (round, 100),
    ] {
        let at = |at| Operation {
            timestamp: at,
            input: [at; 25],
            ..operation()
        };
        let mut list: Vec<u64> = (0..n).flat_map(|i| at(i).words()).collect();
        let written = table(&list).expect("a table");
        let mut expected = vec![GUARD; written.len()];
        assert_eq!(call(&list, &mut expected), Ok(()));
        assert!(written == expected, "{n} operations");
        // Two addresses off the eight, then two high ones, in the last part and in the first: the first is told.
        for (i, address) in [(n - 1, 4100), (n / 4, 1)] {
            list[i as usize * OP_WORDS + 1] = address;
            assert_eq!(table(&list), Err(Refusal::Unaligned { address }));
        }
        for (i, address) in [(n - 1, u64::MAX), (n / 3, u64::MAX - 1)] {
            list[i as usize * OP_WORDS + 1] = address;
            assert_eq!(table(&list), Err(Refusal::HighAddress { address }));
        }
        assert_eq!(table(&list[1..]), Err(not_whole("ops")));
    }
}

#[test]
fn round_value_and_tuple_calls() {
    let mut row = round_row();
    let mut values = [GUARD; keccak_rnd::NUM_VALUES + 1];
    assert_eq!(keccak_rnd::round_values(&row, &mut values), Ok(()));
    assert_eq!((&values[..141], values[141]), (&[0; 141][..], GUARD));

    let mut out = [GUARD; keccak_rnd::MAX_TUPLE_LENGTH];
    let answer = keccak_rnd::bus_interaction(&row, 0, &mut out);
    assert_eq!(answer, received(Bus::Keccak, 203, 1));
    assert_eq!(out[0], 5);
    let mut all = vec![GUARD; keccak_rnd::TUPLE_WORDS + 1];
    assert_eq!(keccak_rnd::bus_interactions(&row, &mut all), Ok(()));
    assert_eq!((&all[..4], &all[4..207]), (&[5, 1, 203, 1][..], &out[..]));
    assert_eq!(all[8211], GUARD);
    assert_eq!(tuples(&all[..8211]).count(), keccak_rnd::NUM_TUPLES);

    row[1479] = P;
    let refused = Err(not_element("row", 1479));
    assert_eq!(keccak_rnd::bus_interactions(&row, &mut all), refused);
    assert_eq!(keccak_rnd::round_values(&row, &mut values), refused);
    assert_eq!(keccak_rnd::bus_interaction(&row, 0, &mut out).map(drop), refused);
}

#[test]
fn verdict_calls() {
    let list = operation().words();
    let mut core = keccak::keccak_table(&list).expect("a core table");
    let round = keccak_rnd::keccak_rnd_table(&list).expect("a round table");
    let unbalanced = verdict::verdict(&core, &round).expect("a verdict");
    assert!(
        matches!(
            unbalanced,
            Verdict::Unbalanced {
                table: Table::Core,
                row: 0,
                ..
            }
        ),
        "{unbalanced}"
    );
    let last = &round[23 * keccak_rnd::NUM_COLUMNS..];
    core[210..218].copy_from_slice(&last[1471..1479]);
    core[218..410].copy_from_slice(&last[1271..1463]);
    assert!(!unbalanced.holds());
    assert_eq!(verdict::verdict(&core, &round), Ok(Verdict::Holds { active: 1 }));
    let refused = verdict::verdict(&core, &round[1..]);
    assert_eq!(
        refused,
        Err(Refusal::NotWhole {
            argument: "round",
            which: Lent::Round
        })
    );

    let mut line = [0xA5; verdict::LINE_MOST];
    assert_eq!(verdict::verdict_line(&core, &round, &mut line), Ok(7));
    assert_eq!((&line[..7], line[7]), (&b"holds 1"[..], 0xA5));
    let refused = verdict::verdict_line(&core, &round, &mut line[..6]);
    assert_eq!(
        refused,
        Err(Refusal::TooShort {
            argument: "line",
            needed: 7
        })
    );
    core[210] ^= 1;
    let text = verdict::verdict_text(&core, &round).expect("a line");
    let words: Vec<&str> = text.split(' ').collect();
    assert_eq!(
        words[..9],
        ["core", "row", "0", "balance", "3", "Keccak", "5", "0", "24"]
    );
    assert_eq!((words.len(), words[9]), (6 + 203, core[210].to_string().as_str()));
}

/// The verdict and its line without memory of their own, and in a scratch: what it holds afterwards, and which slice is too short.
#[test]
fn verdicts_in_lent_memory() {
    let list = operation().words();
    let mut core = keccak::keccak_table(&list).expect("a core table");
    let round = keccak_rnd::keccak_rnd_table(&list).expect("a round table");
    let answer = verdict::verdict(&core, &round);
    assert_eq!(verdict::verdict_alone(&core, &round), answer);
    let needed = verdict::scratch_words(&core, &round);
    assert_eq!((needed, verdict::scratch_words(&core[1..], &[])), (4 * 36, 4 * 3));
    let mut scratch = vec![GUARD; needed + 1];
    let used = [vec![0; needed], vec![GUARD]].concat();
    assert_eq!(verdict::verdict_within(&core, &round, &mut scratch), answer);
    assert_eq!(scratch, used);

    let text = verdict::verdict_text(&core, &round).expect("a line");
    let mut line = [0xA5; verdict::LINE_MOST];
    let length = verdict::verdict_line_alone(&core, &round, &mut line);
    assert_eq!((length, &line[..text.len()]), (Ok(text.len()), text.as_bytes()));
    let (mut line, mut scratch) = ([0xA5; verdict::LINE_MOST], vec![GUARD; needed + 1]);
    let length = verdict::verdict_line_within(&core, &round, &mut line, &mut scratch);
    assert_eq!((length, &line[..text.len()]), (Ok(text.len()), text.as_bytes()));
    assert_eq!((line[text.len()], &scratch), (0xA5, &used));

    // A line that may turn out too short is refused before anything is judged, then a scratch.
    scratch.fill(GUARD);
    let short = too_short("line", verdict::LINE_MOST as u64);
    for room in [0, needed - 1, needed] {
        let refused = verdict::verdict_line_within(&core, &round, &mut line[1..], &mut scratch[..room]);
        assert_eq!(refused, Err(short), "{room} words");
    }
    core[7] = P;
    for room in [0, 1, needed / 2 - 1, needed / 2, needed - 1] {
        let short = Err(too_short("scratch", needed as u64));
        let refused = verdict::verdict_within(&core, &round, &mut scratch[..room]);
        assert_eq!(refused.map(drop), short, "{room} words");
        let refused = verdict::verdict_line_within(&core, &round, &mut line, &mut scratch[..room]);
        assert_eq!(refused.map(drop), short, "{room} words");
    }
    let refused = verdict::verdict_within(&core, &round, &mut scratch);
    assert_eq!(refused, Err(not_element("core", 7)));
    assert!(scratch.iter().all(|&word| word == GUARD));
    assert_eq!((&line[..text.len()], line[text.len()]), (text.as_bytes(), 0xA5));
}

/// Tables of twelve rounds, judged by their own number and by others.
#[test]
fn verdicts_by_rounds() {
    let list = operation().words();
    let twelve = twelve();
    let mut core = keccak::keccak_table(&list).expect("a core table");
    let round = keccak_rnd::keccak_rnd_table_with(twelve, &list).expect("a round table");
    let last = &round[11 * keccak_rnd::NUM_COLUMNS..];
    core[210..218].copy_from_slice(&last[1471..1479]);
    core[218..410].copy_from_slice(&last[1271..1463]);
    assert_eq!(
        verdict::verdict_with(twelve, &core, &round),
        Ok(Verdict::Holds { active: 1 })
    );
    assert_eq!(
        verdict::verdict_text_with(twelve, &core, &round),
        Ok("holds 1".to_string())
    );
    let mut scratch = vec![GUARD; verdict::scratch_words(&core, &round)];
    for rounds in [1, 11, 13, 24] {
        let parameters = Parameters::default().rounds(rounds);
        let answer = verdict::verdict_with(parameters, &core, &round);
        let (table, row, index) = (Table::Core, 0, 2);
        assert_eq!(answer, Ok(Verdict::Unbalanced { table, row, index }), "{rounds}");
        assert_eq!(verdict::verdict_alone_with(parameters, &core, &round), answer);
        assert_eq!(
            verdict::verdict_within_with(parameters, &core, &round, &mut scratch),
            answer
        );
        let begins = format!("core row 0 balance 2 Keccak 5 0 {} 0 0 ", 24 - rounds);
        let text = verdict::verdict_text_with(parameters, &core, &round).expect("a line");
        assert!(text.starts_with(&begins), "{text}");
        let mut line = [0xA5; verdict::LINE_MOST];
        let length = verdict::verdict_line_with(parameters, &core, &round, &mut line);
        assert_eq!((length, &line[..text.len()]), (Ok(text.len()), text.as_bytes()));
        let alone = verdict::verdict_line_alone_with(parameters, &core, &round, &mut line);
        let within = verdict::verdict_line_within_with(parameters, &core, &round, &mut line, &mut scratch);
        assert_eq!((alone, within), (length, length));
    }
    assert_eq!(
        verdict::verdict(&core, &round),
        verdict::verdict_with(Parameters::default(), &core, &round)
    );
}

/// Two segments of one call each, of twelve rounds: as written, with the second's first round row filed with the first, and refused.
#[test]
fn job_calls() {
    let (mut core, mut round) = (vec![], vec![]);
    for timestamp in [5, 6] {
        let list = Operation {
            timestamp,
            ..operation()
        }
        .words();
        let mut rows = keccak::keccak_table(&list).expect("a core table");
        let rounds = keccak_rnd::keccak_rnd_table_with(twelve(), &list).expect("a round table");
        let last = &rounds[11 * keccak_rnd::NUM_COLUMNS..];
        rows[210..218].copy_from_slice(&last[1471..1479]);
        rows[218..410].copy_from_slice(&last[1271..1463]);
        core.extend(rows);
        round.extend(rounds);
    }
    let mut report = [GUARD; 13];
    let counts = [4, 16, 4, 16];
    assert_eq!(job::job_with(twelve(), &core, &round, &counts, &mut report), Ok(()));
    assert_eq!(report, [0, 1, 0, 0, 0, 1, 0, 0, 0, 2, 0, 0, GUARD]);
    let alone = |report: &mut [u64]| job::job_alone_with(twelve(), &core, &round, &counts, report);
    let within = |report: &mut [u64], scratch: &mut [u64]| {
        job::job_within_with(twelve(), &core, &round, &counts, report, scratch)
    };
    forms_of_a_job(&report, 4 * (8 + 32), alone, within);
    let own = Report::with(twelve(), &core, &round, &counts).expect("a report");
    assert_eq!(
        (own.words(), own.holds(), own.segments().len()),
        (&report[..12], true, 2)
    );

    // The row stands in the first segment behind its own 16, and nobody takes INPUT in the second.
    let own = Report::with(twelve(), &core, &round, &[4, 17, 4, 15]).expect("a report");
    let unbalanced = |table, row, index| Verdict::Unbalanced { table, row, index };
    assert!(
        own.segments()
            .eq([unbalanced(Table::Round, 16, 0), unbalanced(Table::Core, 0, 2)])
    );
    assert_eq!((own.job(), own.holds()), (Verdict::Holds { active: 2 }, false));

    // By 24 rounds nothing takes INPUT anywhere.
    assert_eq!(job::job(&core, &round, &counts, &mut report), Ok(()));
    assert_eq!(report[..12], [6, 0, 0, 2].repeat(3));
    let alone = |report: &mut [u64]| job::job_alone(&core, &round, &counts, report);
    let within = |report: &mut [u64], scratch: &mut [u64]| job::job_within(&core, &round, &counts, report, scratch);
    forms_of_a_job(&report, 4 * (8 + 32), alone, within);
    assert_eq!(
        Report::new(&core, &round, &counts).map(|own| own.job()),
        Ok(unbalanced(Table::Core, 0, 2))
    );

    assert_eq!(
        Report::new(&[], &[], &[]).map(|own| own.words().to_vec()),
        Ok(vec![0; 4])
    );
    report.fill(GUARD);
    for counts in [&[4, 16, 4][..], &[8, 16], &[8, 32, u64::MAX, 0, 1, 0], &[9, 31]] {
        let refused = job::job(&core, &round, counts, &mut report);
        assert_eq!(refused, Err(not_whole("counts")), "{counts:?}");
    }
    let refused = job::job(&core, &round, &counts, &mut report[..11]);
    assert_eq!((refused, report), (Err(too_short("report", 12)), [GUARD; 13]));
    round[7] = P;
    let refused = job::job(&core, &round, &counts, &mut report);
    assert_eq!((refused, report), (Err(not_element("round", 7)), [GUARD; 13]));
}

/// The report of a job without memory of its own, and in a scratch of so many words: which slice is too short, and what both hold afterwards.
fn forms_of_a_job(
    expected: &[u64; 13],
    needed: usize,
    alone: impl Fn(&mut [u64]) -> Result<(), Refusal>,
    within: impl Fn(&mut [u64], &mut [u64]) -> Result<(), Refusal>,
) {
    let mut report = [GUARD; 13];
    assert_eq!((alone(&mut report), &report), (Ok(()), expected));
    assert_eq!(alone(&mut report[..11]), Err(too_short("report", 12)));
    let (mut report, mut scratch) = ([GUARD; 13], vec![GUARD; needed + 1]);
    assert_eq!(within(&mut report[..11], &mut []), Err(too_short("report", 12)));
    for room in [0, needed / 2 - 1, needed / 2, needed - 1] {
        let refused = within(&mut report, &mut scratch[..room]);
        assert_eq!(refused, Err(too_short("scratch", needed as u64)), "{room} words");
    }
    assert_eq!((report, &scratch), ([GUARD; 13], &vec![GUARD; needed + 1]));
    assert_eq!((within(&mut report, &mut scratch), &report), (Ok(()), expected));
    assert_eq!(scratch, [vec![0; needed], vec![GUARD]].concat());
}

#[test]
fn file_calls() {
    let list = operation().words();
    let mut file = [0xA5; operation_file::RECORD_BYTES + 1];
    assert_eq!(operation_file::write_operations(&list, &mut file), Ok(()));
    assert_eq!((&file[..3], file[418]), (&[0x4B, 0x4F, 5][..], 0xA5));
    let refused = operation_file::write_operations(&list, &mut file[..417]);
    assert_eq!(refused, Err(too_short("file", 418)));

    let mut read = [GUARD; OP_WORDS + 1];
    assert_eq!(operation_file::read_operations(&file[..418], &mut read), Ok(()));
    assert_eq!((&read[..OP_WORDS], read[OP_WORDS]), (&list[..], GUARD));
    let refused = operation_file::read_operations(&file, &mut read);
    assert_eq!(refused, Err(Refusal::BadRecord { start: 418 }));

    let mut tally = Tally::default();
    tally.feed(&file[..13]);
    assert_eq!(tally.clone().finish(), Err(Refusal::BadRecord { start: 0 }));
    tally.feed(&file[13..418]);
    assert_eq!(tally.fault(), None);
    let sums = tally.clone().finish().expect("sums");
    assert_eq!((sums.ops, sums.byte_alu, sums.are_bytes), (1, 19_393, 7_044));
    assert_eq!((sums.lines()[4], sums.lines()[9]), (("AreBytes", 7_044), ("Ecall", 1)));
    assert!(sums.to_string().ends_with("\nMemw 26\nEcall 1\n"), "{sums}");
    // The rounds are not looked at: the sums are those of 24.
    for rounds in [12, 99] {
        assert_eq!(
            tally.clone().finish_with(Parameters::default().rounds(rounds)),
            Ok(sums)
        );
    }

    // A record off the eight is counted, and left out of everything else; it has its place in the file.
    file[10] += 4;
    tally.feed(&file[..418]);
    let with_another = tally.clone().finish().expect("sums");
    assert_eq!((with_another.lines(), with_another.unaligned), (sums.lines(), 1));
    assert_eq!(with_another.to_string(), sums.to_string() + "unaligned 1\n");
    assert_eq!(operation_file::read_operations(&file[..418], &mut read), Ok(()));
    assert_eq!(read[1], list[1] + 4);
    tally.feed(&[0]);
    assert_eq!(tally.fault(), Some(Refusal::BadRecord { start: 836 }));
    let empty = |parameters| {
        Tally::new()
            .finish_with(parameters)
            .map(|sums| (sums.core_rows, sums.are_bytes))
    };
    assert_eq!(empty(Parameters::default()), Ok((4, 0)));
    let shipped = Parameters::default().shipped();
    assert_eq!(empty(shipped), Ok((4, 880)));
    assert_eq!(empty(shipped.floor(65_536)), Ok((65_536, 65_536 * 220)));
    assert_eq!(empty(Parameters::default().floor(8)), Ok((8, 0)));
}

/// A record of old, and one under 4B 50: where the next one starts, what is told, and both ways.
#[test]
fn numbered_records() {
    let numbered = Operation {
        segment: 0x0403_0201,
        ..operation()
    };
    let list = Operation::list(&[operation(), numbered]);
    assert_eq!(operation_file::file_bytes(&list), 418 + 422);
    let mut file = vec![0xA5; 418 + 422 + 1];
    let refused = operation_file::write_operations(&list, &mut file[..839]);
    assert_eq!(refused, Err(too_short("file", 840)));
    assert_eq!(operation_file::write_operations(&list, &mut file), Ok(()));
    assert_eq!(
        (&file[418..421], &file[836..]),
        (&[0x4B, 0x50, 5][..], &[1, 2, 3, 4, 0xA5][..])
    );
    let mut read = [0; 2 * OP_WORDS];
    assert_eq!(operation_file::read_operations(&file[..840], &mut read), Ok(()));
    assert_eq!(read[..], list[..]);
    let refused = operation_file::read_operations(&file, &mut read);
    assert_eq!(refused, Err(Refusal::BadRecord { start: 840 }));

    let mut tally = Tally::new();
    tally.feed(&file[..418]);
    assert_eq!(tally.clone().finish().expect("sums").segments(), None);
    tally.feed(&file[418..838]);
    assert_eq!(tally.clone().finish(), Err(Refusal::BadRecord { start: 418 }));
    tally.feed(&file[838..840]);
    let sums = tally.finish().expect("sums");
    assert_eq!(sums.segments(), Some((0, 0x0403_0201)));
    assert!(sums.to_string().ends_with("\nEcall 2\nsegments 0 67305985\n"), "{sums}");
}

/// Two equal calls and a third, in the file under both marks and with one off the eight: the same in any order, and what is left over; then
/// each refusal, that of the table first.
#[test]
fn file_against_a_table() {
    let (first, second) = (
        operation(),
        Operation {
            timestamp: 1 << 33,
            ..operation()
        },
    );
    let numbered = Operation { segment: 7, ..first };
    let list = Operation::list(&[first, second, first]);
    let mut core = keccak::keccak_table(&list).expect("a table");
    let mut file = vec![0; 2 * 418 + 422];
    let ops = Operation::list(&[second, numbered, first]);
    assert_eq!(operation_file::write_operations(&ops, &mut file), Ok(()));
    let same = |core: &[u64], file: &[u8]| same_operations::same_operations(core, file);
    let answer = same(&core, &file).expect("an answer");
    assert!(answer.is_same() && answer.to_string() == "same");
    assert_eq!(same(&[], &[]), Ok(Agreement::Same));
    assert_eq!(same(&[], &file), Ok(Agreement::Record(0)));
    assert_eq!(same(&core, &file[..840]), Ok(Agreement::Row(2)));
    assert_eq!(same(&core, &file[418..]), Ok(Agreement::Row(1)));
    assert_eq!(
        same(&core, &[&file[..], &file[..418]].concat()),
        Ok(Agreement::Record(3))
    );

    // The first active row no longer counts, or has a byte that no record has; the pointers may be anything.
    core[keccak::cols::STATE_PTR..keccak::cols::MU].fill(7);
    assert_eq!(same(&core, &file), Ok(Agreement::Same));
    core[keccak::cols::MU] = 2;
    assert_eq!(same(&core, &file), Ok(Agreement::Record(2)));
    assert_eq!(same(&core, &file[..840]), Ok(Agreement::Same));
    core[keccak::cols::MU] = 1;
    core[keccak::cols::OUTPUT_STATE] = 256;
    assert_eq!(same(&core, &file), Ok(Agreement::Record(2)));
    assert_eq!(same(&core, &file[..840]), Ok(Agreement::Row(0)));
    // Off the eight a record is compared all the same.
    file[428] += 4;
    core[keccak::cols::OUTPUT_STATE] = 0;
    assert_eq!(same(&core, &file), Ok(Agreement::Record(1)));
    core[keccak::cols::ADDR] += 4;
    assert_eq!(same(&core, &file), Ok(Agreement::Same));

    file[..2].fill(0);
    core[9] = P;
    let whole = Refusal::NotWhole {
        argument: "core",
        which: Lent::Core,
    };
    assert_eq!(same(&core[1..], &file), Err(whole));
    assert_eq!(same(&core, &file), Err(not_element("core", 9)));
    core[9] = 0;
    assert_eq!(same(&core, &file), Err(Refusal::BadRecord { start: 0 }));
    file[..2].copy_from_slice(b"KO");
    assert_eq!(same(&core, &file[..1257]), Err(Refusal::BadRecord { start: 840 }));
    file[10..18].fill(0xFF);
    assert_eq!(
        same(&core, &file[..1257]),
        Err(Refusal::HighAddress { address: u64::MAX })
    );
}

/// Each public function of the modules on tables stands in this file by its module's name, each method by its own.
#[test]
fn none_is_left_out() {
    let here = include_str!("every_call.rs");
    let mut functions = 0;
    for module in [
        "bitwise",
        "is_wh",
        "job",
        "keccak",
        "keccak_rc",
        "keccak_rnd",
        "message",
        "month",
        "operation_file",
        "permutation",
        "registers",
        "same_operations",
        "segment",
        "verdict",
    ] {
        let source = interface::host_source(&format!("{module}.rs"));
        for line in source.replace("pub const fn", "pub fn").lines() {
            if let Some(function) = line.strip_prefix("pub fn ") {
                let name = function.split('(').next().expect("a name");
                assert!(here.contains(&format!(" {module}::{name}(")) || here.contains(&format!("({module}::{name}(")));
                functions += 1;
            } else if let Some(method) = line.strip_prefix("    pub fn ") {
                let name = method.split('(').next().expect("a name");
                assert!(
                    here.contains(&format!(".{name}(")) || here.contains(&format!("::{name}(")),
                    "{name}"
                );
                functions += 1;
            }
        }
    }
    // Those of the archive; two more that allocate a table, a verdict's `holds` and its text, a reader's fault, its sums by parameters, their
    // lines and their segment numbers, the bytes of a list's file, a counter by its kind, once or n times, a kind's number and name, a lookup's words and a list of them, the five of rows of keys,
    // a charge and a look by parameters, and the four of a look of its own; and by parameters again a core row's tuple and its tuples, three of
    // the core table, five of the round table, the constants' multiplicities, a verdict, its line and its text; of registers, how many are in
    // use, both calls by parameters, and the four of a look of its own; a job by parameters and the six of a report of its own; the operations of so many
    // bytes, and the three of a digest; a month by parameters and the three of a month by its names; whether a file and
    // a table are the same; the words of a scratch, and of a verdict, its line and a job the form without memory of its own, and by parameters
    // that and the one in lent memory; the permutation by parameters.
    assert_eq!(functions, interface::exports().len() + 74);
}
