//! Refusals of these calls: each condition about its edge, several at once, and every lent word as it was.
//!
//! The long slices are lent again and again, with a few words changed, and put back, for each call; that no refused call changed a
//! word is seen at the end, of all of them together.

use keccak_tables::bitwise::{NUM_COLUMNS, NUM_COUNTERS, TABLE_WORDS};
use keccak_tables::is_wh::{self, IsWhRows, MAX_KEYS};
use keccak_tables::{OP_WORDS, P, Refusal, SEGMENT_WORD, bitwise};

use crate::comparison::Comparison;
use crate::inputs::Words;
use crate::lent::Lent;
use crate::refusals::first;
use crate::untouched::Untouched;

/// The least number of keys or rows that is refused, which is the detail too.
const TOO_MANY_KEYS: u64 = MAX_KEYS as u64 + 1;

/// The refusals of the calls of this area.
pub fn compare(comparison: &mut Comparison, words: &mut Words) {
    super::operations::compare(comparison);
    comparison.group("refusals: the bitwise table, its multiplicities and counters");
    let mut long = Long::new(words);
    tables(comparison, &mut long);
    fills(comparison, &mut long);
    many_at_once(comparison, &mut long);
    merges(comparison, &mut long);
    lists(comparison, words, &mut long);
    comparison.group("refusals: keys, rows of keys and what they look up");
    keys(comparison, words);
    rows(comparison, words, &mut long);
    long.kept(comparison);
    own_memory(comparison, words);
    comparison.group("refusals: keys and rows about the limit");
    too_many(comparison, words);
}

/// A table, counters and other counters, each a word longer than it has to be.
struct Long {
    table: Lent,
    counters: Lent,
    other: Lent,
}

/// Words that are put into a slice: places and what stands there for one call.
pub(crate) type Spoilt<'a> = &'a [(usize, u64)];

impl Long {
    /// Every counter and every multiplicity is p - 1; the fixed columns are no elements.
    fn new(words: &mut Words) -> Self {
        let mut table = vec![u64::MAX; TABLE_WORDS + 1];
        for row in table[..TABLE_WORDS].chunks_exact_mut(NUM_COLUMNS) {
            row[bitwise::NUM_PRECOMPUTED_COLS..].fill(P - 1);
        }
        let mut counters = vec![P - 1; NUM_COUNTERS];
        counters.push(u64::MAX);
        Self {
            table: Lent::new(&table, words),
            counters: Lent::new(&counters, words),
            other: Lent::new(&counters, words),
        }
    }

    fn kept(&self, comparison: &mut Comparison) {
        self.table
            .kept(comparison, |place| format!("word {place} of the table that is refused"));
        self.counters
            .kept(comparison, |place| format!("counter {place} that is refused"));
        self.other
            .kept(comparison, |place| format!("other counter {place} that is refused"));
    }
}

/// Puts words into a slice, or puts back what was there: they change places.
fn exchange(slice: &mut [u64], spoilt: &mut [(usize, u64)]) {
    for (place, word) in spoilt {
        if let Some(there) = slice.get_mut(*place) {
            std::mem::swap(there, word);
        }
    }
}

/// A call with some words changed for the time of it.
pub(crate) fn spoiling<T>(slice: &mut Lent, spoilt: Spoilt, call: impl FnOnce(&mut [u64]) -> T) -> T {
    let mut spoilt = spoilt.to_vec();
    exchange(slice.slice(), &mut spoilt);
    let answer = call(slice.slice());
    spoilt.reverse();
    exchange(slice.slice(), &mut spoilt);
    answer
}

/// The first of these words, up to `end`, that is p or more.
pub(crate) fn first_not_element(spoilt: Spoilt, end: usize) -> Option<u64> {
    let places = spoilt.iter().filter(|(place, word)| *place < end && *word >= P);
    places.map(|(place, _)| *place as u64).min()
}

/// What may be wrong with counters: nothing, the first, one between, the last, two of them, a word past the last.
pub(crate) const SPOILT_COUNTERS: [Spoilt; 7] = [
    &[],
    &[(0, P)],
    &[(1_234_567, P + 1)],
    &[(NUM_COUNTERS - 1, u64::MAX)],
    &[(7_654_321, u64::MAX), (1_234_567, P)],
    &[(NUM_COUNTERS - 1, P), (0, P)],
    &[(NUM_COUNTERS, u64::MAX)],
];

/// One of them that is drawn; or nothing, so that a call which is to be accepted is among the tried.
fn drawn_or_none(words: &mut Words, none: bool) -> Spoilt<'static> {
    let drawn = words.below(7) as usize;
    SPOILT_COUNTERS[if none { 0 } else { drawn }]
}

/// Counters that are no elements: up to two of those that are charged, and sometimes one that is not; or nothing.
fn spoilt_among(words: &mut Words, charged: &[usize], none: bool) -> Vec<(usize, u64)> {
    if none {
        return vec![];
    }
    let uncharged = words.below(2) == 0;
    let mut spoilt = drawn_or_none(words, !uncharged).to_vec();
    for _ in 0..words.below(3) {
        if let Some(&place) = charged.get(words.below(charged.len().max(1) as u64) as usize)
            && spoilt.iter().all(|(other, _)| *other != place)
        {
            spoilt.push((place, [P - 1, P, u64::MAX][words.below(3) as usize]));
        }
    }
    spoilt
}

/// The first counter that is charged and is no element.
fn first_charged(spoilt: Spoilt, charged: &[usize]) -> Option<u64> {
    let read: Vec<(usize, u64)> = spoilt
        .iter()
        .filter(|(place, _)| charged.contains(place))
        .copied()
        .collect();
    first_not_element(&read, NUM_COUNTERS)
}

pub(crate) fn short(length: usize, needed: usize) -> (bool, u64, u64) {
    (length < needed, 3, needed as u64)
}

pub(crate) fn not_element(place: Option<u64>) -> (bool, u64, u64) {
    (place.is_some(), 5, place.unwrap_or(0))
}

fn tables(comparison: &mut Comparison, long: &mut Long) {
    for length in [0, 21, TABLE_WORDS - 1] {
        let answer = bitwise::generate_bitwise_trace(&mut long.table.slice()[..length]);
        let expected = first(&[short(length, TABLE_WORDS)]);
        let input = || format!("the bitwise table into {length} words");
        comparison.answered("generate_bitwise_trace", input, answer, expected);
    }
    // What it writes is compared elsewhere.
    let answer = bitwise::generate_bitwise_trace(&mut vec![0; TABLE_WORDS]);
    comparison.answered("generate_bitwise_trace", || "the bitwise table".into(), answer, None);
}

/// Where it is accepted, the multiplicities are what they were.
fn fills(comparison: &mut Comparison, long: &mut Long) {
    for counters in [0, NUM_COUNTERS - 1, NUM_COUNTERS, NUM_COUNTERS + 1] {
        for table in [0, TABLE_WORDS - 1, TABLE_WORDS] {
            for spoilt in SPOILT_COUNTERS {
                let expected = first(&[
                    short(counters, NUM_COUNTERS),
                    short(table, TABLE_WORDS),
                    not_element(first_not_element(spoilt, NUM_COUNTERS)),
                ]);
                let answer = spoiling(&mut long.counters, spoilt, |words| {
                    bitwise::fill_multiplicities(&words[..counters], &mut long.table.slice()[..table])
                });
                let input = || format!("{counters} counters, {spoilt:?} among them, into {table} words");
                comparison.answered("fill_multiplicities", input, answer, expected);
            }
        }
    }
}

/// As one lookup; the counters beside the charged one are not read.
fn many_at_once(comparison: &mut Comparison, long: &mut Long) {
    for (kind, z) in [(0, 0), (9, 15), (10, 15), (9, 16), (10, 16), (usize::MAX, 255)] {
        for length in [0, NUM_COUNTERS - 1, NUM_COUNTERS, NUM_COUNTERS + 1] {
            for word in [P - 1, P, u64::MAX] {
                let place = (52 + 256 * 18 + 65_536 * usize::from(z)) * 10 + kind.min(9);
                let spoilt = [(0, u64::MAX), (place, word)];
                let expected = first(&[
                    (kind >= 10, 1, 10),
                    (z >= 16, 1, 16),
                    short(length, NUM_COUNTERS),
                    (word >= P, 5, place as u64),
                ]);
                // Nothing is added, so that the counter can be put back.
                for n in [0, P] {
                    let answer = spoiling(&mut long.counters, &spoilt, |counters| {
                        bitwise::bump_n_numbered(&mut counters[..length], kind, 52, 18, z, n)
                    });
                    let input =
                        || format!("{n} lookups of kind {kind}, z = {z}, {length} counters, which holds {word}");
                    comparison.answered("bump_n", input, answer, expected);
                }
            }
        }
    }
}

fn merges(comparison: &mut Comparison, long: &mut Long) {
    for (length, others) in [
        (0, 0),
        (0, NUM_COUNTERS),
        (NUM_COUNTERS, NUM_COUNTERS - 1),
        (NUM_COUNTERS - 1, NUM_COUNTERS - 1),
        (NUM_COUNTERS, NUM_COUNTERS),
    ] {
        for spoilt in SPOILT_COUNTERS {
            for other in [
                SPOILT_COUNTERS[0],
                SPOILT_COUNTERS[1],
                SPOILT_COUNTERS[4],
                SPOILT_COUNTERS[6],
            ] {
                let expected = first(&[
                    short(length, NUM_COUNTERS),
                    short(others, NUM_COUNTERS),
                    not_element(first_not_element(spoilt, NUM_COUNTERS)),
                    not_element(first_not_element(other, NUM_COUNTERS)),
                ]);
                if expected.is_none() {
                    continue;
                }
                let answer = spoiling(&mut long.counters, spoilt, |counters| {
                    spoiling(&mut long.other, other, |others_slice| {
                        bitwise::merge(&mut counters[..length], &others_slice[..others])
                    })
                });
                let input = || format!("{length} counters {spoilt:?} and {others} others {other:?}");
                comparison.answered("merge", input, answer, expected);
            }
        }
    }
    let answer = bitwise::merge(&mut vec![0; NUM_COUNTERS], &vec![P - 1; NUM_COUNTERS]);
    comparison.answered("merge", || "two sets of counters".into(), answer, None);
}

/// The first lookup of a list whose kind or Z is past its end.
fn past_end(ops: &[u64]) -> Option<(u64, u64)> {
    ops.chunks_exact(4)
        .find_map(|lookup| first(&[(lookup[0] >= 10, 1, 10), (lookup[3] >= 16, 1, 16)]))
}

/// The first X or Y of a list that is no byte.
fn no_byte(ops: &[u64]) -> Option<u64> {
    let bytes = ops
        .iter()
        .enumerate()
        .filter(|(place, _)| [1, 2].contains(&(place % 4)));
    bytes
        .into_iter()
        .find(|(_, word)| **word >= 256)
        .map(|(place, _)| place as u64)
}

/// Lists of three lookups, of which one or two have a word past its end, whole or not, on slices short or not, some of whose words
/// are no elements. The list that is accepted is the empty one, which adds nothing.
fn lists(comparison: &mut Comparison, words: &mut Words, long: &mut Long) {
    let honest = [9, 255, 255, 15, 0, 0, 0, 0, 5, 1, 2, 3];
    let mut cases: Vec<Vec<u64>> = vec![vec![], honest.to_vec()];
    for place in 0..12 {
        for word in [9, 10, 15, 16, 255, 256, 1 << 32, u64::MAX] {
            let mut ops = honest.to_vec();
            ops[place] = word;
            cases.push(ops.clone());
            ops[words.below(12) as usize] = [10, 16, 256, u64::MAX][words.below(4) as usize];
            cases.push(ops);
        }
    }
    for ops in &cases {
        for past in [0, 1, 3] {
            // What is past the last lookup is not read.
            let mut list = ops.clone();
            list.extend(vec![u64::MAX; past]);
            let on = OnLookups {
                ops: &list,
                whole: ops.len(),
            };
            for which in 0..6 {
                let spoilt = spoilt_among(words, &on.charged(), which == 2);
                on.counters(comparison, words, long, which, &spoilt);
                on.table(comparison, words, long, which, &spoilt);
            }
        }
    }
}

/// A list of lookups, of which so many words are whole.
struct OnLookups<'a> {
    ops: &'a [u64],
    whole: usize,
}

impl OnLookups<'_> {
    /// The counters of its lookups.
    fn charged(&self) -> Vec<usize> {
        let counter = |lookup: &[u64]| ((lookup[1] + 256 * lookup[2] + 65_536 * lookup[3]) * 10 + lookup[0]) as usize;
        let lookups = self.ops[..self.whole].chunks_exact(4);
        let sound = lookups.filter(|word| word[0] < 10 && word[1] < 256 && word[2] < 256 && word[3] < 16);
        sound.map(counter).collect()
    }

    /// The refusal on a slice of `length` words, of which the first that is charged and no element is at a place.
    fn expected(&self, length: usize, needed: usize, bad: Option<u64>) -> Option<(u64, u64)> {
        past_end(&self.ops[..self.whole]).or(first(&[
            (self.ops.len() != self.whole, 2, 2),
            short(length, needed),
            not_element(no_byte(self.ops)),
            not_element(bad),
        ]))
    }

    fn counters(&self, comparison: &mut Comparison, words: &mut Words, long: &mut Long, which: usize, spoilt: Spoilt) {
        let length = [
            0,
            NUM_COUNTERS - 1,
            NUM_COUNTERS,
            NUM_COUNTERS,
            NUM_COUNTERS,
            NUM_COUNTERS + 1,
        ][which];
        let expected = self.expected(length, NUM_COUNTERS, first_charged(spoilt, &self.charged()));
        if expected.is_none() && !self.ops.is_empty() {
            return;
        }
        let mut ops = Lent::new(self.ops, words);
        let answer = spoiling(&mut long.counters, spoilt, |counters| {
            bitwise::add_ops(&mut counters[..length], ops.slice())
        });
        let input = || format!("lookups {:?} on {length} counters, {spoilt:?}", self.ops);
        comparison.answered("add_ops", input, answer, expected);
        ops.kept(comparison, |_| input());
    }

    /// The same on a table: the counters that are spoilt stand for its multiplicities.
    fn table(&self, comparison: &mut Comparison, words: &mut Words, long: &mut Long, which: usize, spoilt: Spoilt) {
        let length = [
            0,
            TABLE_WORDS - 1,
            TABLE_WORDS,
            TABLE_WORDS,
            TABLE_WORDS,
            TABLE_WORDS + 1,
        ][which];
        let cell = |place: usize| place / 10 * NUM_COLUMNS + bitwise::NUM_PRECOMPUTED_COLS + place % 10;
        let bad = first_charged(spoilt, &self.charged()).map(|place| cell(place as usize) as u64);
        let spoilt: Vec<(usize, u64)> = spoilt
            .iter()
            .filter(|(place, _)| *place < NUM_COUNTERS)
            .map(|&(place, word)| (cell(place), word))
            .collect();
        let expected = self.expected(length, TABLE_WORDS, bad);
        if expected.is_none() && !self.ops.is_empty() {
            return;
        }
        let mut ops = Lent::new(self.ops, words);
        let answer = spoiling(&mut long.table, &spoilt, |table| {
            bitwise::update_multiplicities(&mut table[..length], ops.slice())
        });
        let input = || format!("lookups {:?} on a table of {length} words, {spoilt:?}", self.ops);
        comparison.answered("bitwise_update_multiplicities", input, answer, expected);
        ops.kept(comparison, |_| input());
    }
}

/// The first word of a list that is more than it can be, the limits of an item's words being these.
fn past_limit(list: &[u64], limits: &[u64]) -> Option<u64> {
    let too_large = |(place, word): &(usize, &u64)| **word >= limits[place % limits.len()];
    list.iter().enumerate().find(too_large).map(|(place, _)| place as u64)
}

/// Lists of four items whose words are at their limits, each in turn past it, alone and with another.
fn about_limits(words: &mut Words, limits: &[u64]) -> Vec<Vec<u64>> {
    let honest: Vec<u64> = (0..4).flat_map(|_| limits.iter().map(|limit| limit - 1)).collect();
    let mut lists = vec![vec![], honest.clone()];
    for place in 0..honest.len() {
        for more in [1, 2, u64::MAX - honest[place]] {
            let mut list = honest.clone();
            list[place] += more;
            lists.push(list.clone());
            let later = words.below(list.len() as u64) as usize;
            list[later] = u64::MAX;
            lists.push(list);
        }
    }
    lists
}

fn keys(comparison: &mut Comparison, words: &mut Words) {
    for keys in about_limits(words, &[1 << 32, 1 << 16]) {
        let n = keys.len() / 2;
        for past in [0, 1] {
            for room in 0..8 {
                // Each of the three slices is a word short, or not.
                let needed = [n, n, 3 * n];
                let lengths: [usize; 3] = std::array::from_fn(|i| needed[i].saturating_sub(room >> i & 1));
                let mut list = keys.clone();
                list.extend(vec![u64::MAX; past]);
                let [codes, spare, rows] = std::array::from_fn(|i| short(lengths[i], needed[i]));
                let bad = not_element(past_limit(&list, &[1 << 32, 1 << 16]));
                let expected = first(&[(past != 0, 2, 2), codes, spare, rows, bad]);
                dedup(comparison, words, &list, lengths, expected);
            }
        }
    }
}

fn dedup(
    comparison: &mut Comparison,
    words: &mut Words,
    keys: &[u64],
    lengths: [usize; 3],
    expected: Option<(u64, u64)>,
) {
    let mut lent = Lent::new(keys, words);
    let mut slices = lengths.map(|length| Lent::drawn(length, words));
    let [codes, spare, rows] = &mut slices;
    let answer = is_wh::dedup_is_wh_rows(lent.slice(), codes.slice(), spare.slice(), rows.slice());
    let input = || format!("the keys {keys:?} with slices of {lengths:?}");
    comparison.answered("dedup_is_wh_rows", input, answer, expected);
    lent.kept(comparison, |_| input());
    for slice in &slices {
        if expected.is_some() {
            slice.kept(comparison, |_| input());
        } else {
            slice.guards_kept(comparison, input);
        }
    }
}

/// The counters that the table of rows charges: 20 bits of each count, that of 0 for the padding, and the halves of each key that is
/// counted.
fn charged_by_rows(rows: &[u64]) -> Vec<usize> {
    let n = rows.len() / 3;
    let mut charged = if n == 0 || n.next_power_of_two().max(4) == n {
        vec![]
    } else {
        vec![5]
    };
    for row in rows.chunks_exact(3) {
        let (word, half, mu) = (row[0], row[1], row[2]);
        if word >= 1 << 32 || half >= 1 << 16 || mu >= 1 << 20 {
            continue;
        }
        charged.push(mu as usize * 10 + 5);
        if mu > 0 {
            charged.extend([half, word % 65_536, word / 65_536].map(|half| half as usize * 10 + 4));
        }
    }
    charged
}

/// The two calls on rows. On the counters the list that is accepted is the empty one, which charges nothing.
fn rows(comparison: &mut Comparison, words: &mut Words, long: &mut Long) {
    let limits = [1 << 32, 1 << 16, 1 << 20];
    for rows in about_limits(words, &limits) {
        for past in [0, 1, 2] {
            let mut list = rows.clone();
            list.extend(vec![u64::MAX; past]);
            let mut lent = Lent::new(&list, words);
            let bad = not_element(past_limit(&list, &limits));
            for length in [0, 15, 16, 17] {
                let expected = first(&[(past != 0, 2, 2), short(length, 16), bad]);
                let mut table = Lent::drawn(length, words);
                let answer = is_wh::generate_is_wh_trace(lent.slice(), table.slice());
                let input = || format!("the table of the rows {list:?} into {length} words");
                comparison.answered("generate_is_wh_trace", input, answer, expected);
                if expected.is_some() {
                    table.kept(comparison, |_| input());
                } else {
                    table.guards_kept(comparison, input);
                }
            }
            for length in [0, NUM_COUNTERS - 1, NUM_COUNTERS, NUM_COUNTERS + 1] {
                let charged = charged_by_rows(&rows);
                let spoilt = spoilt_among(words, &charged, false);
                let counter = not_element(first_charged(&spoilt, &charged));
                let expected = first(&[(past != 0, 2, 2), short(length, NUM_COUNTERS), bad, counter]);
                if expected.is_none() && !rows.is_empty() {
                    continue;
                }
                let answer = spoiling(&mut long.counters, &spoilt, |counters| {
                    is_wh::collect_bitwise_from_is_wh(lent.slice(), &mut counters[..length])
                });
                let input = || format!("the lookups of the rows {list:?} on {length} counters, {spoilt:?}");
                comparison.answered("collect_bitwise_from_is_wh", input, answer, expected);
            }
            lent.kept(comparison, |_| format!("the rows {list:?}, which are only read"));
        }
    }
}

fn own_memory(comparison: &mut Comparison, words: &mut Words) {
    let refused =
        |comparison: &mut Comparison, what: &'static str, answer: Result<IsWhRows, Refusal>, number, detail| {
            comparison.refused(|| what.into(), answer, number, detail);
        };
    let mut ops = words.operations(3);
    refused(
        comparison,
        "keys that are no pairs",
        IsWhRows::of_keys(&[1, 2, 3]),
        2,
        2,
    );
    refused(
        comparison,
        "a half of 17 bits",
        IsWhRows::of_keys(&[1, 2, 3, 65_536]),
        5,
        3,
    );
    let cut = IsWhRows::of_operations(&ops[..2 * OP_WORDS + 1]);
    refused(comparison, "operations that are not whole", cut, 2, 2);
    ops[SEGMENT_WORD] = 1 << 32;
    refused(
        comparison,
        "a segment word of 33 bits",
        IsWhRows::of_operations(&ops),
        11,
        1 << 32,
    );
    ops[1] = 4100;
    refused(
        comparison,
        "an address off the eight",
        IsWhRows::of_operations(&ops),
        7,
        4100,
    );
    ops[OP_WORDS + 1] = u64::MAX;
    refused(comparison, "a high address", IsWhRows::of_operations(&ops), 4, u64::MAX);
}

/// As many keys or rows as a list may have, one more and two more: none of them is read, because a check of the lengths refuses each.
fn too_many(comparison: &mut Comparison, words: &mut Words) {
    for n in [MAX_KEYS, MAX_KEYS + 1, MAX_KEYS + 2, usize::MAX] {
        let expected = (n > MAX_KEYS).then_some((1, TOO_MANY_KEYS));
        let input = || format!("the height of the table of {n} rows");
        comparison.answered("is_wh_height", input, is_wh::is_wh_height(n), expected);
    }
    let Some(untouched) = Untouched::new(3 * (MAX_KEYS + 2) + 3, "the most rows of keys") else {
        return;
    };
    for n in [MAX_KEYS, MAX_KEYS + 1, MAX_KEYS + 2] {
        for past in [0, 1] {
            let long = |width: usize| &untouched.words()[..width * n + past];
            let earlier = [(n > MAX_KEYS, 1, TOO_MANY_KEYS), (past != 0, 2, 2)];
            let expected = first(&[earlier[0], earlier[1], (true, 3, n as u64)]);
            dedup_long(comparison, words, long(2), expected);
            let input = || format!("{n} rows and {past} words");
            let expected = first(&[earlier[0], earlier[1], (true, 3, 4 << 32)]);
            let answer = is_wh::generate_is_wh_trace(long(3), &mut words.take(8));
            comparison.answered("generate_is_wh_trace", input, answer, expected);
            let expected = first(&[earlier[0], earlier[1], (true, 3, NUM_COUNTERS as u64)]);
            let answer = is_wh::collect_bitwise_from_is_wh(long(3), &mut words.take(8));
            comparison.answered("collect_bitwise_from_is_wh", input, answer, expected);
        }
    }
}

fn dedup_long(comparison: &mut Comparison, words: &mut Words, keys: &[u64], expected: Option<(u64, u64)>) {
    let mut slices = [8; 3].map(|length| Lent::drawn(length, words));
    let [codes, spare, rows] = &mut slices;
    let answer = is_wh::dedup_is_wh_rows(keys, codes.slice(), spare.slice(), rows.slice());
    let input = || format!("{} words of keys", keys.len());
    comparison.answered("dedup_is_wh_rows", input, answer, expected);
    for slice in &slices {
        slice.kept(comparison, |_| input());
    }
}
