//! Refusals of one call on a slice, and of the calls that read a row: number and detail, in the order of the checks, and
//! every lent word as it was.

use keccak_tables::{P, Refusal};

use crate::comparison::Comparison;
use crate::inputs::Words;
use crate::lent::Lent;
use crate::tuple_list::TupleCall;

/// One call on a drawn slice of `length` words: by the archive's name for it, and with what else it gets, in words.
/// `expected` is the refusal's number and detail, or none where the call is accepted; refused, it leaves every word as it was,
/// and accepted, every guard.
pub fn on_slice<T>(
    comparison: &mut Comparison,
    words: &mut Words,
    (name, input): (&'static str, impl Fn() -> String),
    length: usize,
    expected: Option<(u64, u64)>,
    call: impl FnOnce(&mut [u64]) -> Result<T, Refusal>,
) {
    let mut lent = Lent::drawn(length, words);
    let answer = call(lent.slice());
    let input = || format!("{}, a slice of {length} words", input());
    comparison.answered(name, input, answer, expected);
    if expected.is_some() {
        lent.kept(comparison, |_| input());
    } else {
        lent.guards_kept(comparison, input);
    }
}

/// From a row into a slice.
type OnRow<'a> = dyn Fn(&[u64], &mut [u64]) -> Result<(), Refusal> + 'a;

/// A call that reads a row and writes to a slice.
pub struct RowCall<'a> {
    /// The archive's name for it.
    pub call_name: &'static str,
    /// What it is.
    pub name: String,
    /// The columns that it reads.
    pub columns: usize,
    /// The words that it writes.
    pub needed: usize,
    /// What the call is refused by before its row is looked at: its rounds, its index.
    pub earlier: Option<(u64, u64)>,
    /// The call.
    pub call: &'a OnRow<'a>,
}

impl RowCall<'_> {
    /// One call, on a row and a slice of `room` words, against the checks in their order: what is earlier; lengths, the row's first;
    /// words of the row's columns that are no elements, the first of them named.
    fn check(&self, comparison: &mut Comparison, words: &mut Words, row: &[u64], room: usize) {
        let short = |length, needed| (length < needed).then_some((3, needed as u64));
        let first = || row[..self.columns].iter().position(|&word| word >= P);
        let expected = self
            .earlier
            .or(short(row.len(), self.columns))
            .or(short(room, self.needed))
            .or_else(|| first().map(|place| (5, place as u64)));
        let mut row = Lent::new(row, words);
        let input = row.slice().to_vec();
        let input = || format!("{}: {input:?}", self.name);
        let what = (self.call_name, input);
        on_slice(comparison, words, what, room, expected, |out| {
            (self.call)(row.slice(), out)
        });
        row.kept(comparison, |_| input());
    }

    /// Each column in turn p - 1, p, p + 1 and 2^64 - 1, alone and with a later one, and a word past the columns that is
    /// never an element.
    pub fn not_elements(&self, comparison: &mut Comparison, words: &mut Words) {
        for place in 0..=self.columns {
            for word in [P - 1, P, P + 1, u64::MAX] {
                let mut row: Vec<u64> = (0..=self.columns).map(|_| words.below(P)).collect();
                row[place] = word;
                row[self.columns] = [P, P + 1, u64::MAX][words.below(3) as usize];
                self.check(comparison, words, &row, self.needed);
                let later = place + words.below((self.columns + 1 - place) as u64) as usize;
                row[later] = row[later].max(P);
                self.check(comparison, words, &row, self.needed);
            }
        }
    }
}

/// Rows and slices of no word, one short, enough and one more, with and without a word that is no element at the first,
/// the middle or the last place, or two of them: every condition, and several at once.
pub fn row_calls(comparison: &mut Comparison, words: &mut Words, call: &RowCall) {
    let (width, needed) = (call.columns, call.needed);
    let (middle, last) = (width / 2, width - 1);
    let spoilt: [&[usize]; 8] = [
        &[],
        &[0],
        &[middle],
        &[last],
        &[0, last],
        &[0, middle],
        &[middle, last],
        &[width],
    ];
    for columns in [0, width - 1, width, width + 1] {
        for room in [0, needed - 1, needed, needed + 1] {
            for places in spoilt {
                for word in [P, P + 1, u64::MAX] {
                    let mut row: Vec<u64> = (0..columns).map(|_| words.below(P)).collect();
                    for &place in places.iter().filter(|&&place| place < columns) {
                        row[place] = word;
                    }
                    call.check(comparison, words, &row, room);
                }
            }
        }
    }
}

/// The calls for the tuples of a row: indexes about the end, one index of each length in every condition, every index
/// with its slice one short and just enough, and the first, a middle and the last index on rows with words that are no
/// elements.
pub fn tuple_calls(
    comparison: &mut Comparison,
    words: &mut Words,
    (call_name, name): (&'static str, &str),
    columns: usize,
    lengths: &[usize],
    call: &impl TupleCall,
) {
    let count = lengths.len();
    let with_index = |index: usize, check: &mut dyn FnMut(&RowCall)| {
        check(&RowCall {
            call_name,
            name: format!("tuple {index} of a {name} row"),
            columns,
            needed: lengths.get(index).copied().unwrap_or(1),
            earlier: (index >= count).then_some((1, count as u64)),
            call: &|row, out| call(row, index, out).map(drop),
        });
    };
    let mut indexes = vec![0, count - 1, count, count + 1, usize::MAX];
    indexes.extend((1..count).filter(|&index| !lengths[..index].contains(&lengths[index])));
    for index in indexes {
        with_index(index, &mut |call| row_calls(comparison, words, call));
    }
    for index in 0..count {
        with_index(index, &mut |call| {
            let row: Vec<u64> = (0..columns).map(|_| words.below(P)).collect();
            call.check(comparison, words, &row, call.needed - 1);
            call.check(comparison, words, &row, call.needed);
        });
    }
    for index in [0, count / 2, count - 1] {
        with_index(index, &mut |call| call.not_elements(comparison, words));
    }
}
