//! Answers of is_wh.rs.

use std::sync::LazyLock;

use stark::lookup::{BusInteraction, Multiplicity};

use crate::row::{check_width, words};
use crate::tables::is_wh::{IsWhKey, bus_interactions, cols, dedup_is_wh_rows, generate_is_wh_trace, is_whh};
use crate::tuple::{Tuple, tuples};

/// The columns of a row of keys.
pub const IS_WH_COLUMNS: usize = cols::NUM_COLUMNS;

/// The key of a 64-bit number (`IsWhKey::of_dword`): its upper 32 bits, then its bits 16 to 31.
pub fn is_wh_key(number: u64) -> [u64; 2] {
    key_words(IsWhKey::of_dword(number))
}

/// A key as two words.
pub(crate) fn key_words(key: IsWhKey) -> [u64; 2] {
    [u64::from(key.word), u64::from(key.half)]
}

/// A key of two words, which must fit the Rust's `u32` and `u16`.
fn key_of(words: &[u64]) -> IsWhKey {
    IsWhKey {
        word: words[0].try_into().expect("a key's word has 32 bits"),
        half: words[1].try_into().expect("a key's half has 16 bits"),
    }
}

/// Rows of three words: the key's two, then how often.
pub(crate) fn rows_of(rows: &[u64]) -> Vec<(IsWhKey, u64)> {
    assert!(
        rows.len().is_multiple_of(3),
        "{} words are no whole rows of 3",
        rows.len()
    );
    rows.chunks_exact(3).map(|row| (key_of(row), row[2])).collect()
}

/// The rows of a flat list of keys, two words each (`dedup_is_wh_rows`), three words a row: word, half, how often.
pub fn is_wh_rows(keys: &[u64]) -> Vec<u64> {
    assert!(keys.len().is_multiple_of(2), "{} words are no whole keys", keys.len());
    let rows = dedup_is_wh_rows(keys.chunks_exact(2).map(key_of));
    let words = |(key, mu): (IsWhKey, u64)| [u64::from(key.word), u64::from(key.half), mu];
    rows.into_iter().flat_map(words).collect()
}

/// The table of such rows (`generate_is_wh_trace`).
pub fn is_wh_table(rows: &[u64]) -> Vec<u64> {
    words(&generate_is_wh_trace(&rows_of(rows)))
}

/// The 5 tuples of a row of 4 words.
pub fn is_wh_tuples(row: &[u64]) -> Vec<Tuple> {
    static INTERACTIONS: LazyLock<Vec<BusInteraction>> = LazyLock::new(bus_interactions);
    check_width(row, IS_WH_COLUMNS);
    tuples(&INTERACTIONS, row)
}

/// The 2 tuples that check the pointer at `start_column` of a row, as often as `mu_column` says (`is_whh`).
pub fn is_whh_tuples(row: &[u64], start_column: usize, mu_column: usize) -> Vec<Tuple> {
    tuples(&is_whh(start_column, Multiplicity::Column(mu_column)), row)
}
