//! The sums of the buses, and the one sum at two challenges, against the verdict: on every named pair of tables, and on written ones of
//! which words were changed. The tables that are looked up are filled with all that can be found of what is looked up.

use std::sync::{Mutex, MutexGuard};

use compare::dishonest::{Tables, pairs};
use compare::inputs::Words;
use keccak_tables::bitwise::{self, BitwiseOperationType as Kind};
use keccak_tables::is_wh::IsWhRows;
use keccak_tables::verdict::{Verdict, verdict};
use keccak_tables::{Bus, BusInteraction, P, Parameters, keccak, keccak_rc, keccak_rnd, tuples};
use program::balance::field::{Cubic, Field};
use program::balance::fractions::{Challenges, Fractions};
use program::balance::sums::Sums;
use program::balance::tables::{Adder, Adding, Table};
use program::failures::failures;

/// The bitwise rows with Z = 0: all but IS_B20 are looked up there.
const LOW_ROWS: usize = 1 << 16;

/// The tables that are looked up, whole but for rows without a multiplicity.
struct LookedUp<'a> {
    is_wh: Vec<u64>,
    constants: Vec<u64>,
    counters: MutexGuard<'a, Vec<u64>>,
}

/// Counters are 84 MB: one test after the other has them.
static COUNTERS: Mutex<Vec<u64>> = Mutex::new(Vec::new());

impl LookedUp<'_> {
    /// Those of all that core and round rows send and that can be found.
    fn of(tables: &Tables) -> Self {
        let mut counters = COUNTERS.lock().unwrap_or_else(|poisoned| poisoned.into_inner());
        counters.resize(bitwise::NUM_COUNTERS, 0);
        counters.fill(0);
        let mut constants = vec![0; keccak_rc::TABLE_WORDS];
        keccak_rc::generate_keccak_rc_trace(&mut constants).expect("the table has its length");
        let mut filled = Self {
            is_wh: Vec::new(),
            constants,
            counters,
        };
        let mut keys = Vec::new();
        each_tuple(tables, |tuple, values| {
            for _ in 0..tuple.multiplicity.min(2) {
                filled.count(tuple.bus, values, &mut keys);
            }
        });
        if !keys.is_empty() {
            let rows = IsWhRows::of_keys(&keys).expect("keys in their range");
            rows.charge(&mut filled.counters).expect("counters");
            filled.is_wh = rows.table().expect("rows");
        }
        filled
    }

    /// One lookup more, where it can be found.
    fn count(&mut self, bus: Bus, values: &[u64], keys: &mut Vec<u64>) {
        let byte = |value: u64| u8::try_from(value).ok();
        let looked_up = match (bus, values) {
            (Bus::ByteAlu, &[kind, x, y, z]) => {
                let kinds = [Kind::ByteAluAnd, Kind::ByteAluOr, Kind::ByteAluXor];
                let right = [x & y, x | y, x ^ y].get(kind as usize) == Some(&z);
                right.then(|| (Some(kinds[kind as usize]), byte(x), byte(y)))
            }
            (Bus::AreBytes, &[x, y]) => Some((Some(Kind::AreBytes), byte(x), byte(y))),
            (Bus::IsHalfword, &[half]) => Some((Some(Kind::IsHalf), byte(half % 256), byte(half / 256))),
            (Bus::IsWh, &[word, half]) if word < 1 << 32 && half < 1 << 16 => {
                keys.extend([word, half]);
                None
            }
            (Bus::KeccakRc, values) => {
                let mut rows = self.constants.chunks_exact_mut(keccak_rc::NUM_COLUMNS);
                if let Some(row) = rows.find(|row| &row[..9] == values) {
                    row[9] += 1;
                }
                None
            }
            _ => None,
        };
        if let Some((Some(kind), Some(x), Some(y))) = looked_up {
            let row = usize::from(x) + 256 * usize::from(y);
            self.counters[bitwise::NUM_LOOKUP_TYPES * row + kind.number()] += 1;
        }
    }

    /// Adds up these and the two tables.
    fn added<A: Adder>(&self, tables: &Tables, mut adding: Adding<A>) -> A {
        let all = [
            (Table::Core, &tables.core),
            (Table::Round, &tables.round),
            (Table::IsWh, &self.is_wh),
            (Table::Constants, &self.constants),
        ];
        for (table, words) in all {
            adding.rows(table, 0, words).expect("whole rows of elements");
        }
        let (low, high) = self.counters.split_at(bitwise::NUM_LOOKUP_TYPES * LOW_ROWS);
        let low: Vec<u64> = (0..)
            .zip(low.chunks(10))
            .flat_map(|(row, counters)| bitwise_row(row, counters))
            .collect();
        adding.rows(Table::Bitwise, 0, &low).expect("whole rows");
        for (row, counters) in (LOW_ROWS..).zip(high.chunks(10)) {
            if counters != [0; 10] {
                let words = bitwise_row(row, counters);
                adding.rows(Table::Bitwise, row as u64, &words).expect("a whole row");
            }
        }
        adding.finish()
    }
}

fn bitwise_row(row: usize, counters: &[u64]) -> [u64; bitwise::NUM_COLUMNS] {
    let mut words = [0; bitwise::NUM_COLUMNS];
    bitwise::generate_bitwise_row(row, &mut words).expect("a row of the table");
    words[bitwise::NUM_PRECOMPUTED_COLS..].copy_from_slice(counters);
    words
}

/// The tuples of core and round rows that have a multiplicity.
fn each_tuple(tables: &Tables, mut then: impl FnMut(BusInteraction, &[u64])) {
    let mut out = vec![0; keccak_rnd::TUPLE_WORDS];
    for row in tables.core.chunks_exact(keccak::NUM_COLUMNS) {
        keccak::bus_interactions(row, 0, &mut out).expect("a row of elements");
        tuples(&out[..keccak::TUPLE_WORDS]).for_each(|(tuple, values)| then(tuple, values));
    }
    for row in tables.round.chunks_exact(keccak_rnd::NUM_COLUMNS) {
        keccak_rnd::bus_interactions(row, &mut out).expect("a row of elements");
        tuples(&out).for_each(|(tuple, values)| then(tuple, values));
    }
}

/// What is held against what: with every MU a bit, the sums agree exactly where no lookup fails and no tuple is unbalanced; and the sum at
/// challenges is 0 exactly where they agree. Answers whether they do, where something was asked.
fn held(name: &str, seed: u64, tables: &Tables) -> Option<bool> {
    let verdict = verdict(&tables.core, &tables.round).ok()?;
    let bits = |words: &[u64], width: usize| words.chunks_exact(width).all(|row| row[width - 1] < 2);
    if !bits(&tables.core, keccak::NUM_COLUMNS) || !bits(&tables.round, keccak_rnd::NUM_COLUMNS) {
        return None;
    }
    let found = failures(Parameters::default(), &tables.core, &tables.round, &mut |_| ()).expect("no refusal");
    let on_a_bus = |failure: &Verdict| matches!(failure, Verdict::Lookup { .. } | Verdict::Unbalanced { .. });
    let expected = !found.iter().any(on_a_bus);
    assert!(expected || !verdict.holds());

    let looked_up = LookedUp::of(tables);
    let sums = looked_up.added(tables, Adding::new(Parameters::default(), Sums::default));
    assert_eq!(
        sums.first().is_none(),
        expected,
        "{name}: {verdict}, {:?}",
        sums.first()
    );
    let challenges = Challenges::drawn(seed);
    let adding = Adding::new(Parameters::default(), || Fractions::new(challenges.clone()));
    let sum = looked_up.added(tables, adding).sum();
    assert_eq!(
        sum.expect("z is no fingerprint") == Cubic::NONE,
        expected,
        "{name}: {verdict}"
    );
    Some(expected)
}

#[test]
fn the_sums_of_named_pairs_are_the_verdict() {
    let mut found = [0, 0];
    for pair in pairs(1) {
        if let Some(agree) = held(pair.name, 7, &pair.tables) {
            found[usize::from(agree)] += 1;
        }
    }
    assert!(found[0] > 60 && found[1] > 20, "{found:?}");
}

#[test]
fn the_sums_of_changed_tables_are_the_verdict() {
    let (mut words, mut found) = (Words::new(3), [0, 0]);
    let written: Vec<Tables> = (1..4).map(|calls| Tables::written(calls, &mut words)).collect();
    for change in 0..100 {
        let mut tables = written[words.below(3) as usize].clone();
        let table = if words.below(3) == 0 {
            &mut tables.core
        } else {
            &mut tables.round
        };
        let at = words.below(table.len() as u64) as usize;
        table[at] = match words.below(4) {
            0 => words.below(256),
            1 => words.below(P),
            _ => table[at] ^ 1,
        };
        if let Some(agree) = held(&format!("change {change} of word {at}"), change, &tables) {
            found[usize::from(agree)] += 1;
        }
    }
    assert!(found[0] > 30 && found[1] > 0, "{found:?}");
}
