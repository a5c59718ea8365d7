//! `attack core|round value|tuple INDEX DIR`: the two tables of a small segment in which that rule alone fails and something false is claimed, or
//! why there are none.

mod bent;
mod forged;
#[cfg(test)]
mod tests;

use std::ffi::OsString;
use std::path::Path;

use super::commit::{NewFolder, commit_folder};
use super::failures::failures;
use super::{Failure, Outcome, Streams, explain, help};
use forged::Forged;
use keccak_tables::keccak::cols::{INPUT_STATE, OUTPUT_STATE, addr, state_ptr};
use keccak_tables::keccak_rnd::{NUM_COLUMNS, ROUNDS};
use keccak_tables::verdict::Table;
use keccak_tables::{Operation, Parameters, Refusal, keccak, keccak_rnd, layout};

/// What is asked of a row: a value that is 0, or a tuple that is found or balanced.
#[derive(Debug, Clone, Copy, PartialEq, Eq)]
enum Kind {
    Value,
    Tuple,
}

/// The tables of a segment of one call.
struct Segment {
    core: Vec<u64>,
    round: Vec<u64>,
}

/// What there is of a rule.
enum Answer {
    /// Tables in which it alone fails, what was done, and the theorem, where there is one.
    Tables(Segment, &'static str, &'static str),
    /// None, why, and where that is proved.
    Never(&'static str, &'static str),
}

pub fn attack(arguments: &[OsString], streams: &mut Streams) -> Result<Outcome, Failure> {
    let [table, kind, index, folder] = arguments else {
        return Err(help::wrong("attack", arguments));
    };
    let (table, kind, index) = rule(table, kind, index).map_err(Failure::Usage)?;
    let out = &mut *streams.output;
    writeln!(out, "{}", title(table, kind, index))?;
    match answer(table, kind, index, honest().map_err(Failure::Refused)?) {
        Answer::Never(why, theorem) => {
            writeln!(out, "No tables are written. {why}\nProved: {theorem}")?;
            Ok(Outcome::DoesNotHold)
        }
        Answer::Tables(segment, done, theorem) => {
            let folder = NewFolder::beside(Path::new(folder))?;
            folder.put("core", &segment.core)?;
            folder.put("round", &segment.round)?;
            let told = segment.told().map_err(Failure::Refused)?;
            writeln!(out, "{done}\n{told}{theorem}")?;
            commit_folder(folder, streams)
        }
    }
}

impl Segment {
    /// What is false in the tables, and what `judge --all` prints of them.
    fn told(&self) -> Result<String, Refusal> {
        let claim = false_claim(&self.core, &permuted(&bent::lanes(&self.core[INPUT_STATE..][..200]))?);
        let mut text = claim.unwrap_or_else(|| "Nothing false is claimed.".into());
        text += "\n`keccak-tables judge --all` on core and round there prints:\n";
        for line in failures(Parameters::default(), &self.core, &self.round, &mut |_| ())? {
            text += &format!("    {line}\n");
        }
        Ok(text)
    }
}

/// The rule as it is asked for, and what it says.
fn title(table: Table, kind: Kind, index: usize) -> String {
    let (name, place) = match kind {
        Kind::Value => ("value", layout::value(table, index).map(|(place, _)| place)),
        Kind::Tuple => ("tuple", layout::tuple(table, index).map(|(place, _)| place)),
    };
    let place = place.expect("the index was looked at");
    format!("{table} {name} {index}: {}; {}", explain::title(&place), place.says)
}

fn rule(table: &OsString, kind: &OsString, index: &OsString) -> Result<(Table, Kind, usize), String> {
    let table = match table.to_str() {
        Some("core") => Table::Core,
        Some("round") => Table::Round,
        _ => return Err(format!("there is no table {}, but core and round", table.display())),
    };
    let kind = match kind.to_str() {
        Some("value") => Kind::Value,
        Some("tuple") => Kind::Tuple,
        _ => return Err(format!("there is no kind {}, but value and tuple", kind.display())),
    };
    let most = count(table, kind);
    match index.to_str().and_then(|index| index.parse().ok()) {
        Some(index) if index < most => Ok((table, kind, index)),
        _ => Err(format!(
            "a {table} row has {most} of them, from 0, and no {}",
            index.display()
        )),
    }
}

/// How many values, or tuples, a row has.
const fn count(table: Table, kind: Kind) -> usize {
    match (table, kind) {
        (Table::Core, Kind::Value) => keccak::NUM_VALUES,
        (Table::Core, Kind::Tuple) => keccak::NUM_TUPLES,
        (Table::Round, Kind::Value) => keccak_rnd::NUM_VALUES,
        (Table::Round, Kind::Tuple) => keccak_rnd::NUM_TUPLES,
    }
}

/// The tables of one call of the zero state.
fn honest() -> Result<Segment, Refusal> {
    let mut call = call([0; 25]);
    let round = keccak_rnd::keccak_rnd_table(&call.words())?;
    call.output = bent::sent(&round[last_row()..]);
    let core = keccak::keccak_table(&call.words())?;
    Ok(Segment { core, round })
}

/// A call without its OUTPUT.
const fn call(input: [u64; 25]) -> Operation {
    Operation {
        timestamp: 1,
        address: forged::ADDRESS,
        input,
        output: [0; 25],
        segment: 0,
    }
}

/// Keccak-f[1600], by the round table that the proved code writes.
fn permuted(input: &[u64; 25]) -> Result<[u64; 25], Refusal> {
    let round = keccak_rnd::keccak_rnd_table(&call(*input).words())?;
    Ok(bent::sent(&round[last_row()..]))
}

/// Where the row of round 23 begins.
const fn last_row() -> usize {
    (ROUNDS - 1) * NUM_COLUMNS
}

fn answer(table: Table, kind: Kind, index: usize, honest: Segment) -> Answer {
    match (table, kind, index) {
        (Table::Core, Kind::Tuple, 2) | (Table::Round, Kind::Tuple, 0) => unbalanced(honest, INPUT_STATE),
        (Table::Core, Kind::Tuple, 3) | (Table::Round, Kind::Tuple, 1) => unbalanced(honest, OUTPUT_STATE),
        (Table::Core, Kind::Tuple, 0 | 1 | 59..) => Answer::Never(
            "The verdict asks nothing of it: Ecall and Memw belong to tables outside.",
            "`core-follows` (so it holds always); `memw-address` (what the tuples of the lanes carry)",
        ),
        (Table::Core, Kind::Value, 49) => Answer::Never(
            "Value 50 says that the same carry is 0, so it is a bit.",
            "`core-follows` (each of the 31 core rules that are not needed)",
        ),
        (Table::Core, Kind::Value, 51) | (Table::Round, Kind::Value, 140) => never_by_mu(table),
        (Table::Core, Kind::Value, _) => at_core(honest, forged::of_value(index)),
        (Table::Core, Kind::Tuple, _) => at_core(honest, forged::of_tuple(index)),
        (Table::Round, Kind::Value, _) => at_round(honest, bent::of_value(index)),
        (Table::Round, Kind::Tuple, _) => at_round(honest, index),
    }
}

/// A bit of the core row's INPUT or OUTPUT is changed, so that its tuple on the Keccak bus has no partner.
fn unbalanced(mut segment: Segment, state: usize) -> Answer {
    segment.core[state] ^= 1;
    let done = "A bit of the core row's state is changed. On the Keccak bus failures come in twos: what one row sends and nobody\n\
                receives, and what another would receive and nobody sends.";
    Answer::Tables(
        segment,
        done,
        "Proved: `demand3` (tables that pass and balance compute)",
    )
}

const fn never_by_mu(table: Table) -> Answer {
    let why = "A row is active where MU is 1, and then this value is 0; other rows claim nothing and are off\n\
               the verdict's bus. A prover that adds multiplicities mod p needs it: there a row with MU p - 1 takes back what another sends.";
    match table {
        Table::Core => Answer::Never(
            why,
            "`mu-needed` (without it a prover's sums let a false core row through)",
        ),
        Table::Round => Answer::Never(
            why,
            "`follows` (in an active row; of a prover's sums docs/WHY.md speaks)",
        ),
    }
}

fn at_core(mut segment: Segment, forged: Option<Forged>) -> Answer {
    let forged = forged.expect("the others are answered before");
    forged.write(&mut segment.core[..keccak::NUM_COLUMNS]);
    Answer::Tables(
        segment,
        forged.says,
        "Proved: `each-core-needed` (such a row for each of the 105 core rules that are needed)",
    )
}

/// Where it is proved of a round rule that it follows, and whether it can go together with others.
const fn proved_of(rule: usize) -> &'static str {
    match rule {
        163..183 => "`follows`; `lean-enough` (119 others can go with it)",
        423..623 if (rule - 423) % 4 < 2 => "`follows`; `lean-enough` (119 others can go with it)",
        423..623 => "`follows`; but beside the 120 that can go together it is needed: `lean-minimal`",
        _ => "`follows`",
    }
}

/// The row of round 23 is bent at a rule, and OUTPUT is what it then sends.
fn at_round(mut segment: Segment, rule: usize) -> Answer {
    if !bent::needed(rule) {
        let why = "In an active row it follows from the other 1,171 rules, so no active row fails it alone; other rows claim nothing.";
        return Answer::Never(why, proved_of(rule));
    }
    let row = bent::row(rule, &segment.round[last_row()..][..NUM_COLUMNS]);
    let sent = bent::sent(&row);
    segment.round[last_row()..][..NUM_COLUMNS].copy_from_slice(&row);
    for (column, byte) in (OUTPUT_STATE..).zip(sent.iter().flat_map(|lane| lane.to_le_bytes())) {
        segment.core[column] = byte.into();
    }
    let done = "In the row of round 23 a byte that this rule ties to others has its lowest bit flipped, and all that follows\n\
                is made from that byte; the core row's OUTPUT is what the row sends.";
    Answer::Tables(
        segment,
        done,
        "Proved: `rule-needed` (such tables for each needed rule), `each-needed` (such a row)",
    )
}

/// What core row 0 claims and is false, in words: that OUTPUT is the permutation of INPUT, and that lane i sits at the address + 8i.
fn false_claim(core: &[u64], right: &[u64; 25]) -> Option<String> {
    let output = bent::lanes(&core[OUTPUT_STATE..][..200]);
    let number = |columns: &[usize], bits: usize| {
        let words = columns.iter().enumerate();
        words
            .map(|(at, &column)| u128::from(core[column]) << (bits * at))
            .sum::<u128>()
    };
    let address = number(&[0, 1, 2, 3, 4, 5, 6, 7].map(addr), 8);
    let pointer =
        |lane| number(&[0, 1].map(|limb| state_ptr(lane, limb)), 16) + number(&[state_ptr(lane, 2)], 0) * (1 << 32);
    if let Some(lane) = (0..25).find(|&lane| output[lane] != right[lane]) {
        return Some(format!(
            "False: OUTPUT is not Keccak-f[1600] of INPUT. Lane ({}, {}) is {:016X}, and {:016X} would be right.",
            lane % 5,
            lane / 5,
            output[lane],
            right[lane]
        ));
    }
    if address % 8 != 0 {
        return Some(format!("False: the address is {address}, no multiple of 8."));
    }
    let lane = (0..25).find(|&lane| pointer(lane) != address + 8 * lane as u128)?;
    Some(format!(
        "False: lane {lane} sits at {}, and the address, the number that its bytes make, is {address}: it should be at {}.",
        pointer(lane),
        address + 8 * lane as u128
    ))
}
