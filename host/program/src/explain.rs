//! `explain core|round column|value|tuple INDEX`: what stands at an index, in words; `explain LINE`: what a line says that
//! `judge`, `job` or `same` printed, or a refusal.

use std::ffi::OsString;

use super::{Failure, Outcome, Streams};
use keccak_tables::layout::{self, Operand, Place, Sum, Tuple, Value};
use keccak_tables::verdict::Table;
use keccak_tables::{Bus, Side};

mod failed;
mod lines;

pub fn explain(arguments: &[OsString], streams: &mut Streams) -> Result<Outcome, Failure> {
    let words: Option<Vec<&str>> = arguments.iter().map(|argument| argument.to_str()).collect();
    let words: Option<Vec<&str>> = words.map(|words| words.iter().flat_map(|word| word.split(' ')).collect());
    let words = words.unwrap_or_default();
    let text = match (lines::text(&words), words.as_slice()) {
        (Some(text), _) => text.map_err(Failure::Usage)?,
        (None, line @ (["holds", _] | [_, "row", ..])) => failed::text(line).map_err(Failure::Usage)?,
        (None, [table, kind, index]) => text(table, kind, index).map_err(Failure::Usage)?,
        _ => {
            return Err(Failure::Usage(
                "explain takes core or round, then column, value or tuple, then INDEX; or a line that another command printed"
                    .into(),
            ));
        }
    };
    streams.output.write_all(text.as_bytes())?;
    Ok(Outcome::Fine)
}

fn table_named(table: &str) -> Result<Table, String> {
    match table {
        "core" => Ok(Table::Core),
        "round" => Ok(Table::Round),
        _ => Err(format!("there is no table {table}, but core and round")),
    }
}

fn text(table: &str, kind: &str, index: &str) -> Result<String, String> {
    let table = table_named(table)?;
    let found = match (kind, number(table, kind, index)) {
        ("column", at) => at.and_then(|at| column(table, at)),
        ("value", at) => at.and_then(|at| value(table, at)),
        ("tuple", at) => at.and_then(|at| tuple(table, at, &[])),
        _ => return Err(format!("there is no kind {kind}, but column, value and tuple")),
    };
    found.ok_or_else(|| {
        format!(
            "a {table} row has {kind}s 0 to {}, and no {index}",
            count(table, kind) - 1
        )
    })
}

fn number(table: Table, kind: &str, index: &str) -> Option<usize> {
    index.parse().ok().or_else(|| {
        if kind == "column" {
            layout::named(table, index)
        } else {
            None
        }
    })
}

fn count(table: Table, kind: &str) -> usize {
    use keccak_tables::{keccak, keccak_rnd};
    match (table, kind) {
        (Table::Core, "column") => keccak::NUM_COLUMNS,
        (Table::Core, "value") => keccak::NUM_VALUES,
        (Table::Core, _) => keccak::NUM_TUPLES,
        (Table::Round, "column") => keccak_rnd::NUM_COLUMNS,
        (Table::Round, "value") => keccak_rnd::NUM_VALUES,
        (Table::Round, _) => keccak_rnd::NUM_TUPLES,
    }
}

/// The place's group, and where in the group.
pub fn title(place: &Place) -> String {
    match place.at.as_slice() {
        [] => place.group.to_string(),
        _ => format!("{}, {}", place.group, place.words()),
    }
}

fn column(table: Table, index: usize) -> Option<String> {
    let place = layout::column(table, index)?;
    let place_words = match place.words() {
        words if words.is_empty() => words,
        words => format!(" ({words})"),
    };
    Some(format!(
        "{table} column {index}: {place}{place_words}\n  {}\n",
        place.says
    ))
}

fn value(table: Table, index: usize) -> Option<String> {
    let (place, value) = layout::value(table, index)?;
    let formula = formula(table, &value);
    Some(format!(
        "{table} value {index}: {}\n  {}\n  must be 0 mod p: {formula}\n",
        title(&place),
        place.says
    ))
}

fn formula(table: Table, value: &Value) -> String {
    let words = |sum: &Sum| sum_words(table, sum);
    match value {
        Value::Bit(column) => {
            let name = name(table, *column);
            format!("{name} * (1 - {name})")
        }
        Value::Shift { by, input, left, right } => {
            let (input, left, right) = (words(input), words(left), words(right));
            format!("MU * (2^{by} * ({input}) - 2^16 * ({right}) - ({left}))")
        }
        Value::CarryBit { low, high: None } => format!("MU * c * (1 - c), where c = ({}) / 2^32", words(low)),
        Value::CarryBit { low, high: Some(high) } => {
            format!(
                "MU * c * (1 - c), where c = ({} + d) / 2^32, d = ({}) / 2^32",
                words(high),
                words(low)
            )
        }
        Value::NoCarry { low, high } => {
            format!(
                "MU * c, where c = ({} + d) / 2^32, d = ({}) / 2^32",
                words(high),
                words(low)
            )
        }
    }
}

/// The tuple at an index, with what was found in it where that is known.
fn tuple(table: Table, index: usize, found: &[u64]) -> Option<String> {
    let (place, tuple) = layout::tuple(table, index)?;
    let done = match tuple.side {
        Side::Sender => "sent",
        Side::Receiver => "received",
    };
    let often = if tuple.by_mu {
        "MU times"
    } else {
        "once, in padding rows too"
    };
    let mut text = format!("{table} tuple {index}: {}\n  {}\n", title(&place), place.says);
    text += &format!(
        "  {done} on {:?}, {often}; its values ({}):\n",
        tuple.bus,
        tuple.values.len()
    );
    for (from, to, words) in operands(table, &tuple) {
        let at = if from == to {
            from.to_string()
        } else {
            format!("{from} to {to}")
        };
        text += &format!("  {at:>10}  {words}\n");
        if let Some(values) = found.get(from..=to) {
            let values: Vec<String> = values.iter().map(u64::to_string).collect();
            text += &format!("  {:>10}  found: {}\n", "", values.join(" "));
        }
    }
    Some(text)
}

/// The operands in words. Columns next to each other, and a constant that is repeated, stand in one line.
fn operands(table: Table, tuple: &Tuple) -> Vec<(usize, usize, String)> {
    let mut lines = Vec::new();
    let mut at = 0;
    while at < tuple.values.len() {
        let from = at;
        while tuple
            .values
            .get(at + 1)
            .is_some_and(|next| follows(&tuple.values[at], next))
        {
            at += 1;
        }
        lines.push((from, at, run(table, tuple, from, at)));
        at += 1;
    }
    lines
}

/// Whether an operand goes on with the run of the one before it.
fn follows(before: &Operand, next: &Operand) -> bool {
    match (before, next) {
        (Operand::Sum(before), Operand::Sum(next)) => match (before.single(), next.single()) {
            (Some(before), Some(next)) => next == before + 1,
            _ => before.terms.is_empty() && before == next,
        },
        _ => false,
    }
}

fn run(table: Table, tuple: &Tuple, from: usize, to: usize) -> String {
    let sum = match &tuple.values[from] {
        Operand::Syscall(0) => return "the low 32 bits of the system call's number".into(),
        Operand::Syscall(_) => return "the high 32 bits of the system call's number".into(),
        Operand::FirstRound => return "the first round, 24 - NR where there are NR rounds: 0 of all 24".into(),
        Operand::Sum(sum) => sum,
    };
    match sum.single() {
        Some(first) if from == to => format!("{}, column {first}", name(table, first)),
        Some(first) => {
            let last = first + to - from;
            format!(
                "{} to {}, columns {first} to {last}",
                name(table, first),
                name(table, last)
            )
        }
        None if tuple.bus == Bus::ByteAlu && from == 0 => operation(sum),
        None => sum_words(table, sum),
    }
}

/// The first value of a ByteAlu tuple.
fn operation(number: &Sum) -> String {
    let name = ["AND", "OR", "XOR"][number.constant as usize];
    format!("{} ({name})", number.constant)
}

fn name(table: Table, column: usize) -> String {
    layout::column(table, column).map_or_else(|| column.to_string(), |place| place.to_string())
}

fn sum_words(table: Table, sum: &Sum) -> String {
    let mut text = String::new();
    if sum.constant != 0 || sum.terms.is_empty() {
        text = sum.constant.to_string();
    }
    for &(factor, column) in &sum.terms {
        text += match (text.is_empty(), factor < 0) {
            (true, false) => "",
            (true, true) => "-",
            (false, false) => " + ",
            (false, true) => " - ",
        };
        if factor.abs() != 1 {
            text += &format!("{} * ", factor.abs());
        }
        text += &name(table, column);
    }
    text
}
