//! The line of a verdict in plain words: which rule failed, what the columns are, and what was found there.

use keccak_tables::layout;
use keccak_tables::verdict::Table;

use super::{table_named, tuple, value};
use crate::{failures, options};

/// What a line says, given by its words; a lookup or a balance may stand without its tuple.
pub fn text(line: &[&str]) -> Result<String, String> {
    match *line {
        ["holds", active] => Ok(holds(number(active)?)),
        [table, "row", row, rule, index, ref shown @ ..] => {
            let (table, row, index) = (table_named(table)?, number(row)?, number(index)?);
            failure(table, row, rule, index as usize, shown)
        }
        _ => Err("a verdict is `holds N`, or `core` or `round`, `row R`, and `value I`, `timestamp 0`, `lookup I` or `balance I`".into()),
    }
}

fn number(word: &str) -> Result<u64, String> {
    options::number(word).ok_or_else(|| format!("{word} is no number below 2^64"))
}

fn holds(active: u64) -> String {
    format!(
        "Both tables hold. Each of the {active} active core rows has an OUTPUT that is Keccak-p[1600, NR] of its INPUT, NR being the \
         rounds by which they were judged: of 24, Keccak-f[1600].\n"
    )
}

fn failure(table: Table, row: u64, rule: &str, index: usize, shown: &[&str]) -> Result<String, String> {
    let none = || format!("a {table} row has no {rule} {index}");
    match rule {
        "value" if shown.is_empty() => {
            let value = value(table, index).ok_or_else(none)?;
            Ok(format!(
                "{table} row {row}: a constraint fails, its value is not 0.\n{value}"
            ))
        }
        "timestamp" if shown.is_empty() && table == Table::Core && index == 0 => Ok(format!(
            "core row {row}: an earlier active core row has the same timestamp.\n  {} and {}, columns 0 and 1\n",
            super::name(table, 0),
            super::name(table, 1)
        )),
        "lookup" | "balance" => {
            let found = found(table, index, shown)?;
            let why = if rule == "lookup" && is_fine(table, index, &found) {
                "the table that is looked up has this tuple, so no verdict names it.\n".into()
            } else if rule == "lookup" {
                format!(
                    "a lookup fails, the table that is looked up has no such tuple.\n{}",
                    asked(table, index, &found)
                )
            } else {
                "the Keccak bus is out of balance, active rows don't send this tuple as often as they receive it.\n"
                    .into()
            };
            let tuple = tuple(table, index, &found).ok_or_else(none)?;
            Ok(format!("{table} row {row}: {why}{tuple}"))
        }
        _ => Err(format!("there is no verdict `{table} row {row} {rule} {index}`")),
    }
}

/// The values of the tuple that a line shows, none where it shows none; the bus and the count must be the tuple's.
fn found(table: Table, index: usize, shown: &[&str]) -> Result<Vec<u64>, String> {
    let Some((bus, values)) = shown.split_first() else {
        return Ok(Vec::new());
    };
    let (_, tuple) = layout::tuple(table, index).ok_or_else(|| format!("a {table} row has no tuple {index}"))?;
    let expected = (format!("{:?}", tuple.bus), tuple.values.len());
    if (bus.to_string(), values.len()) != expected {
        return Err(format!(
            "tuple {index} of a {table} row is on {} with {} values",
            expected.0, expected.1
        ));
    }
    values.iter().map(|value| number(value)).collect()
}

/// Whether the values that a line shows are those of a tuple that is found.
fn is_fine(table: Table, index: usize, found: &[u64]) -> bool {
    let bus = layout::tuple(table, index).map(|(_, tuple)| tuple.bus);
    !found.is_empty() && bus.is_some_and(|bus| failures::is_found_on(bus, found))
}

/// What is asked of a tuple that is looked up, and where its values are known what is wrong with them.
fn asked(table: Table, index: usize, found: &[u64]) -> String {
    let bus = layout::tuple(table, index).map(|(_, tuple)| format!("{:?}", tuple.bus));
    let byte = |value: u64| value < 256;
    match (bus.as_deref(), found) {
        (Some("ByteAlu"), &[operation, x, y, z]) if byte(x) && byte(y) && operation < 3 => {
            let (name, result) = [("AND", x & y), ("OR", x | y), ("XOR", x ^ y)][operation as usize];
            format!("  {x} {name} {y} is {result}, and not {z}\n")
        }
        (Some("ByteAlu"), _) => "  two bytes and the byte that their AND, OR or XOR is\n".into(),
        (Some("AreBytes"), _) => "  both must be below 256\n".into(),
        (Some("IsHalfword"), _) => "  it must be below 65536\n".into(),
        (Some("IsWh"), _) => "  the first must be below 2^32, the second below 65536\n".into(),
        (Some("KeccakRc"), _) => {
            "  a round below 32 and the 8 bytes of its constant, which is 0 from round 24 on\n".into()
        }
        _ => String::new(),
    }
}
