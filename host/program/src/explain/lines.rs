//! The lines of `job` and `same`, and those that refuse, in plain words.

use super::failed;
use crate::options;

/// What a line says, given by its words, where it is one of these.
pub fn text(line: &[&str]) -> Option<Result<String, String>> {
    Some(match *line {
        ["segment", number, ref verdict @ ..] => segment(number, verdict),
        ["job:", ref verdict @ ..] => {
            failed::text(verdict).map(|text| format!("The whole job, rows counted over all its segments. {text}"))
        }
        ["same"] => Ok("The active rows of CORE are the records of OPS, in some order, repeats counted.\n".into()),
        ["record", number] => count(number).map(|number| {
            format!(
                "Record {number} of OPS, from 0, has no row of its own in CORE: none with its timestamp, address, INPUT and OUTPUT is left for it.\n"
            )
        }),
        ["row", number] => count(number).map(|number| {
            format!("Row {number} of CORE, from 0, is active, and no record of OPS is left for it.\n")
        }),
        ["refused", number, detail] => refused(number, detail),
        _ => return None,
    })
}

fn count(word: &str) -> Result<u64, String> {
    options::number(word).ok_or_else(|| format!("{word} is no number below 2^64"))
}

fn segment(number: &str, verdict: &[&str]) -> Result<String, String> {
    let number = number
        .strip_suffix(':')
        .ok_or("behind a segment's number stands a colon")?;
    let (number, text) = (count(number)?, failed::text(verdict)?);
    Ok(format!(
        "Segment {number} of the job, rows counted from its first. {text}"
    ))
}

/// What a refusal says, by its number and detail.
fn refused(number: &str, detail: &str) -> Result<String, String> {
    let (number, detail) = (count(number)?, count(detail)?);
    let what = match number {
        1 => format!(
            "an index, a kind, a count or a round is past its end, or a file has a byte after the last record that it may have; {detail} is the least number refused"
        ),
        2 => not_whole(detail)?.into(),
        3 => format!("a file or a slice is too short; {detail} words, or bytes, are needed"),
        4 => format!("the last of the 25 lanes from address {detail}, the first such, would start past 2^64 - 1"),
        5 => format!("the word at place {detail} is not below p, or more than a word of its list can be"),
        6 => format!("the record of the operation file that starts at byte {detail} has a wrong mark or is cut"),
        7 => format!(
            "address {detail}, the first such, is no multiple of 8, and the row of an operation there can't be proved"
        ),
        8 => format!("{detail} is no number of rounds: those are 1 to 24"),
        9 => format!("{detail} is no floor: those are the powers of two from 4 to 65536"),
        10 => format!("register {detail} is not in use: its ledger is not a whole one of the first 16"),
        11 => format!("the segment word {detail}, the first such, has more than 32 bits"),
        12 => format!("a message has {detail} bytes, and at most 65536 are taken"),
        13 => format!("the timestamps from {detail} on would pass 2^64 - 1"),
        14 => format!("a month has {detail} files, and at most 4096 are taken"),
        _ => return Err(format!("there is no refusal {number}")),
    };
    Ok(format!("Refused by {number}: {what}. Nothing was changed.\n"))
}

fn not_whole(detail: u64) -> Result<&'static str, String> {
    match detail {
        0 => Ok("the core table is not whole rows of 486 words"),
        1 => Ok("the round table is not whole rows of 1480 words"),
        2 => Ok("a list is not whole, or the row counts of a job are no pairs that add up to its tables"),
        _ => Err(format!("refusal 2 has no detail {detail}")),
    }
}
