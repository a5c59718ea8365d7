//! The end of the demo: a page of text, its digest, the tables of the calls that compute it, their verdict, and a changed byte.

use std::io::{self, Write};

use super::line;
use keccak_tables::message::{Digest, judge_message};
use keccak_tables::verdict::verdict;
use keccak_tables::{OP_WORDS, Refusal, SEGMENT_WORD, keccak, keccak_rnd};

const PAGE: &str = "\
Ledger of warehouse 9, page 17
  bay 1   40 crates of tea       owner 0312
  bay 2    6 casks of oil        owner 0077
  bay 3  118 sacks of rice       owner 0312
  bay 4      empty
  taken over by both parties, no crate open
";

/// SHA3-256 of the page, by a program of another kind.
const PUBLISHED: &str = "48fae549622e7ea4337bc0e0fd71b1292d31a7a7e1c2657f26e7f802768d45eb";

/// Where the calls have their state, and when the first is made.
const ADDRESS: u64 = 8192;
const TIMESTAMP: u64 = 1_000;

/// What is found on the way from the page to its receipt.
struct Found {
    digest: Digest,
    rows: [usize; 2],
    verdict: String,
    is_the_page: bool,
    is_another_page: bool,
    claimed: String,
}

pub fn show(out: &mut dyn Write) -> io::Result<bool> {
    match found() {
        Ok(found) => tell(&found, out),
        Err(refusal) => {
            writeln!(out, "The page is refused: {refusal}\n")?;
            Ok(false)
        }
    }
}

fn found() -> Result<Found, Refusal> {
    let digest = Digest::new(PAGE.as_bytes(), ADDRESS, TIMESTAMP)?;
    let list = digest.list();
    let (core, round) = (keccak::keccak_table(list)?, keccak_rnd::keccak_rnd_table(list)?);
    // The same calls, but for the last, which claims the digest of the other page.
    let other = Digest::new(other_page().as_bytes(), ADDRESS, TIMESTAMP)?;
    let mut claimed = list.to_vec();
    let last = claimed.len() - OP_WORDS + SEGMENT_WORD - 25;
    claimed[last..last + 4].copy_from_slice(&other.list()[last..last + 4]);
    Ok(Found {
        rows: [core.len() / keccak::NUM_COLUMNS, round.len() / keccak_rnd::NUM_COLUMNS],
        verdict: line(verdict(&core, &round)),
        is_the_page: judge_message(PAGE.as_bytes(), list)?,
        is_another_page: judge_message(other_page().as_bytes(), list)?,
        claimed: line(verdict(&keccak::keccak_table(&claimed)?, &round)),
        digest,
    })
}

/// One byte of the page is another.
fn other_page() -> String {
    PAGE.replace("40 crates", "41 crates")
}

fn tell(found: &Found, out: &mut dyn Write) -> io::Result<bool> {
    let calls = found.digest.list().len() / OP_WORDS;
    let [core, round] = found.rows;
    writeln!(out, "A page of {} bytes:\n", PAGE.len())?;
    PAGE.lines().try_for_each(|line| writeln!(out, "    | {line}"))?;
    writeln!(
        out,
        "\n  Its SHA3-256, the first bytes of the last of {calls} calls' OUTPUT:\n    {}",
        found.digest
    )?;
    writeln!(
        out,
        "  The calls' tables, {core} and {round} rows, and their verdict:\n    {}",
        found.verdict
    )?;
    writeln!(
        out,
        "  So the page has this digest: of a list whose INPUTs are chained by the page's blocks this is proved."
    )?;
    writeln!(
        out,
        "Is the list that of the page, and of the page with 41 crates in bay 1?"
    )?;
    writeln!(out, "    {}, {}", yes(found.is_the_page), yes(found.is_another_page))?;
    writeln!(
        out,
        "The last call claims the digest of the page with 41 crates.\n    {}",
        found.claimed
    )?;
    writeln!(out, "  One byte changed, and there is no receipt for the other page.\n")?;
    Ok(found.digest.to_string() == PUBLISHED
        && found.verdict == format!("holds {calls}")
        && (found.is_the_page, found.is_another_page) == (true, false)
        && found.claimed == format!("core row {} balance 3", calls - 1))
}

const fn yes(answer: bool) -> &'static str {
    if answer { "yes" } else { "no" }
}
