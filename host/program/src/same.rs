//! `same CORE OPS`: whether a core table and an operation file record the same calls, or the first record or row without a partner.

use std::ffi::OsString;
use std::path::Path;

use super::commit::open_together;
use super::judge::words;
use super::progress::Waiting;
use super::records::Places;
use super::{Failure, Outcome, Streams, files, help, refused};
use keccak_tables::Refusal;
use keccak_tables::keccak::{NUM_COLUMNS, cols};
use keccak_tables::operation_file::{RECORD_BYTES, SEGMENT_MARK, SEGMENT_RECORD_BYTES};
use keccak_tables::same_operations::same_operations;

pub fn same(arguments: &[OsString], streams: &mut Streams) -> Result<Outcome, Failure> {
    let [core, ops] = arguments else {
        return Err(help::wrong("same", arguments));
    };
    let paths = [core, ops].map(Path::new);
    let [core, ops] = open_together(paths, streams.errors)?;
    let core = files::words(paths[0], core)?;
    let ops = files::bytes(paths[1], ops)?;
    let waiting = Waiting::new(&comparing(&core, &ops));
    let answer = same_operations(&core, &ops);
    drop(waiting);
    match answer {
        Ok(agreement) => {
            writeln!(streams.output, "{agreement}")?;
            Ok(Outcome::of(agreement.is_same()))
        }
        Err(refusal @ (Refusal::NotWhole { .. } | Refusal::NotElement { .. })) => {
            refused(refusal, &words(refusal, &core, &[]), streams)
        }
        Err(refusal) => {
            let words = Places::of(&ops).words(refusal, &paths[1].display().to_string());
            Err(Failure::Told(refusal, words))
        }
    }
}

/// What is being done, for whoever waits.
fn comparing(core: &[u64], ops: &[u8]) -> String {
    let what = format!(
        "comparing {} rows and {} bytes of records",
        core.len() / NUM_COLUMNS,
        ops.len()
    );
    if in_one_order(core, ops) {
        what
    } else {
        format!("{what}, which are not in one order: that can take long")
    }
}

/// Whether the timestamps of the active rows are those of the records, one after the other.
fn in_one_order(core: &[u64], ops: &[u8]) -> bool {
    let rows = core.chunks_exact(NUM_COLUMNS).filter(|row| row[cols::MU] == 1);
    let stamps = rows.map(|row| [row[cols::TIMESTAMP_0], row[cols::TIMESTAMP_1]]);
    let mut rest = ops;
    let records = std::iter::from_fn(|| {
        let (stamp, _) = rest.get(2..10)?.as_chunks();
        let size = match rest[1] {
            SEGMENT_MARK => SEGMENT_RECORD_BYTES,
            _ => RECORD_BYTES,
        };
        rest = rest.get(size..).unwrap_or_default();
        Some([stamp[0], stamp[1]].map(|half| u64::from(u32::from_le_bytes(half))))
    });
    stamps.eq(records)
}
