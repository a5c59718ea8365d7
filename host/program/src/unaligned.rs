//! Operation files with records at addresses that are no multiples of 8: `tally` counts them, and what takes the operations refuses them.

use std::fs::File;
use std::path::Path;

use super::Failure;
use super::list::{PIECE_RECORDS, Pieces, changed};
use super::records::Places;
use keccak_tables::operation_file::Sums;
use keccak_tables::{Refusal, keccak};

/// All records of a file, those that its sums leave out too.
pub const fn records(sums: &Sums) -> u64 {
    sums.ops + sums.unaligned
}

/// The refusal of such a file by the first such address.
pub fn refusal(mut ops: File, path: &Path, sums: &Sums, places: &Places) -> Failure {
    match first_refusal(&mut ops, path) {
        Ok(first) => Failure::Told(first, words(first, sums, places, path)),
        Err(failure) => failure,
    }
}

/// What the refusal of a file's operations says: of such an address also how many records have one.
pub fn words(refusal: Refusal, sums: &Sums, places: &Places, path: &Path) -> String {
    let words = places.words(refusal, &path.display().to_string());
    let (unaligned, records) = (sums.unaligned, records(sums));
    match refusal {
        Refusal::Unaligned { .. } => {
            format!("{words}; {unaligned} of the {records} records are at such addresses, which `tally` leaves out")
        }
        _ => words,
    }
}

/// The answer of a call that takes operations to the first piece of the file that it refuses.
fn first_refusal(ops: &mut File, path: &Path) -> Result<Refusal, Failure> {
    let mut keys = [0; PIECE_RECORDS * keccak::KEY_WORDS];
    let mut pieces = Pieces::of(ops, path)?;
    while let Some(piece) = pieces.next()? {
        match keccak::is_wh_keys(piece, &mut keys) {
            Ok(()) => {}
            Err(refusal @ Refusal::Unaligned { .. }) => return Ok(refusal),
            Err(_) => break,
        }
    }
    Err(changed(path))
}
