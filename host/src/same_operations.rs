//! An executor's operation file against a core table: whether both record the same calls.
//!
//! Compared are timestamp, address, INPUT and OUTPUT of the active rows and of the file's records, in any order and with repeats counted:
//! each record has a row of its own as its partner, and each active row is one. Segment numbers and pointers are not compared. Equal copies
//! are partnered earliest first. A row with a byte of 256 or more, or a timestamp word of 2^32 or more, is no record's partner.
//!
//! ```
//! use keccak_tables::operation_file::{RECORD_BYTES, write_operations};
//! use keccak_tables::same_operations::{Agreement, same_operations};
//! use keccak_tables::{OP_WORDS, Operation, Refusal, keccak};
//!
//! let calls = [5, 6].map(|timestamp| Operation { timestamp, address: 4096, input: [0; 25], output: [0; 25], segment: 0 });
//! let list = Operation::list(&calls);
//! let (core, mut file) = (keccak::keccak_table(&list)?, [0; 2 * RECORD_BYTES]);
//! write_operations(&list, &mut file)?;
//! assert_eq!(same_operations(&core, &file)?, Agreement::Same);
//!
//! // In the other order the calls are the same.
//! let turned = [&file[RECORD_BYTES..], &file[..RECORD_BYTES]].concat();
//! assert_eq!(same_operations(&core, &turned)?, Agreement::Same);
//!
//! // The second copy of a record finds no row; without its record a row is left.
//! let repeated = [&file[..], &file[..RECORD_BYTES]].concat();
//! assert_eq!(same_operations(&core, &repeated)?, Agreement::Record(2));
//! let left = same_operations(&core, &file[..RECORD_BYTES])?;
//! assert_eq!((left, left.to_string()), (Agreement::Row(1), "row 1".into()));
//! # Ok::<(), Refusal>(())
//! ```

use std::fmt;

use crate::ffi::{self, FlatAgreement};
use crate::refusal::{NOT_ELEMENT, NOT_WHOLE, Refusal};

/// What is said of a file and a table. As text, what the command `same` prints: `same`, `record I` or `row R`.
#[must_use = "a record or a row without a partner is an answer too, and not an error"]
#[derive(Debug, Clone, Copy, PartialEq, Eq, Hash)]
pub enum Agreement {
    /// The active rows are the file's operations in some order, repeats counted.
    Same,
    /// The first record of the file that has no partner of its own, by its number from 0.
    Record(u64),
    /// Every record has a partner, and this active row is the first that is left, by its number in the table from 0.
    Row(u64),
}

impl Agreement {
    /// Whether both record the same calls.
    #[must_use]
    pub const fn is_same(self) -> bool {
        matches!(self, Self::Same)
    }
}

impl fmt::Display for Agreement {
    fn fmt(&self, f: &mut fmt::Formatter<'_>) -> fmt::Result {
        match self {
            Self::Same => write!(f, "same"),
            Self::Record(record) => write!(f, "record {record}"),
            Self::Row(row) => write!(f, "row {row}"),
        }
    }
}

/// Whether the active rows of a core table and the records of a whole operation file are the same calls, or the first record without a
/// partner, or failing that the first active row left. Records at addresses that are no multiples of 8 are compared like any other.
///
/// The time grows with the rows and records as far as both stand in one order, and with the square of what is left from there on.
///
/// # Errors
///
/// [`NotWhole`](Refusal::NotWhole): `core` is not whole rows; [`NotElement`](Refusal::NotElement): a word of it is p or more; then the first
/// faulty record of `file`, as a [`Tally`](crate::operation_file::Tally) refuses it: [`PastEnd`](Refusal::PastEnd): a byte after record
/// 89,478,485; [`BadRecord`](Refusal::BadRecord): a wrong mark or a cut record; [`HighAddress`](Refusal::HighAddress): an address above
/// [`LAST_ADDRESS`](crate::keccak::LAST_ADDRESS). Never [`Unaligned`](Refusal::Unaligned).
pub fn same_operations(core: &[u64], file: &[u8]) -> Result<Agreement, Refusal> {
    from_flat(&ffi::same_operations(core, file))
}

/// What was said of a table and a file.
fn from_flat(flat: &FlatAgreement) -> Result<Agreement, Refusal> {
    Refusal::from_flat(flat.refusal, flat.detail, |number, _| match number {
        NOT_WHOLE | NOT_ELEMENT => "core",
        _ => "file",
    })?;
    Ok(match (flat.same, flat.kind) {
        (1, _) => Agreement::Same,
        (_, RECORD) => Agreement::Record(flat.place),
        (_, ROW) => Agreement::Row(flat.place),
        (same, kind) => unreachable!("the definition of the agreement has no kind {kind} where same is {same}"),
    })
}

// The kinds of what is not the same.
const RECORD: u64 = 1;
const ROW: u64 = 2;

#[cfg(test)]
mod tests {
    use super::*;

    #[test]
    fn each_kind_is_read_and_printed() {
        let cases = [
            ([1, 3, 0], Agreement::Same, "same"),
            ([0, 1, 0], Agreement::Record(0), "record 0"),
            (
                [0, 1, u64::MAX],
                Agreement::Record(u64::MAX),
                "record 18446744073709551615",
            ),
            ([0, 2, 7], Agreement::Row(7), "row 7"),
        ];
        for ([same, kind, place], agreement, text) in cases {
            let flat = FlatAgreement {
                refusal: 0,
                detail: 0,
                same,
                kind,
                place,
            };
            assert_eq!(from_flat(&flat), Ok(agreement));
            assert_eq!(agreement.to_string(), text);
            assert_eq!(agreement.is_same(), same == 1);
        }
    }
}
