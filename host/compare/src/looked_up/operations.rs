//! Lookups by the Rust's constructors: every kind, and the numbers at their edges.

use keccak_tables::Refusal;
use keccak_tables::bitwise::{BitwiseOperation, BitwiseOperationType};
use oracle::Lookup;
use oracle::tables::bitwise as rust;

use crate::comparison::Comparison;

/// Bytes at an edge.
const BYTES: [u8; 6] = [0, 1, 127, 128, 254, 255];
/// Each Z, and what is past its end.
const ZS: [u8; 20] = [0, 1, 2, 3, 4, 5, 6, 7, 8, 9, 10, 11, 12, 13, 14, 15, 16, 17, 128, 255];

/// The whole of it; none is drawn.
pub fn compare(comparison: &mut Comparison) {
    comparison.group("lookups by the constructors of the Rust");
    for kind in BitwiseOperationType::ALL {
        let theirs = Lookup {
            kind: kind.number(),
            x: 0,
            y: 0,
            z: 0,
        };
        of_kind(comparison, kind, theirs.operation().lookup_type);
    }
    for x in BYTES {
        for y in BYTES {
            for z in ZS {
                let call = ("lookup_b20", BitwiseOperation::b20(x, y, z));
                checked(comparison, call, z < 16, 16, || rust::BitwiseOperation::b20(x, y, z));
            }
        }
    }
    let values = (0..32).flat_map(|bit| [(1 << bit) - 1, 1 << bit]).chain(0..2000);
    for value in values.chain([266_804, 1_048_574, 1_048_575, 1_048_576, 1_048_577, u32::MAX]) {
        let call = ("lookup_zero", BitwiseOperation::zero(value));
        let end = 1 << 20;
        checked(comparison, call, value < end, end.into(), || {
            rust::BitwiseOperation::zero(value)
        });
    }
}

/// The constructors that take a kind, which is the same in ours and in the Rust's.
fn of_kind(comparison: &mut Comparison, kind: BitwiseOperationType, theirs: rust::BitwiseOperationType) {
    for x in BYTES {
        let call = ("lookup_single_byte", Ok(BitwiseOperation::single_byte(kind, x)));
        checked(comparison, call, true, 0, || {
            rust::BitwiseOperation::single_byte(theirs, x)
        });
        for y in BYTES {
            let call = ("lookup_byte_op", Ok(BitwiseOperation::byte_op(kind, x, y)));
            checked(comparison, call, true, 0, || {
                rust::BitwiseOperation::byte_op(theirs, x, y)
            });
            let call = ("lookup_halfword", Ok(BitwiseOperation::halfword(kind, x, y)));
            checked(comparison, call, true, 0, || {
                rust::BitwiseOperation::halfword(theirs, x, y)
            });
            for z in ZS {
                let call = ("lookup_new", BitwiseOperation::new(kind, x, y, z));
                checked(comparison, call, z < 16, 16, || {
                    rust::BitwiseOperation::new(theirs, x, y, z)
                });
                let call = ("lookup_shift_op", BitwiseOperation::shift_op(kind, x, y, z));
                checked(comparison, call, z < 16, 16, || {
                    rust::BitwiseOperation::shift_op(theirs, x, y, z)
                });
            }
        }
    }
}

/// What a constructor answers against the Rust's, which is asked only where it has an answer; else it is refused by 1.
fn checked(
    comparison: &mut Comparison,
    (name, ours): (&'static str, Result<BitwiseOperation, Refusal>),
    accepted: bool,
    end: u64,
    theirs: impl FnOnce() -> rust::BitwiseOperation,
) {
    let input = || format!("{name}, which gives {ours:?}");
    comparison.answered(name, input, ours, (!accepted).then_some((1, end)));
    if let (true, Ok(ours)) = (accepted, ours) {
        let Lookup { kind, x, y, z } = theirs().into();
        comparison.equal(|_| input(), &ours.words(), &[kind as u64, x.into(), y.into(), z.into()]);
    }
}
