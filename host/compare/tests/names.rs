//! The host's columns and kinds of lookup against those of the published files.

use keccak_tables::bitwise::BitwiseOperationType;
use keccak_tables::{keccak, keccak_rnd};
use oracle::tables;

/// Constants of both, by name.
macro_rules! both {
    ($ours:path, $theirs:path, $($name:ident)*) => {{
        use $ours as ours;
        use $theirs as theirs;
        [$((stringify!($name), ours::$name, theirs::$name)),*]
    }};
}

#[test]
fn columns_have_the_numbers_of_the_published_files() {
    let core =
        both!(keccak::cols, tables::keccak::cols, TIMESTAMP_0 TIMESTAMP_1 ADDR INPUT_STATE OUTPUT_STATE STATE_PTR MU);
    let round = both!(keccak_rnd::cols, tables::keccak_rnd::cols, TIMESTAMP_0 TIMESTAMP_1 ROUND START CXZ CXZ_LEFT CXZ_RIGHT DXZ
        THETA ROT_LEFT ROT_RIGHT CHI_ANDS CHI RC IOTA MU);
    for (name, ours, theirs) in core.iter().chain(&round) {
        assert_eq!(ours, theirs, "{name}");
    }
}

#[test]
fn kinds_of_lookup_have_the_names_of_the_published_file() {
    let names = BitwiseOperationType::ALL.map(|kind| format!("{kind:?}"));
    assert_eq!(names, PUBLISHED_KINDS.map(|kind| format!("{kind:?}")));
    assert!(
        BitwiseOperationType::ALL
            .iter()
            .enumerate()
            .all(|(number, kind)| kind.number() == number)
    );
}

/// The published enum's variants, in the order of `lookup_type_index`, which is not public.
const PUBLISHED_KINDS: [tables::bitwise::BitwiseOperationType; 10] = {
    use tables::bitwise::BitwiseOperationType as Kind;
    [
        Kind::Msb8,
        Kind::Msb16,
        Kind::Zero,
        Kind::AreBytes,
        Kind::IsHalf,
        Kind::IsB20,
        Kind::Hwsl,
        Kind::ByteAluAnd,
        Kind::ByteAluOr,
        Kind::ByteAluXor,
    ]
};
