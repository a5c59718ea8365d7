//! The functions of the archive: the only `unsafe` of this crate. `crates/keccak_tables/src` has each one's contract.
//!
//! A slice is passed as a pointer, then a length. None of the functions has a condition on its arguments beyond that these
//! come from a slice, and that a slice which is written overlaps no other of the call: it is a `&mut`.

use crate::operation_file::Sums;
use crate::refusal::Refusal;

/// The answer of a call that only writes.
#[repr(C)]
pub struct FlatAnswer {
    refusal: u64,
    detail: u64,
    done: u64,
}

impl FlatAnswer {
    /// Nothing, or the refusal; `name` says its argument (`Refusal::from_flat`).
    pub fn named(self, name: impl FnOnce(u64, u64) -> &'static str) -> Result<(), Refusal> {
        Refusal::unless_done(self.done, self.refusal, self.detail, name)
    }
}

/// The answer of a call that gives a number.
#[repr(C)]
pub struct FlatNumber {
    refusal: u64,
    detail: u64,
    done: u64,
    value: u64,
}

impl FlatNumber {
    /// The number, or the refusal.
    pub fn named(self, name: impl FnOnce(u64, u64) -> &'static str) -> Result<u64, Refusal> {
        Refusal::unless_done(self.done, self.refusal, self.detail, name).map(|()| self.value)
    }
}

/// The answer of a call that gives a tuple.
#[repr(C)]
pub struct FlatTuple {
    pub refusal: u64,
    pub detail: u64,
    pub done: u64,
    pub bus: u64,
    pub side: u64,
    pub length: u64,
    pub multiplicity: u64,
}

/// The answer of a call that gives a lookup.
#[repr(C)]
pub struct FlatLookup {
    pub refusal: u64,
    pub detail: u64,
    pub done: u64,
    pub kind: u64,
    pub x: u64,
    pub y: u64,
    pub z: u64,
}

/// A verdict.
#[repr(C)]
pub struct FlatVerdict {
    pub refusal: u64,
    pub detail: u64,
    pub holds: u64,
    pub active: u64,
    pub kind: u64,
    pub table: u64,
    pub row: u64,
    pub index: u64,
}

/// The answer of a file against a core table.
#[repr(C)]
pub struct FlatAgreement {
    pub refusal: u64,
    pub detail: u64,
    pub same: u64,
    pub kind: u64,
    pub place: u64,
}

/// The answer of a list of operations against a message.
#[repr(C)]
pub struct FlatReply {
    refusal: u64,
    detail: u64,
    yes: u64,
}

impl FlatReply {
    /// Whether it is the message's, or the refusal.
    pub fn named(self, name: impl FnOnce(u64, u64) -> &'static str) -> Result<bool, Refusal> {
        Refusal::from_flat(self.refusal, self.detail, name).map(|()| self.yes == 1)
    }
}

/// A key, which is never refused.
#[repr(C)]
pub struct FlatKey {
    refusal: u64,
    detail: u64,
    done: u64,
    pub word: u64,
    pub half: u64,
}

/// Where a reader of an operation file stands. Only the archive makes and reads these words.
#[repr(C)]
#[derive(Debug, Clone, Copy)]
pub struct FlatCursor {
    pub refusal: u64,
    pub detail: u64,
    pub reading: u64,
    records: u64,
    at: usize,
    address: u64,
    unaligned: u64,
    start: u64,
    mark: u64,
    tail: u64,
    segments: u64,
    least_segment: u64,
    greatest_segment: u64,
}

/// What a reader says at the end of its file.
#[repr(C)]
pub struct FlatTally {
    refusal: u64,
    detail: u64,
    done: u64,
    sums: Sums,
}

impl FlatTally {
    /// The sums, or the refusal.
    pub fn named(self, name: impl FnOnce(u64, u64) -> &'static str) -> Result<Sums, Refusal> {
        Refusal::unless_done(self.done, self.refusal, self.detail, name).map(|()| self.sums)
    }
}

/// Declares functions of the archive, and for each a safe one: `name = symbol(arguments) -> answer`.
///
/// The arguments are those of the function in `crates/keccak_tables/src`, in its order, which `tests/header.rs` checks. A slice
/// becomes a pointer and a length; anything else is passed as it is.
macro_rules! bind {
    ($($name:ident = $symbol:ident ($($arguments:tt)*) -> $answer:ty;)*) => {
        $(
            // As many as the archive's function has.
            #[allow(clippy::too_many_arguments)]
            pub fn $name($($arguments)*) -> $answer {
                bind!(@call $symbol $answer, [] [] $($arguments)*)
            }
        )*
    };
    (@call $symbol:ident $answer:ty, [$($formal:tt)*] [$($actual:tt)*]) => {{
        unsafe extern "C" {
            fn $symbol($($formal)*) -> $answer;
        }
        // SAFETY: each pointer and length are those of a slice that outlives the call. So the pointer is aligned and not
        // null, even where the slice is empty, the length is in bounds, and a slice that is written overlaps no other.
        unsafe { $symbol($($actual)*) }
    }};
    (@call $symbol:ident $answer:ty, [$($formal:tt)*] [$($actual:tt)*]
        $argument:ident: &mut [$type:ty] $(, $($rest:tt)*)?) => {
        bind!(@call $symbol $answer,
            [$($formal)* _: *mut $type, _: usize,]
            [$($actual)* $argument.as_mut_ptr(), $argument.len(),]
            $($($rest)*)?)
    };
    (@call $symbol:ident $answer:ty, [$($formal:tt)*] [$($actual:tt)*]
        $argument:ident: &[$type:ty] $(, $($rest:tt)*)?) => {
        bind!(@call $symbol $answer,
            [$($formal)* _: *const $type, _: usize,]
            [$($actual)* $argument.as_ptr(), $argument.len(),]
            $($($rest)*)?)
    };
    (@call $symbol:ident $answer:ty, [$($formal:tt)*] [$($actual:tt)*]
        $argument:ident: $type:ty $(, $($rest:tt)*)?) => {
        bind!(@call $symbol $answer,
            [$($formal)* _: $type,]
            [$($actual)* $argument,]
            $($($rest)*)?)
    };
}

bind! {
    generate_bitwise_row = keccak_tables_generate_bitwise_row(index: usize, row: &mut [u64]) -> FlatAnswer;
    bitwise_row_index = keccak_tables_bitwise_row_index(x: u8, y: u8, z: u8) -> FlatNumber;
    bitwise_bump = keccak_tables_bitwise_bump(counters: &mut [u64], kind: usize, x: u8, y: u8, z: u8) -> FlatAnswer;
    lookup_new = keccak_tables_lookup_new(kind: usize, x: u8, y: u8, z: u8) -> FlatLookup;
    lookup_byte_op = keccak_tables_lookup_byte_op(kind: usize, x: u8, y: u8) -> FlatLookup;
    lookup_single_byte = keccak_tables_lookup_single_byte(kind: usize, x: u8) -> FlatLookup;
    lookup_halfword = keccak_tables_lookup_halfword(kind: usize, x: u8, y: u8) -> FlatLookup;
    lookup_zero = keccak_tables_lookup_zero(value: u32) -> FlatLookup;
    lookup_shift_op = keccak_tables_lookup_shift_op(kind: usize, x: u8, y: u8, z: u8) -> FlatLookup;
    lookup_b20 = keccak_tables_lookup_b20(x: u8, y: u8, z: u8) -> FlatLookup;
    generate_bitwise_trace = keccak_tables_generate_bitwise_trace(table: &mut [u64]) -> FlatAnswer;
    fill_multiplicities = keccak_tables_fill_multiplicities(counters: &[u64], table: &mut [u64]) -> FlatAnswer;
    bump_n =
        keccak_tables_bump_n(counters: &mut [u64], kind: usize, x: u8, y: u8, z: u8, n: u64) -> FlatAnswer;
    merge = keccak_tables_merge(counters: &mut [u64], other: &[u64]) -> FlatAnswer;
    add_ops = keccak_tables_add_ops(counters: &mut [u64], ops: &[u64]) -> FlatAnswer;
    bitwise_update_multiplicities =
        keccak_tables_bitwise_update_multiplicities(table: &mut [u64], ops: &[u64]) -> FlatAnswer;
    bitwise_bus_interaction =
        keccak_tables_bitwise_bus_interaction(row: &[u64], index: usize, out: &mut [u64]) -> FlatTuple;

    keccak_rc_generate_row = keccak_tables_keccak_rc_generate_row(round: usize, out: &mut [u64]) -> FlatAnswer;
    generate_keccak_rc_trace = keccak_tables_generate_keccak_rc_trace(table: &mut [u64]) -> FlatAnswer;
    keccak_rc_update_multiplicities =
        keccak_tables_keccak_rc_update_multiplicities(nr: u64, table: &mut [u64], n: u64) -> FlatAnswer;
    keccak_rc_bus_interaction =
        keccak_tables_keccak_rc_bus_interaction(row: &[u64], index: usize, out: &mut [u64]) -> FlatTuple;

    is_wh_key = keccak_tables_is_wh_key(value: u64) -> FlatKey;
    dedup_is_wh_rows = keccak_tables_dedup_is_wh_rows(
        keys: &[u64], codes: &mut [u64], spare: &mut [u64], rows: &mut [u64]) -> FlatNumber;
    is_wh_height = keccak_tables_is_wh_height(n: usize) -> FlatNumber;
    generate_is_wh_trace = keccak_tables_generate_is_wh_trace(rows: &[u64], table: &mut [u64]) -> FlatAnswer;
    collect_bitwise_from_is_wh =
        keccak_tables_collect_bitwise_from_is_wh(rows: &[u64], counters: &mut [u64]) -> FlatAnswer;
    is_wh_bus_interaction =
        keccak_tables_is_wh_bus_interaction(row: &[u64], index: usize, out: &mut [u64]) -> FlatTuple;

    keccak_row = keccak_tables_keccak_row(ops: &[u64], index: usize, row: &mut [u64]) -> FlatAnswer;
    generate_keccak_trace =
        keccak_tables_generate_keccak_trace(floor: u64, ops: &[u64], table: &mut [u64]) -> FlatAnswer;
    keccak_rows = keccak_tables_keccak_rows(ops: &[u64], table: &mut [u64]) -> FlatAnswer;
    is_wh_keys = keccak_tables_is_wh_keys(ops: &[u64], out: &mut [u64]) -> FlatAnswer;
    keccak_height = keccak_tables_keccak_height(floor: u64, n: usize) -> FlatNumber;
    keccak_values = keccak_tables_keccak_values(row: &[u64], out: &mut [u64]) -> FlatAnswer;
    keccak_bus_interaction = keccak_tables_keccak_bus_interaction(
        nr: u64, row: &[u64], index: usize, syscall: u64, out: &mut [u64]) -> FlatTuple;
    keccak_bus_interactions =
        keccak_tables_keccak_bus_interactions(nr: u64, row: &[u64], syscall: u64, out: &mut [u64]) -> FlatAnswer;

    keccak_rnd_row =
        keccak_tables_keccak_rnd_row(timestamp: u64, start: &[u64], round: usize, row: &mut [u64]) -> FlatAnswer;
    generate_keccak_rnd_trace = keccak_tables_generate_keccak_rnd_trace(
        nr: u64, floor: u64, ops: &[u64], table: &mut [u64]) -> FlatAnswer;
    keccak_rnd_rows = keccak_tables_keccak_rnd_rows(nr: u64, ops: &[u64], table: &mut [u64]) -> FlatAnswer;
    keccak_rnd_height = keccak_tables_keccak_rnd_height(nr: u64, floor: u64, n: usize) -> FlatNumber;
    padding_are_bytes = keccak_tables_padding_are_bytes(nr: u64, floor: u64, n: usize) -> FlatNumber;
    keccak_rnd_values = keccak_tables_keccak_rnd_values(row: &[u64], out: &mut [u64]) -> FlatAnswer;
    keccak_rnd_bus_interaction =
        keccak_tables_keccak_rnd_bus_interaction(row: &[u64], index: usize, out: &mut [u64]) -> FlatTuple;
    keccak_rnd_bus_interactions =
        keccak_tables_keccak_rnd_bus_interactions(row: &[u64], out: &mut [u64]) -> FlatAnswer;

    charge = keccak_tables_charge(
        nr: u64, floor: u64, shipped: bool, ops: &[u64], counters: &mut [u64]) -> FlatAnswer;
    look = keccak_tables_look(
        nr: u64, floor: u64, shipped: bool, ops: &[u64], counters: &[u64], copy: &mut [u64], out: &mut [u64]
    ) -> FlatAnswer;
    register_charge = keccak_tables_register_charge(
        nr: u64, floor: u64, shipped: bool, register: u64, ops: &[u64], counters: &mut [u64], ledgers: &mut [u64]
    ) -> FlatAnswer;
    register_look = keccak_tables_register_look(
        nr: u64, floor: u64, shipped: bool, register: u64, ops: &[u64], counters: &[u64], ledgers: &[u64],
        copy: &mut [u64], out: &mut [u64]
    ) -> FlatAnswer;

    month = keccak_tables_month(nr: u64, floor: u64, counts: &[u64], out: &mut [u64]) -> FlatAnswer;

    keccak_f = keccak_tables_keccak_f(nr: u64, state: &mut [u64]) -> FlatAnswer;

    message_operations = keccak_tables_message_operations(
        message: &[u8], address: u64, timestamp: u64, ops: &mut [u64]) -> FlatNumber;
    judge_message = keccak_tables_judge_message(message: &[u8], ops: &[u64]) -> FlatReply;

    verdict = keccak_tables_verdict(nr: u64, core: &[u64], round: &[u64]) -> FlatVerdict;
    verdict_line =
        keccak_tables_verdict_line(nr: u64, core: &[u64], round: &[u64], line: &mut [u8]) -> FlatNumber;

    verdict_within = keccak_tables_verdict_within(
        nr: u64, core: &[u64], round: &[u64], scratch: &mut [u64], spare: &mut [u64]) -> FlatVerdict;
    verdict_line_within = keccak_tables_verdict_line_within(
        nr: u64, core: &[u64], round: &[u64], line: &mut [u8], scratch: &mut [u64], spare: &mut [u64]) -> FlatNumber;

    job = keccak_tables_job(
        nr: u64, core: &[u64], round: &[u64], counts: &[u64], report: &mut [u64]) -> FlatAnswer;
    job_within = keccak_tables_job_within(
        nr: u64, core: &[u64], round: &[u64], counts: &[u64], report: &mut [u64],
        scratch: &mut [u64], spare: &mut [u64]
    ) -> FlatAnswer;

    same_operations = keccak_tables_same_operations(core: &[u64], file: &[u8]) -> FlatAgreement;

    tally_start = keccak_tables_tally_start() -> FlatCursor;
    tally_feed = keccak_tables_tally_feed(cursor: FlatCursor, bytes: &[u8]) -> FlatCursor;
    tally_finish = keccak_tables_tally_finish(floor: u64, shipped: bool, cursor: FlatCursor) -> FlatTally;
    read_operations = keccak_tables_read_operations(file: &[u8], ops: &mut [u64]) -> FlatAnswer;
    write_operations = keccak_tables_write_operations(ops: &[u64], file: &mut [u8]) -> FlatAnswer;
}
