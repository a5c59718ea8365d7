//! Answers of the published Rust for the Keccak tables: rows, constraint values, tuples and counts.
//!
//! The published files are compiled unchanged from the folder in which they stand (`build.rs`), over stand-ins for what
//! they import (`stand-ins/`, [`missing_types`]). Words are `u64`; a row's words must be below [`P`], and answers are.
//! Every function panics on what lies outside its domain, and where the Rust panics.
//!
//! ```
//! assert_eq!(oracle::bitwise_row(266_804), [52, 18, 4, 16, 54, 38, 0, 0, 0, 9024, 1]);
//! ```

#![warn(missing_docs)]

// The modules `tables` and `constraints`, as the published files name each other by `crate::`.
include!(concat!(env!("OUT_DIR"), "/published.rs"));

pub mod lanes;
pub mod missing_types;
pub mod sample;

mod answers;
mod operation;
mod row;
mod tuple;

pub use answers::bitwise::{
    BITWISE_COLUMNS, BitwiseTable, COUNTERS, Counters, Lookup, bitwise_count, bitwise_counts, bitwise_row,
    bitwise_row_index, bitwise_table_row, bitwise_tuples,
};
pub use answers::is_wh::{IS_WH_COLUMNS, is_wh_key, is_wh_rows, is_wh_table, is_wh_tuples, is_whh_tuples};
pub use answers::keccak::{CORE_COLUMNS, core_sums, core_table, core_tuples, core_values, is_wh_keys};
pub use answers::keccak_rc::{KECCAK_RC_COLUMNS, keccak_rc_row, keccak_rc_table, keccak_rc_tuples};
pub use answers::keccak_rnd::{ROUND_COLUMNS, padding_are_bytes, round_sums, round_table, round_tuples, round_values};
pub use answers::tally::{shipped_tally, tally};
pub use executor::vm::instruction::execution::KECCAK_RHO;
pub use operation::OPERATION_WORDS;
pub use row::{P, RowConstraints, evaluate_constraints};
pub use stark::lookup::BusInteraction;
pub use tuple::{Bus, BusSums, Side, Tuple, evaluate};
