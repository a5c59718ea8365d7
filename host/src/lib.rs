//! Safe bindings to the proved Keccak tables.
//!
//! Rows, tables, counters and lists of operations are slices of `u64` that the caller lends, an operation file is a slice of
//! bytes. A call either does its work, and then the slice begins with exactly what the definition says and is untouched past
//! it; or it answers a [`Refusal`], and then all that was lent is as it was. No call panics, and none has a condition that the
//! caller must meet; those that put a table or rows into memory of their own, or judge in such, need that memory, as any `Vec`.
//!
//! The functions behind these are written in Rattle and proved against their contracts
//! (`crates/keccak_tables/src`); this crate only turns slices into pointers and flat answers into `Result`s, and shares the rows of
//! a long list among threads.
//!
//! ```
//! use keccak_tables::{Operation, Refusal, keccak, keccak_rnd};
//!
//! let operation = Operation { timestamp: 5, address: 4096, input: [0; 25], output: [0; 25], segment: 0 };
//! let list = operation.words();
//! let mut table = vec![0; keccak_rnd::keccak_rnd_height(1)? * keccak_rnd::NUM_COLUMNS];
//! keccak_rnd::generate_keccak_rnd_trace(&list, &mut table)?;
//! assert_eq!(table[0], 5);
//!
//! let refused = keccak::generate_keccak_trace(&list, &mut []);
//! assert_eq!(refused, Err(Refusal::TooShort { argument: "table", needed: 4 * 486 }));
//! let words = refused.map_err(|refusal| refusal.to_string());
//! assert_eq!(words, Err("table is shorter than the 1944 words that are needed".into()));
//! # Ok::<(), Refusal>(())
//! ```

#![deny(unsafe_code)]
#![warn(missing_docs)]

pub mod bitwise;
pub mod is_wh;
pub mod job;
pub mod keccak;
pub mod keccak_rc;
pub mod keccak_rnd;
pub mod layout;
pub mod message;
pub mod month;
pub mod operation_file;
pub mod permutation;
pub mod registers;
pub mod same_operations;
pub mod segment;
pub mod verdict;

mod all_cores;
#[allow(unsafe_code)]
mod ffi;
mod operation;
mod parameters;
mod refusal;
mod tuple;

pub use operation::{MAX_OPS, OP_WORDS, Operation, SEGMENT_WORD};
pub use parameters::{FLOOR, MAX_FLOOR, Parameters};
pub use refusal::{Lent, Refusal};
pub use tuple::{Bus, BusInteraction, Side, transposed, tuples};

/// The prime p = 2^64 - 2^32 + 1: a field element is a word below it.
pub const P: u64 = 0xFFFF_FFFF_0000_0001;
