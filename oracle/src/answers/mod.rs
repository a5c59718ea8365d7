//! The questions that can be asked, one file for each published table.

pub mod bitwise;
pub mod is_wh;
pub mod keccak;
pub mod keccak_rc;
pub mod keccak_rnd;
pub mod tally;
