//! The permutation of a state by itself: `Keccak-f[1600]` of FIPS 202, or by [`Parameters`] `Keccak-p[1600, nr]`. An operation's output is
//! that of its input.
//!
//! ```
//! use keccak_tables::verdict::{Verdict, verdict};
//! use keccak_tables::{Operation, Refusal, keccak, keccak_rnd, permutation};
//!
//! let mut output = [0; permutation::LANES];
//! permutation::keccak_f(&mut output)?;
//! assert_eq!(output[..2], [0xF125_8F79_40E1_DDE7, 0x84D5_CCF9_33C0_478A]);
//!
//! let list = Operation { timestamp: 5, address: 4096, input: [0; 25], output, segment: 0 }.words();
//! let (core, round) = (keccak::keccak_table(&list)?, keccak_rnd::keccak_rnd_table(&list)?);
//! assert_eq!(verdict(&core, &round)?, Verdict::Holds { active: 1 });
//! # Ok::<(), Refusal>(())
//! ```

use crate::ffi;
use crate::parameters::Parameters;
use crate::refusal::Refusal;

/// The lanes of a state; lane (x, y) is at x + 5y.
pub const LANES: usize = 25;

/// `Keccak-f[1600]` of the first [`LANES`] words of `state`, in their place.
///
/// # Errors
///
/// [`TooShort`](Refusal::TooShort): `state` has fewer than 25 words.
pub fn keccak_f(state: &mut [u64]) -> Result<(), Refusal> {
    keccak_f_with(Parameters::default(), state)
}

/// The same by [`rounds`](Parameters::rounds): `Keccak-p[1600, nr]`, the last nr of the 24 rounds.
///
/// # Errors
///
/// [`Rounds`](Refusal::Rounds): the rounds are not 1 to 24; then those of [`keccak_f`].
pub fn keccak_f_with(parameters: Parameters, state: &mut [u64]) -> Result<(), Refusal> {
    ffi::keccak_f(parameters.rounds, state).named(|_, _| "state")
}
