//! Keccak-f[1600] on lanes, forwards and backwards, written from FIPS 202 with printed constants and offsets by its walk. It takes nothing
//! from the stand-in for the Rust's executor, which works out both by the rules; a test holds the two against each other and against what
//! is printed.

/// 25 lanes, lane x + 5y.
pub type State = [u64; 25];

/// The round constants as they are printed in the Keccak team's summary.
pub const CONSTANTS: [u64; 24] = [
    0x0000000000000001,
    0x0000000000008082,
    0x800000000000808A,
    0x8000000080008000,
    0x000000000000808B,
    0x0000000080000001,
    0x8000000080008081,
    0x8000000000008009,
    0x000000000000008A,
    0x0000000000000088,
    0x0000000080008009,
    0x000000008000000A,
    0x000000008000808B,
    0x800000000000008B,
    0x8000000000008089,
    0x8000000000008003,
    0x8000000000008002,
    0x8000000000000080,
    0x000000000000800A,
    0x800000008000000A,
    0x8000000080008081,
    0x8000000000008080,
    0x0000000080000001,
    0x8000000080008008,
];

/// The offset of lane (x, y): FIPS 202, algorithm 2. The walk from (1, 0) comes to the lane after t steps, of which the offset is the sum of 1
/// to t + 1; to (0, 0) it never comes.
pub fn offset(x: usize, y: usize) -> u32 {
    let walk = core::iter::successors(Some((1, 0)), |&(x, y)| Some((y, (2 * x + 3 * y) % 5)));
    let steps = walk.take(24).position(|lane| lane == (x, y));
    steps.map_or(0, |t| (1..=t as u32 + 1).sum::<u32>() % 64)
}

/// The state whose lane (x, y) is `lane(x, y)`.
fn state(lane: impl Fn(usize, usize) -> u64) -> State {
    core::array::from_fn(|i| lane(i % 5, i / 5))
}

/// Theta.
pub fn theta(a: &State) -> State {
    let c = |x: usize| (0..5).fold(0, |parity, y| parity ^ a[x % 5 + 5 * y]);
    state(|x, y| a[x + 5 * y] ^ c(x + 4) ^ c(x + 1).rotate_left(1))
}

fn rho(a: &State) -> State {
    state(|x, y| a[x + 5 * y].rotate_left(offset(x, y)))
}

fn pi(a: &State) -> State {
    state(|x, y| a[(x + 3 * y) % 5 + 5 * x])
}

fn chi(a: &State) -> State {
    state(|x, y| a[x + 5 * y] ^ (!a[(x + 1) % 5 + 5 * y] & a[(x + 2) % 5 + 5 * y]))
}

fn iota(a: &State, round: usize) -> State {
    let mut result = *a;
    result[0] ^= CONSTANTS[round];
    result
}

/// One round.
pub fn next(a: &State, round: usize) -> State {
    iota(&chi(&pi(&rho(&theta(a)))), round)
}

/// The permutation.
pub fn keccak_f(a: &State) -> State {
    (0..24).fold(*a, |a, round| next(&a, round))
}

/// The state that a round takes to `a`. Theta has order 192 and chi order 4, so their inverses are powers.
pub fn previous(a: &State, round: usize) -> State {
    let a = (0..3).fold(iota(a, round), |a, _| chi(&a));
    // pi moves lane ((x + 3y) mod 5, x) to (x, y): lane (x, y) goes to (y, (2x + 3y) mod 5).
    let a = state(|x, y| a[y + 5 * ((2 * x + 3 * y) % 5)]);
    let a = state(|x, y| a[x + 5 * y].rotate_right(offset(x, y)));
    (0..191).fold(a, |a, _| theta(&a))
}

/// The input that the permutation takes to `start` when its first `round` rounds are done.
pub fn input_of(start: &State, round: usize) -> State {
    (0..round).rev().fold(*start, |a, earlier| previous(&a, earlier))
}

#[cfg(test)]
mod tests {
    use super::*;

    #[test]
    fn a_round_backwards_is_undone_by_the_round() {
        let mut word = 1u64;
        let mut draw = || {
            word = word.wrapping_mul(6_364_136_223_846_793_005).wrapping_add(1);
            word
        };
        for round in 0..24 {
            let start = core::array::from_fn(|_| draw());
            assert_eq!(next(&previous(&start, round), round), start);
            let input = input_of(&start, round);
            assert_eq!((0..round).fold(input, |a, earlier| next(&a, earlier)), start);
        }
    }
}
