//! Fields that challenges are drawn from: what is used of one, and that of p^3 elements.

use keccak_tables::P;

/// A field that holds the numbers mod a prime.
pub trait Field: Copy + Eq + Send + Sync {
    /// 0.
    const NONE: Self;
    /// 1.
    const ONE: Self;
    /// 1 + 1 + .. + 1, so many times.
    fn number(word: u64) -> Self;
    /// The sum.
    fn plus(self, other: Self) -> Self;
    /// The difference.
    fn minus(self, other: Self) -> Self;
    /// The product.
    fn times(self, other: Self) -> Self;
    /// The product with a number.
    fn times_number(self, word: u64) -> Self;
    /// What gives 1 with this, which is not 0.
    fn inverse(self) -> Self;
}

/// A number of 128 bits mod p: 2^64 is 2^32 - 1 and 2^96 is -1.
#[inline]
pub const fn reduced(number: u128) -> u64 {
    let (low, high) = (number as u64, (number >> 64) as u64);
    let (above, middle) = (high >> 32, high & 0xFFFF_FFFF);
    let (mut rest, borrowed) = low.overflowing_sub(above);
    if borrowed {
        rest = rest.wrapping_sub(0xFFFF_FFFF);
    }
    let (mut sum, carried) = rest.overflowing_add(middle * 0xFFFF_FFFF);
    if carried {
        sum = sum.wrapping_add(0xFFFF_FFFF);
    }
    if sum >= P { sum - P } else { sum }
}

/// The sum of two words below p.
#[inline]
pub const fn plus(a: u64, b: u64) -> u64 {
    let (sum, carried) = a.overflowing_add(b);
    if carried || sum >= P { sum.wrapping_sub(P) } else { sum }
}

#[inline]
const fn minus(a: u64, b: u64) -> u64 {
    let (rest, borrowed) = a.overflowing_sub(b);
    if borrowed { rest.wrapping_add(P) } else { rest }
}

#[inline]
const fn times(a: u64, b: u64) -> u64 {
    reduced(a as u128 * b as u128)
}

/// A power of a word.
fn power(word: u64, mut exponent: u64) -> u64 {
    let (mut product, mut square) = (1, word);
    while exponent > 0 {
        if exponent & 1 == 1 {
            product = times(product, square);
        }
        square = times(square, square);
        exponent >>= 1;
    }
    product
}

/// a + b w + c w² with words below p, where w³ = 2: the field of p^3 elements, because 2 is no cube mod p.
#[derive(Debug, Clone, Copy, PartialEq, Eq)]
pub struct Cubic(pub [u64; 3]);

impl Field for Cubic {
    const NONE: Self = Self([0; 3]);
    const ONE: Self = Self([1, 0, 0]);

    #[inline]
    fn number(word: u64) -> Self {
        Self([reduced(word as u128), 0, 0])
    }

    #[inline]
    fn plus(self, other: Self) -> Self {
        Self(std::array::from_fn(|at| plus(self.0[at], other.0[at])))
    }

    #[inline]
    fn minus(self, other: Self) -> Self {
        Self(std::array::from_fn(|at| minus(self.0[at], other.0[at])))
    }

    #[inline]
    fn times(self, other: Self) -> Self {
        let ([a, b, c], [d, e, f]) = (self.0, other.0);
        let product = |x, y| u128::from(times(x, y));
        Self([
            reduced(product(a, d) + 2 * (product(b, f) + product(c, e))),
            reduced(product(a, e) + product(b, d) + 2 * product(c, f)),
            reduced(product(a, f) + product(b, e) + product(c, d)),
        ])
    }

    #[inline]
    fn times_number(self, word: u64) -> Self {
        Self(self.0.map(|part| times(part, word)))
    }

    /// The product of the two conjugates, over the norm, which is a number.
    fn inverse(self) -> Self {
        let [a, b, c] = self.0;
        let two = |x| plus(x, x);
        let others = Self([
            minus(times(a, a), two(times(b, c))),
            minus(two(times(c, c)), times(a, b)),
            minus(times(b, b), times(a, c)),
        ]);
        let norm = self.times(others).0[0];
        others.times_number(power(norm, P - 2))
    }
}

#[cfg(test)]
mod tests {
    use super::*;

    /// Words at the edges, and some between them.
    const WORDS: [u64; 8] = [0, 1, 2, 0xFFFF_FFFF, 1 << 32, 0x1234_5678_9ABC_DEF0, P - 2, P - 1];

    #[test]
    fn words_are_numbers_mod_p() {
        let whole = |number: u128| (number % u128::from(P)) as u64;
        for a in WORDS.into_iter().chain([P, u64::MAX]) {
            for b in WORDS.into_iter().chain([P, u64::MAX]) {
                let product = u128::from(a) * u128::from(b);
                assert_eq!(reduced(product), whole(product));
                assert_eq!(reduced(u128::MAX - product), whole(u128::MAX - product));
            }
        }
        for a in WORDS {
            for b in WORDS {
                assert_eq!(plus(a, b), whole(u128::from(a) + u128::from(b)));
                assert_eq!(minus(a, b), whole(u128::from(a) + u128::from(P - b)));
            }
        }
    }

    /// 2 is no cube: its power (p - 1) / 3 is not 1. So w³ = 2 makes a field.
    #[test]
    fn two_is_no_cube() {
        assert_eq!((P - 1) % 3, 0);
        assert_ne!(power(2, (P - 1) / 3), 1);
        let w = Cubic([0, 1, 0]);
        assert_eq!(w.times(w).times(w), Cubic::number(2));
    }

    #[test]
    fn the_laws_of_a_field() {
        let some: Vec<Cubic> = (0..64)
            .map(|at| Cubic([WORDS[at % 8], WORDS[at / 8], WORDS[(at * 5 + 3) % 8]]))
            .collect();
        for &a in &some {
            if a != Cubic::NONE {
                assert_eq!(a.times(a.inverse()), Cubic::ONE, "{a:?}");
            }
            for &b in &some {
                assert_eq!(a.times(b), b.times(a));
                assert_eq!(a.plus(b).minus(b), a);
                assert_eq!(a.times_number(7), a.times(Cubic::number(7)));
                let c = some[17];
                assert_eq!(a.times(b.plus(c)), a.times(b).plus(a.times(c)));
                assert_eq!(a.times(b).times(c), a.times(b.times(c)));
            }
        }
    }
}
