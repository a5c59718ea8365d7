//! Stand-in for the crate `math`: the prime field of p = 2^64 - 2^32 + 1 on words.

/// Fields and their elements.
pub mod field {
    /// Field elements.
    pub mod element {
        use core::ops::{Add, Mul, Sub};

        use super::goldilocks::GoldilocksField;

        /// A field, by the type that holds one of its elements.
        pub trait IsField {
            /// What an element is stored as.
            type BaseType;
        }

        /// An element of the field `F`.
        ///
        /// Assumes: an element of the prime field is one word, and a word that is read back is the canonical one, below
        /// p. The stand-in keeps every value canonical, so equality is equality of words.
        #[repr(transparent)]
        #[derive(Debug, Clone, Copy, PartialEq, Eq)]
        pub struct FieldElement<F: IsField> {
            value: F::BaseType,
        }

        impl FieldElement<GoldilocksField> {
            /// The element 0.
            pub const fn zero() -> Self {
                Self { value: 0 }
            }

            /// The element 1.
            pub const fn one() -> Self {
                Self { value: 1 }
            }

            /// The element that a signed number stands for mod p.
            pub fn from_signed(number: i64) -> Self {
                let magnitude = Self::from(number.unsigned_abs());
                if number < 0 {
                    Self::zero() - magnitude
                } else {
                    magnitude
                }
            }

            /// The word below p that stands for this element.
            pub const fn value(&self) -> u64 {
                self.value
            }

            /// The element that a number below 2p stands for mod p.
            const fn below_2p(number: u128) -> Self {
                let p = GoldilocksField::P as u128;
                Self {
                    value: if number < p { number } else { number - p } as u64,
                }
            }

            /// The element that a number below 2^128 stands for mod p: 2^64 is 2^32 - 1 and 2^96 is -1 there.
            fn reduced(number: u128) -> Self {
                let below_2_64 = Self::below_2p(number as u64 as u128);
                let from_2_64 = Self::below_2p(((number >> 64) as u32 as u128) * 0xFFFF_FFFF);
                let from_2_96 = Self::below_2p(number >> 96);
                below_2_64 + from_2_64 - from_2_96
            }
        }

        impl From<u64> for FieldElement<GoldilocksField> {
            fn from(word: u64) -> Self {
                Self::below_2p(word as u128)
            }
        }

        impl Add for FieldElement<GoldilocksField> {
            type Output = Self;

            fn add(self, other: Self) -> Self {
                Self::below_2p(self.value as u128 + other.value as u128)
            }
        }

        impl Sub for FieldElement<GoldilocksField> {
            type Output = Self;

            fn sub(self, other: Self) -> Self {
                Self::below_2p(self.value as u128 + (GoldilocksField::P - other.value) as u128)
            }
        }

        impl Mul for FieldElement<GoldilocksField> {
            type Output = Self;

            fn mul(self, other: Self) -> Self {
                Self::reduced(self.value as u128 * other.value as u128)
            }
        }
    }

    /// The prime field.
    pub mod goldilocks {
        use super::element::IsField;

        /// The field of p = 2^64 - 2^32 + 1 elements.
        #[derive(Debug, Clone, Copy, PartialEq, Eq)]
        pub struct GoldilocksField;

        impl GoldilocksField {
            /// The prime p.
            pub const P: u64 = 0xFFFF_FFFF_0000_0001;
        }

        impl IsField for GoldilocksField {
            type BaseType = u64;
        }
    }

    /// The extension of degree 3.
    pub mod extensions_goldilocks {
        use super::element::{FieldElement, IsField};
        use super::goldilocks::GoldilocksField;

        /// The extension of degree 3.
        ///
        /// Assumes: rows, values, tuples and counts are over the prime field, so the extension is a name in types and
        /// has no arithmetic here.
        #[derive(Debug, Clone, Copy, PartialEq, Eq)]
        pub struct Degree3GoldilocksExtensionField;

        impl IsField for Degree3GoldilocksExtensionField {
            type BaseType = [FieldElement<GoldilocksField>; 3];
        }
    }
}

/// Polynomials, which only the commitments use.
pub mod polynomial {
    use core::convert::Infallible;
    use core::marker::PhantomData;

    use crate::field::element::{FieldElement, IsField};

    /// A polynomial. Assumes: only the commitments, which are left out, make one.
    pub struct Polynomial<T>(PhantomData<T>);

    impl<E: IsField> Polynomial<FieldElement<E>> {
        /// Not available: commitments are left out.
        pub fn interpolate_fft<F: IsField>(_evaluations: &[FieldElement<E>]) -> Result<Self, Infallible> {
            unimplemented!("the oracle makes no commitments")
        }
    }
}
