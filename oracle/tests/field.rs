//! The field of the stand-in `math` against sums and products worked out in another way.

use math::field::element::FieldElement;
use math::field::goldilocks::GoldilocksField;
use oracle::P;
use oracle::sample::Generator;

type FE = FieldElement<GoldilocksField>;

/// The sum mod p without a division.
fn naive_add(a: u64, b: u64) -> u64 {
    let sum = u128::from(a) + u128::from(b);
    (if sum >= u128::from(P) { sum - u128::from(P) } else { sum }) as u64
}

/// The difference mod p without a division.
fn naive_sub(a: u64, b: u64) -> u64 {
    if a >= b {
        a - b
    } else {
        (u128::from(a) + u128::from(P) - u128::from(b)) as u64
    }
}

/// The product mod p by doubling and adding.
fn naive_mul(a: u64, b: u64) -> u64 {
    (0..64).rev().fold(0, |product, bit| {
        let doubled = naive_add(product, product);
        if b >> bit & 1 == 1 {
            naive_add(doubled, a)
        } else {
            doubled
        }
    })
}

fn words() -> Vec<u64> {
    let mut words = vec![
        0,
        1,
        2,
        255,
        256,
        (1 << 32) - 1,
        1 << 32,
        (1 << 32) + 1,
        1 << 63,
        P - (1 << 32),
        P - 2,
        P - 1,
    ];
    words.extend(Generator::new(9).words(40));
    words
}

#[test]
fn p_is_the_goldilocks_prime() {
    assert_eq!(u128::from(P), (1 << 64) - (1 << 32) + 1);
}

#[test]
fn sums_differences_and_products() {
    for a in words() {
        for b in words() {
            let (x, y) = (FE::from(a), FE::from(b));
            assert_eq!((x + y).value(), naive_add(a, b), "{a} + {b}");
            assert_eq!((x - y).value(), naive_sub(a, b), "{a} - {b}");
            assert_eq!((x * y).value(), naive_mul(a, b), "{a} * {b}");
        }
    }
}

#[test]
fn many_products() {
    let mut generator = Generator::new(10);
    for _ in 0..100_000 {
        let (a, b) = (generator.word(), generator.word());
        let product = u128::from(a) * u128::from(b) % u128::from(P);
        assert_eq!(u128::from((FE::from(a) * FE::from(b)).value()), product, "{a} * {b}");
    }
}

#[test]
fn words_past_p_are_reduced() {
    assert_eq!(FE::from(P).value(), 0);
    assert_eq!(FE::from(P - 1).value(), P - 1);
    assert_eq!(FE::from(u64::MAX).value(), (1 << 32) - 2);
}

#[test]
fn signed_numbers() {
    assert_eq!(FE::from_signed(0).value(), 0);
    assert_eq!(FE::from_signed(7).value(), 7);
    assert_eq!(FE::from_signed(-1).value(), P - 1);
    assert_eq!(FE::from_signed(i64::MIN).value(), P - (1 << 63));
}
