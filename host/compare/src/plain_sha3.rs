//! A plain SHA3-256: FIPS 202 on bytes and lanes, with the padding and the sponge as the standard's text has them. Its offsets and constants are
//! made by the standard's rules, and none of this project's code is used.

/// The bytes of a block.
pub const RATE: usize = 136;

/// The offset of each lane, at x + 5y: the walk of Algorithm 2.
fn offsets() -> [u32; 25] {
    let (mut offsets, mut x, mut y) = ([0; 25], 1, 0);
    for t in 0..24 {
        offsets[x + 5 * y] = (t + 1) * (t + 2) / 2 % 64;
        (x, y) = (y, (2 * x + 3 * y) % 5);
    }
    offsets
}

/// The constants of the 24 rounds: the register of Algorithm 5, whose bits Algorithm 6 puts at 2^j - 1.
fn constants() -> [u64; 24] {
    let mut register = 1_u8;
    std::array::from_fn(|_| {
        (0..7).fold(0, |constant, j| {
            let bit = u64::from(register & 1);
            // The polynomial x^8 + x^6 + x^5 + x^4 + 1, lowest bit first.
            let carry = register >> 7;
            register = (register << 1) ^ (carry * 0b0111_0001);
            constant | bit << ((1 << j) - 1)
        })
    })
}

/// `Keccak-f[1600]` of 25 lanes, lane (x, y) at x + 5y.
pub fn permuted(mut lanes: [u64; 25]) -> [u64; 25] {
    let offsets = offsets();
    for constant in constants() {
        let parity: [u64; 5] = std::array::from_fn(|x| (0..5).fold(0, |sum, y| sum ^ lanes[x + 5 * y]));
        for (at, lane) in lanes.iter_mut().enumerate() {
            *lane ^= parity[(at + 4) % 5] ^ parity[(at + 1) % 5].rotate_left(1);
        }
        let moved: [u64; 25] = std::array::from_fn(|at| {
            let (x, y) = (at % 5, at / 5);
            let from = (x + 3 * y) % 5 + 5 * x;
            lanes[from].rotate_left(offsets[from])
        });
        lanes = std::array::from_fn(|at| {
            let (x, row) = (at % 5, at / 5 * 5);
            moved[at] ^ !moved[row + (x + 1) % 5] & moved[row + (x + 2) % 5]
        });
        lanes[0] ^= constant;
    }
    lanes
}

/// The message with 01, 1, zeros and 1 behind it, in bytes: whole blocks.
pub fn padded(message: &[u8]) -> Vec<u8> {
    let mut padded = message.to_vec();
    padded.push(0x06);
    padded.resize(padded.len().next_multiple_of(RATE), 0);
    *padded.last_mut().expect("there is a block") |= 0x80;
    padded
}

/// A state with a block added.
pub fn with_block(mut lanes: [u64; 25], block: &[u8]) -> [u64; 25] {
    for (lane, bytes) in lanes.iter_mut().zip(block.as_chunks().0) {
        *lane ^= u64::from_le_bytes(*bytes);
    }
    lanes
}

/// The states before and after each permutation.
pub fn states(message: &[u8]) -> Vec<[[u64; 25]; 2]> {
    let mut state = [0; 25];
    let pair = |block: &[u8]| {
        let before = with_block(state, block);
        state = permuted(before);
        [before, state]
    };
    padded(message).chunks_exact(RATE).map(pair).collect()
}

/// SHA3-256.
pub fn sha3_256(message: &[u8]) -> [u8; 32] {
    let states = states(message);
    let [_, last] = states.last().expect("there is a block");
    std::array::from_fn(|at| last[at / 8].to_le_bytes()[at % 8])
}

#[cfg(test)]
mod tests {
    use super::*;

    fn hexadecimal(bytes: [u8; 32]) -> String {
        bytes.iter().map(|byte| format!("{byte:02x}")).collect()
    }

    /// Lane 0 of the permuted zero state, and digests, as `hashlib` of Python gives them.
    #[test]
    fn published_values() {
        assert_eq!(permuted([0; 25])[0], 0xF125_8F79_40E1_DDE7);
        let a3 = [0xA3; 272];
        for (message, digest) in [
            (
                &b""[..],
                "a7ffc6f8bf1ed76651c14756a061d662f580ff4de43b49fa82d80a4b80f8434a",
            ),
            (
                b"abc",
                "3a985da74fe225b2045c172d6bd390bd855f086e3e9d525b46bfe24511431532",
            ),
            (
                &a3[..135],
                "d51927265ca4bf0cc8b4453387700918c03f8894e395ad437d4573f3be4d2c34",
            ),
            (
                &a3[..136],
                "0adf6bfb359ae40019b67d8c49c361574b70242a6b752de6f9e0d426ca177f7a",
            ),
            (
                &a3[..137],
                "e2fa06eaa22fe60106af67d5f6ea093fe58f07d2dcfb06d51057953f114849a7",
            ),
            (
                &a3[..200],
                "79f38adec5c20307a98ef76e8324afbfd46cfd81b22e3973c65fa1bd9de31787",
            ),
            (&a3, "c4742d97ad8ff950c0b5b078600ab1908c864c75b60f419e2d208dfc26a8ba11"),
        ] {
            assert_eq!(hexadecimal(sha3_256(message)), digest, "{} bytes", message.len());
        }
    }
}
