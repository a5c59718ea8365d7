//! Stand-in for the crate `executor`: Keccak's constants by the rules of FIPS 202, and an open system call number.

/// The virtual machine.
pub mod vm {
    /// Its instructions.
    pub mod instruction {
        /// Names that types.rs imports and, as published, does not use.
        pub mod decoding {
            /// Not used by the compiled files.
            pub struct ArithOp;
            /// Not used by the compiled files.
            pub struct Comparison;
            /// Not used by the compiled files.
            pub struct Instruction;
            /// Not used by the compiled files.
            pub struct LoadStoreWidth;
        }

        /// What the tables take from the instructions' execution.
        pub mod execution {
            use core::cell::Cell;
            use core::ops::{BitAnd, Shr};

            /// The 25 offsets, at `[x][y]`.
            ///
            /// Assumes: they are those of FIPS 202, section 3.2.2, indexed x first.
            pub const KECCAK_RHO: [[u32; 5]; 5] = offsets_by_the_walk();

            /// The 24 round constants.
            ///
            /// Assumes: they are those of FIPS 202, section 3.2.5.
            pub const KECCAK_RC: [u64; 24] = constants_by_the_register();

            /// FIPS 202, algorithm 2: from (1, 0) the walk goes to (y, (2x + 3y) mod 5), and step t gives
            /// (t + 1)(t + 2)/2 mod 64. The lane (0, 0) has 0.
            const fn offsets_by_the_walk() -> [[u32; 5]; 5] {
                let mut offsets = [[0; 5]; 5];
                let (mut x, mut y) = (1, 0);
                let mut t = 0;
                while t < 24 {
                    offsets[x][y] = (t + 1) * (t + 2) / 2 % 64;
                    (x, y) = (y, (2 * x + 3 * y) % 5);
                    t += 1;
                }
                offsets
            }

            /// FIPS 202, algorithm 6: bit 2^j - 1 of round i's constant is rc(j + 7i), for j = 0 to 6.
            const fn constants_by_the_register() -> [u64; 24] {
                let mut constants = [0; 24];
                let mut round = 0;
                while round < 24 {
                    let mut j = 0;
                    while j <= 6 {
                        constants[round] |= rc(j + 7 * round) << ((1 << j) - 1);
                        j += 1;
                    }
                    round += 1;
                }
                constants
            }

            /// FIPS 202, algorithm 5: the bit R[0] after t mod 255 steps of the register R, which starts as 10000000.
            /// Bit i of `register` is R[i].
            const fn rc(t: usize) -> u64 {
                let mut register: u64 = 1;
                let mut step = 0;
                while step < t % 255 {
                    register <<= 1;
                    let top = (register >> 8) & 1;
                    register ^= top | top << 4 | top << 5 | top << 6;
                    register &= 0xFF;
                    step += 1;
                }
                register & 1
            }

            /// The number of the Keccak system call.
            ///
            /// Assumes: in the Rust it is a `u64` constant, of which core tuple 0 takes the low and the high 32 bits.
            /// Its value is not published. Here it is whatever [`with_syscall_number`] says, so that the published
            /// `&` and `>>` can be run on any number.
            pub const KECCAK_SYSCALL_NUMBER: SyscallNumber = SyscallNumber;

            /// A word that is read when an operation is applied to it.
            #[derive(Debug, Clone, Copy)]
            pub struct SyscallNumber;

            thread_local! {
                static NUMBER: Cell<u64> = const { Cell::new(0) };
            }

            /// What `run` answers while the number of the Keccak system call is `number` on this thread.
            pub fn with_syscall_number<T>(number: u64, run: impl FnOnce() -> T) -> T {
                let before = NUMBER.replace(number);
                let answer = run();
                NUMBER.set(before);
                answer
            }

            impl BitAnd<u64> for SyscallNumber {
                type Output = u64;

                fn bitand(self, mask: u64) -> u64 {
                    NUMBER.get() & mask
                }
            }

            impl Shr<u32> for SyscallNumber {
                type Output = u64;

                fn shr(self, places: u32) -> u64 {
                    NUMBER.get() >> places
                }
            }
        }
    }
}
