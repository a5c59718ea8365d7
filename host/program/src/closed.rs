//! Which of the standard streams were closed when the process began.
//!
//! Rust opens /dev/null in the place of a closed stream before `main`, so that what a program prints would be lost, and an input that is
//! not there read as an empty one, with nobody told. So it is looked at before that.

use std::sync::atomic::{AtomicU8, Ordering};

/// Bit n is 1 where stream n was closed.
static CLOSED: AtomicU8 = AtomicU8::new(0);

/// `F_GETFD` of fcntl: asks for the flags of a stream, and fails where there is none.
const GET_FLAGS: i32 = 1;

extern "C" fn look() {
    unsafe extern "C" {
        fn fcntl(stream: i32, command: i32, ...) -> i32;
    }
    for stream in 0..3 {
        // SAFETY: `fcntl` takes any number for a stream, and this command takes no argument and changes nothing.
        if unsafe { fcntl(stream, GET_FLAGS) } < 0 {
            CLOSED.fetch_or(1 << stream, Ordering::Relaxed);
        }
    }
}

// SAFETY: the system calls what stands in this section once before `main`, by C linkage; `look` needs nothing of Rust's runtime.
#[used]
#[unsafe(link_section = ".init_array")]
static LOOK: extern "C" fn() = look;

/// Whether standard input was closed when the process began.
#[must_use]
pub fn input() -> bool {
    CLOSED.load(Ordering::Relaxed) & 1 != 0
}

/// Whether standard output was closed when the process began.
#[must_use]
pub fn output() -> bool {
    CLOSED.load(Ordering::Relaxed) & 2 != 0
}
