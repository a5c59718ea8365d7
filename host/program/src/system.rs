//! What the system is asked for beyond the standard library: signals held back, leaving at once, a name for a file that has none, and memory, of
//! which a want is told.

use std::alloc::{GlobalAlloc, Layout, System};
use std::cell::Cell;
use std::ffi::CString;
use std::io;
use std::os::fd::AsRawFd;
use std::os::unix::ffi::OsStrExt;
use std::path::Path;

/// A set of signals, as large as the C library's.
#[repr(C, align(8))]
struct Signals([u64; 16]);

unsafe extern "C" {
    fn sigfillset(set: *mut Signals) -> i32;
    fn pthread_sigmask(how: i32, set: *const Signals, old: *mut Signals) -> i32;
    fn write(stream: i32, bytes: *const u8, length: usize) -> isize;
    fn linkat(from: i32, old: *const i8, to: i32, new: *const i8, flags: i32) -> i32;
    fn geteuid() -> u32;
    fn _exit(status: i32) -> !;
}

/// `SIG_BLOCK`, `AT_FDCWD` and `AT_SYMLINK_FOLLOW` of the C library.
const BLOCK: i32 = 0;
const HERE: i32 = -100;
const FOLLOW: i32 = 0x400;

/// Holds back every signal that can be, from now to the end of the process.
pub fn hold_signals() {
    let mut all = Signals([0; 16]);
    // SAFETY: the set is as large and as aligned as the C library's, and lives as long as both calls; no old set is asked for.
    unsafe {
        sigfillset(&raw mut all);
        pthread_sigmask(BLOCK, &raw const all, std::ptr::null_mut());
    }
}

/// Ends the process here and now: nothing is dropped or written any more.
pub fn leave(status: u8) -> ! {
    // SAFETY: it takes any status.
    unsafe { _exit(i32::from(status)) }
}

/// The user whose rights this process has.
pub fn user() -> u32 {
    // SAFETY: it takes nothing and always answers.
    unsafe { geteuid() }
}

/// Gives a name to a file that was opened without one.
pub fn name(file: &impl AsRawFd, path: &Path) -> io::Result<()> {
    let old = CString::new(format!("/proc/self/fd/{}", file.as_raw_fd()))?;
    let new = CString::new(path.as_os_str().as_bytes())?;
    // SAFETY: both are strings that end with a zero byte and live as long as the call.
    match unsafe { linkat(HERE, old.as_ptr(), HERE, new.as_ptr(), FOLLOW) } {
        0 => Ok(()),
        _ => Err(io::Error::last_os_error()),
    }
}

thread_local! {
    /// Whether whoever asks for memory can be told that there is none.
    static TRYING: Cell<bool> = const { Cell::new(false) };
}

/// Asks for memory where a want of it is an answer.
pub fn trying<T>(ask: impl FnOnce() -> T) -> T {
    TRYING.set(true);
    let answer = ask();
    TRYING.set(false);
    answer
}

/// The system's memory. Where there is none, and nobody can be told (`trying`), a line says so and the status is 2, as of any other want.
pub struct Memory;

// SAFETY: every call is the system's own, with the same arguments; what is added ends the process.
unsafe impl GlobalAlloc for Memory {
    unsafe fn alloc(&self, layout: Layout) -> *mut u8 {
        // SAFETY: as the caller's.
        found(unsafe { System.alloc(layout) })
    }

    unsafe fn alloc_zeroed(&self, layout: Layout) -> *mut u8 {
        // SAFETY: as the caller's.
        found(unsafe { System.alloc_zeroed(layout) })
    }

    unsafe fn realloc(&self, memory: *mut u8, layout: Layout, size: usize) -> *mut u8 {
        // SAFETY: as the caller's.
        found(unsafe { System.realloc(memory, layout, size) })
    }

    unsafe fn dealloc(&self, memory: *mut u8, layout: Layout) {
        // SAFETY: as the caller's.
        unsafe { System.dealloc(memory, layout) };
    }
}

fn found(memory: *mut u8) -> *mut u8 {
    let line = "there is not enough memory\n";
    if memory.is_null() && !TRYING.get() {
        // SAFETY: the bytes are there, and whatever becomes of them the process ends.
        unsafe { write(2, line.as_ptr(), line.len()) };
        leave(2);
    }
    memory
}
