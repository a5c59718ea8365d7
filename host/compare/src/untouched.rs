//! Slices too long for memory: zeros that the system does not back before they are touched, and a piece that repeats.

use std::ffi::CStr;
use std::fs::File;
use std::io::Write;
use std::os::fd::{AsRawFd, FromRawFd};
use std::ptr;

use crate::say;
use keccak_tables::OP_WORDS;

/// Words that are 0 until they are set.
pub struct Untouched {
    start: *mut u64,
    length: usize,
}

// Linux on x86-64, as the archive.
unsafe extern "C" {
    fn mmap(address: *mut u64, bytes: usize, protection: i32, flags: i32, file: i32, offset: i64) -> *mut u64;
    fn munmap(address: *mut u64, bytes: usize) -> i32;
    fn memfd_create(name: *const std::ffi::c_char, flags: u32) -> i32;
}

const PROT_READ: i32 = 1;
const PROT_WRITE: i32 = 2;
const MAP_SHARED: i32 = 1;
const MAP_PRIVATE: i32 = 2;
const MAP_FIXED: i32 = 0x10;
const MAP_ANONYMOUS: i32 = 0x20;
const MAP_NORESERVE: i32 = 0x4000;

impl Untouched {
    /// `length` words, where the system has that many addresses; where it has not, that is told by what they were to be.
    pub fn new(length: usize, what: &str) -> Option<Self> {
        let flags = MAP_PRIVATE | MAP_ANONYMOUS | MAP_NORESERVE;
        // SAFETY: a new mapping, at an address that the system chooses.
        let start = unsafe { mmap(ptr::null_mut(), length * 8, PROT_READ | PROT_WRITE, flags, -1, 0) };
        if start.addr() == usize::MAX {
            say!("no addresses for {what}: lists about the limit are not tried");
            return None;
        }
        Some(Self { start, length })
    }

    /// A list of `n` operations.
    pub fn operations(n: usize) -> Option<Self> {
        Self::new(n * OP_WORDS, &format!("a list of {n} operations"))
    }

    /// The words.
    pub fn words(&self) -> &[u64] {
        // SAFETY: the mapping has this many words, and can be read while `self` lives.
        unsafe { std::slice::from_raw_parts(self.start, self.length) }
    }

    /// The words, to be set.
    pub fn words_mut(&mut self) -> &mut [u64] {
        // SAFETY: the same, and nothing else refers to them.
        unsafe { std::slice::from_raw_parts_mut(self.start, self.length) }
    }
}

impl Drop for Untouched {
    fn drop(&mut self) {
        // SAFETY: the mapping is this one's own.
        unsafe { munmap(self.start, self.length * 8) };
    }
}

/// A piece of bytes, some times over, in the memory of one.
pub struct Repeated {
    start: *mut u64,
    length: usize,
}

impl Repeated {
    /// A piece of whole pages, `times` times, where the system has that many addresses.
    pub fn new(piece: &[u8], times: usize) -> Option<Self> {
        assert!(piece.len().is_multiple_of(4096), "the piece is whole pages");
        let name: &CStr = c"piece";
        // SAFETY: the name ends with a zero; the file is new, and `File` closes it.
        let mut file = match unsafe { memfd_create(name.as_ptr(), 0) } {
            ..0 => return None,
            number => unsafe { File::from_raw_fd(number) },
        };
        file.write_all(piece).ok()?;
        let flags = MAP_PRIVATE | MAP_ANONYMOUS | MAP_NORESERVE;
        let length = piece.len() * times;
        // SAFETY: a new mapping, at an address that the system chooses.
        let start = unsafe { mmap(ptr::null_mut(), length, PROT_READ, flags, -1, 0) };
        if start.addr() == usize::MAX {
            return None;
        }
        let all = Self { start, length };
        for time in 0..times {
            let at = start.wrapping_byte_add(time * piece.len());
            // SAFETY: a part of the mapping that was just made, to which nothing refers yet.
            let part = unsafe { mmap(at, piece.len(), PROT_READ, MAP_SHARED | MAP_FIXED, file.as_raw_fd(), 0) };
            if part != at {
                return None;
            }
        }
        Some(all)
    }

    /// The bytes.
    pub fn bytes(&self) -> &[u8] {
        // SAFETY: the mapping has this many bytes, can be read while `self` lives, and its file is never written again.
        unsafe { std::slice::from_raw_parts(self.start.cast(), self.length) }
    }
}

impl Drop for Repeated {
    fn drop(&mut self) {
        // SAFETY: the mapping is this one's own.
        unsafe { munmap(self.start, self.length) };
    }
}
