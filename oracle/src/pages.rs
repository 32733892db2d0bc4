//! Memory between two parts that can't be read or written: what runs past an end of it ends the program by a fault.

use std::ffi::{c_int, c_void};
use std::ptr::null_mut;

#[cfg(not(target_os = "linux"))]
compile_error!("the numbers below are those of Linux");

unsafe extern "C" {
    fn mmap(
        at: *mut c_void,
        len: usize,
        protection: c_int,
        flags: c_int,
        file: c_int,
        offset: i64,
    ) -> *mut c_void;
    fn mprotect(at: *mut c_void, len: usize, protection: c_int) -> c_int;
    fn munmap(at: *mut c_void, len: usize) -> c_int;
}

const NOTHING: c_int = 0;
const READ: c_int = 1;
const WRITE: c_int = 2;
const PRIVATE: c_int = 2;
const ANONYMOUS: c_int = 0x20;

/// A whole number of pages, whatever size they have.
const STEP: usize = 1 << 16;

/// A run of bytes, zero at first, with an inaccessible step on each side of it.
pub struct Pages {
    start: *mut u8,
    len: usize,
}

// SAFETY: nothing else has the address.
unsafe impl Send for Pages {}

impl Pages {
    /// At least so many bytes.
    pub fn new(len: usize) -> Pages {
        let len = len.max(1).next_multiple_of(STEP);
        // SAFETY: a new mapping, where the system wants it.
        let whole = unsafe {
            let flags = PRIVATE | ANONYMOUS;
            mmap(null_mut(), len + 2 * STEP, NOTHING, flags, -1, 0)
        };
        assert_ne!(whole as isize, -1, "no memory for {len} bytes");
        let start = whole.cast::<u8>().wrapping_add(STEP);
        let pages = Pages { start, len };
        pages.set_protection(READ | WRITE);
        pages
    }

    pub fn len(&self) -> usize {
        self.len
    }

    pub fn is_empty(&self) -> bool {
        self.len == 0
    }

    fn set_protection(&self, protection: c_int) {
        // SAFETY: the bytes are this mapping's own.
        let failed = unsafe { mprotect(self.start.cast(), self.len, protection) };
        assert_eq!(failed, 0, "the protection can't be set");
    }

    /// Makes a write end the program by a fault too, until `allow_writes`.
    pub fn write_protect(&mut self) {
        self.set_protection(READ);
    }

    pub fn allow_writes(&mut self) {
        self.set_protection(READ | WRITE);
    }

    pub fn bytes(&self) -> &[u8] {
        // SAFETY: the bytes are mapped and zero or written, and borrowed as `self` is.
        unsafe { std::slice::from_raw_parts(self.start, self.len) }
    }

    /// Not to be written while write-protected.
    pub fn bytes_mut(&mut self) -> &mut [u8] {
        // SAFETY: as in `bytes`.
        unsafe { std::slice::from_raw_parts_mut(self.start, self.len) }
    }
}

impl Drop for Pages {
    fn drop(&mut self) {
        // SAFETY: the whole mapping of `new`, which nobody borrows any more.
        unsafe { munmap(self.start.wrapping_sub(STEP).cast(), self.len + 2 * STEP) };
    }
}

#[cfg(test)]
mod tests {
    use super::*;
    use std::fs;

    /// What may be done with the byte at an address, as the system lists it.
    fn access(address: usize) -> String {
        let maps = fs::read_to_string("/proc/self/maps").unwrap();
        let hex = |text: &str| usize::from_str_radix(text, 16).unwrap();
        for line in maps.lines() {
            let (range, rest) = line.split_once(' ').unwrap();
            let (from, to) = range.split_once('-').unwrap();
            if (hex(from)..hex(to)).contains(&address) {
                return rest[..4].to_string();
            }
        }
        "none".to_string()
    }

    #[test]
    fn both_neighbours_are_inaccessible() {
        let mut pages = Pages::new(70_000);
        assert_eq!(pages.len(), 2 * STEP);
        let start = pages.bytes().as_ptr() as usize;
        let end = start + pages.len();
        for (address, expected) in [
            (start - STEP, "---p"),
            (start - 1, "---p"),
            (start, "rw-p"),
            (end - 1, "rw-p"),
            (end, "---p"),
            (end + STEP - 1, "---p"),
        ] {
            assert_eq!(access(address), expected);
        }
        pages.write_protect();
        assert_eq!(access(start), "r--p");
        pages.allow_writes();
        pages.bytes_mut()[0] = 7;
        assert_eq!(access(start), "rw-p");
    }
}
