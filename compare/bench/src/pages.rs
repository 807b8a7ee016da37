//! Memory for files, in the system's small pages or in huge ones.

use std::ops::{Deref, DerefMut};
use std::ptr::null_mut;

const READ_WRITE: i32 = 1 | 2;
const PRIVATE_ANONYMOUS: i32 = 2 | 0x20;
const HUGE_PAGES: i32 = 14;
const HUGE: usize = 2 << 20;

extern "C" {
    fn mmap(at: *mut u8, len: usize, prot: i32, flags: i32, file: i32, offset: i64) -> *mut u8;
    fn madvise(at: *mut u8, len: usize, advice: i32) -> i32;
    fn munmap(at: *mut u8, len: usize) -> i32;
}

#[derive(Clone, Copy, PartialEq, Eq)]
pub enum Size {
    Small,
    Huge,
}

/// Zeroed bytes that begin at a huge page's start.
pub struct Pages {
    mapped: *mut u8,
    mapped_len: usize,
    first: *mut u8,
    len: usize,
}

impl Pages {
    pub fn new(len: usize, size: Size) -> Pages {
        let mapped_len = len + 2 * HUGE;
        // A fresh mapping that nobody else has; a failure gives -1.
        let mapped = unsafe { mmap(null_mut(), mapped_len, READ_WRITE, PRIVATE_ANONYMOUS, -1, 0) };
        assert!(mapped as isize != -1, "no memory");
        let first = mapped.wrapping_add(mapped.align_offset(HUGE));
        if size == Size::Huge {
            // Within the mapping: its last huge page's worth is never reached by the file.
            let whole = len.next_multiple_of(HUGE);
            let done = unsafe { madvise(first, whole, HUGE_PAGES) };
            assert_eq!(done, 0, "the system has no huge pages");
        }
        Pages { mapped, mapped_len, first, len }
    }
}

impl Deref for Pages {
    type Target = [u8];

    fn deref(&self) -> &[u8] {
        // len bytes from first lie in the mapping, which lives as long as self.
        unsafe { std::slice::from_raw_parts(self.first, self.len) }
    }
}

impl DerefMut for Pages {
    fn deref_mut(&mut self) -> &mut [u8] {
        // As above, and self is borrowed for writing.
        unsafe { std::slice::from_raw_parts_mut(self.first, self.len) }
    }
}

impl Drop for Pages {
    fn drop(&mut self) {
        // The whole mapping, which no slice outlives.
        let done = unsafe { munmap(self.mapped, self.mapped_len) };
        assert_eq!(done, 0, "a mapping is not let go");
    }
}
