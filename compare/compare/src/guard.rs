//! Memory between two unmapped pages, so that a read or write outside a lent
//! buffer stops the run.

use std::ptr::null_mut;

const PROT_NONE: i32 = 0;
const PROT_READ_WRITE: i32 = 3;
const MAP_PRIVATE_ANONYMOUS: i32 = 0x22;
const MAP_NORESERVE: i32 = 0x4000;
const PAGE: usize = 4096;

extern "C" {
    fn mmap(at: *mut u8, length: usize, prot: i32, flags: i32, fd: i32, offset: i64) -> *mut u8;
    fn mprotect(at: *mut u8, length: usize, prot: i32) -> i32;
    fn munmap(at: *mut u8, length: usize) -> i32;
}

/// Which edge of a lent buffer touches an unmapped page.
#[derive(Clone, Copy, Debug, PartialEq, Eq)]
pub enum Edge {
    Start,
    End,
}

/// Pages with an unmapped one before and one after. Memory that nothing wrote
/// to costs nothing.
pub struct Guarded {
    base: *mut u8,
    room: usize,
}

impl Guarded {
    pub fn new(least: usize) -> Guarded {
        let room = least.div_ceil(PAGE).max(1) * PAGE;
        let whole = room + 2 * PAGE;
        let flags = MAP_PRIVATE_ANONYMOUS | MAP_NORESERVE;
        // A fresh private mapping; its two outer pages are then taken away.
        unsafe {
            let base = mmap(null_mut(), whole, PROT_NONE, flags, -1, 0);
            assert!(base as isize != -1, "no memory for guarded pages");
            let made = mprotect(base.add(PAGE), room, PROT_READ_WRITE);
            assert!(made == 0, "the pages could not be opened");
            Guarded { base, room }
        }
    }

    /// A buffer of `length` bytes at an edge; the pages grow when needed.
    pub fn lend(&mut self, length: usize, edge: Edge) -> &mut [u8] {
        if length > self.room {
            *self = Guarded::new(length.next_power_of_two());
        }
        let at = match edge {
            Edge::Start => PAGE,
            Edge::End => PAGE + self.room - length,
        };
        // Inside the open pages, and borrowed from self alone.
        unsafe { std::slice::from_raw_parts_mut(self.base.add(at), length) }
    }
}

impl Drop for Guarded {
    fn drop(&mut self) {
        // The whole mapping of `new`; nothing lent outlives self.
        unsafe {
            munmap(self.base, self.room + 2 * PAGE);
        }
    }
}
