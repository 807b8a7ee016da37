//! Files at the size limit, in memory that is mostly never touched.

use maker::shapes::smallest;
use second::FILE_LIMIT;

use crate::guard::{Edge, Guarded};

/// Attribute segments of full count 65,535 that fill most of the file.
const SEGMENTS: usize = 1_365;
const SEGMENT: usize = 8 + 65_535 * 12;

/// An accepted file of exactly the limit: the smallest file with attribute
/// segments and two segments of value characters that nothing uses.
pub struct Largest {
    pages: Guarded,
}

impl Largest {
    pub fn new() -> Largest {
        let small = smallest().model.bytes();
        let mut pages = Guarded::new(FILE_LIMIT + 1);
        let file = pages.lend(FILE_LIMIT + 1, Edge::Start);
        // In the smallest file the attributes' segment count stands at 44, the
        // nodes from 48 to 84, and the value characters' segment count at 84.
        file[..44].copy_from_slice(&small[..44]);
        put(file, 44, SEGMENTS);
        let mut at = 48;
        for _ in 0..SEGMENTS {
            put(file, at, 65_535);
            at += SEGMENT;
        }
        file[at..at + 36].copy_from_slice(&small[48..84]);
        at += 36;
        put(file, at, 2);
        put(file, at + 4, 65_535);
        at += 4 + 8 + 65_535 * 2;
        let rest = &small[88..];
        let left = FILE_LIMIT - rest.len() - at - 8;
        put(file, at, left / 2);
        file[FILE_LIMIT - rest.len()..FILE_LIMIT].copy_from_slice(rest);
        Largest { pages }
    }

    /// The file, `more` bytes longer than the limit: 0 or 1.
    pub fn bytes(&mut self, more: usize) -> &[u8] {
        self.pages.lend(FILE_LIMIT + more, Edge::Start)
    }
}

impl Default for Largest {
    fn default() -> Largest {
        Largest::new()
    }
}

fn put(file: &mut [u8], at: usize, word: usize) {
    file[at..at + 4].copy_from_slice(&(word as u32).to_le_bytes());
}
