//! A second hash of texts and numbers, for small tables. It has nothing to do with
//! the hash of the format: entries of one hash are spread by it. Its start is
//! picked anew each time, so that nobody can make texts that meet in the tables.

use std::hash::{BuildHasher, RandomState};

use crate::hash::pack;

#[derive(Clone, Copy)]
pub struct Mixer {
    start: u64,
}

/// An odd number with bits all over it.
const ODD: u64 = 0x9e37_79b9_7f4a_7c15;

impl Mixer {
    pub fn new() -> Mixer {
        Mixer { start: RandomState::new().hash_one(0) }
    }

    #[inline]
    pub fn text(self, text: &[u8]) -> u32 {
        let (rows, rest) = text.as_chunks();
        let start = self.start ^ text.len() as u64;
        let start = if rows.is_empty() { start } else { long(start, rows) };
        let (eights, rest) = rest.as_chunks();
        let mixed = eights.iter().fold(start, |mixed, &x| mix(mixed, u64::from_le_bytes(x)));
        (mix(mixed, pack(rest)) >> 32) as u32
    }

    #[inline]
    pub fn number(self, number: u32) -> u32 {
        (mix(self.start, number as u64) >> 32) as u32
    }
}

/// Four lanes, so that none waits for another.
fn long(start: u64, rows: &[[u8; 32]]) -> u64 {
    let mut lanes = [start; 4];
    for row in rows {
        let (eights, _) = row.as_chunks();
        for (lane, &eight) in lanes.iter_mut().zip(eights) {
            *lane = mix(*lane, u64::from_le_bytes(eight));
        }
    }
    lanes.into_iter().fold(start, mix)
}

#[inline]
fn mix(before: u64, word: u64) -> u64 {
    let product = (before ^ word) as u128 * ODD as u128;
    (product as u64) ^ (product >> 64) as u64
}
