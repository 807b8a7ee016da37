//! Texts of more than 65,000 characters to ask for.

use super::strings::with_hash;
use crate::collide::{closed, closing};
use crate::rng::Rng;
use crate::text::{letters, Text};

/// Characters of the longest text that a file can have: those of a whole segment.
pub const LONGEST: usize = 65_535;

/// On both sides of what a file can have, and past what 16 and 17 bits can tell.
const LENGTHS: [usize; 7] = [65_534, 65_535, 65_536, 65_537, 70_000, 131_072, 131_073];

/// Texts with a hash, and as many with another one.
pub fn with_and_without(rng: &mut Rng, hash: u32) -> Vec<Text> {
    let other = rng.word();
    let each = LENGTHS.into_iter().flat_map(|length| [(length, hash), (length, other)]);
    each.map(|(length, hash)| with_hash(rng, length - 2, hash)).collect()
}

/// Texts with a hash that begin with another, of as many characters as it in 16 bits or
/// about as many.
pub fn begun_with(rng: &mut Rng, beginning: &[u16], hash: u32) -> Vec<Text> {
    let mut made = |more: usize| loop {
        let longer = [beginning, &letters(rng, more - 2, more - 2)].concat();
        if let Some(text) = closed(&longer, hash) {
            return text;
        }
    };
    [LONGEST, LONGEST + 1, LONGEST + 2].map(&mut made).to_vec()
}

/// Texts with a hash that hold one 0, at an end of what a file can have or behind it.
pub fn with_zero(rng: &mut Rng, hash: u32) -> Vec<Text> {
    let mut made = |place: usize| {
        let mut text = letters(rng, LONGEST + 3, LONGEST + 3);
        text[place] = 0;
        let end = closing(&text, hash);
        text.extend(end);
        text
    };
    [0, 64, LONGEST - 1, LONGEST, LONGEST + 2].map(&mut made).to_vec()
}
