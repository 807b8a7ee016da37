//! Long texts that are ends of one another.
//!
//! Texts may be ends of one long text. Read from its first character on, each of
//! 65,535 such texts is as long as a segment. So where a long text ends, the
//! hashes of its last 1,024, 2,048, 3,072 … characters are kept, and another text
//! that ends there is read only up to the nearest of these places.

use crate::carry::{carry, STEP, STEPS};
use crate::hash::{folded_hash, kept, string_hash};
use crate::reading::Right;
use crate::scan::{holds_zero, text_of};

/// Texts of so many bytes are worth the look.
pub const LONG: usize = STEP;

/// Hashes of the bytes just before an end, by the number of steps.
#[derive(Clone, Copy)]
struct Ladder {
    known: usize,
    hashes: [u32; STEPS],
}

impl Ladder {
    const EMPTY: Ladder = Ladder { known: 0, hashes: [0; STEPS] };

    /// The hash of a text, which goes up to this ladder's end.
    fn hash(&self, text: &[u8], hash: impl Fn(&[u8]) -> u32) -> u32 {
        let steps = text.len() / STEP;
        let head = &text[..text.len() % STEP];
        carry(hash(head), steps) ^ self.hashes[steps]
    }

    /// The lowest step of a text that is not known yet.
    fn next<'a>(&self, text: &'a [u8]) -> Option<&'a [u8]> {
        if self.known >= text.len() / STEP {
            return None;
        }
        let end = text.len() - self.known * STEP;
        Some(&text[end - STEP..end])
    }

    fn add(&mut self, hash: u32) {
        self.hashes[self.known + 1] = carry(hash, self.known) ^ self.hashes[self.known];
        self.known += 1;
    }
}

/// What is known of the texts that end at each of `ENDS` offsets. Where value hashes
/// are asked for, `FOLDED` is as large.
pub struct Tails<const ENDS: usize, const FOLDED: usize> {
    /// From where on no 0 is known to stand before an end, and the end.
    known: [(usize, usize); ENDS],
    plain: [Ladder; ENDS],
    folded: [Ladder; FOLDED],
    /// The one that is given up next.
    oldest: usize,
}

/// The hashes of a text.
pub struct Hashes {
    pub hash: u32,
    pub value_hash: u16,
}

impl<const ENDS: usize, const FOLDED: usize> Tails<ENDS, FOLDED> {
    /// Nothing is known yet.
    pub const EMPTY: Self = Tails {
        known: [(0, 0); ENDS],
        plain: [Ladder::EMPTY; ENDS],
        folded: [Ladder::EMPTY; FOLDED],
        oldest: 0,
    };

    /// The place of an end, with nothing known of it if it is new.
    fn place(&mut self, end: usize) -> usize {
        if let Some(place) = self.known.iter().position(|known| known.1 == end) {
            return place;
        }
        let place = self.oldest;
        self.oldest = (place + 1) % ENDS;
        self.known[place] = (end, end);
        self.plain[place].known = 0;
        if FOLDED > 0 {
            self.folded[place].known = 0;
        }
        place
    }

    /// The string hash of the bytes from `start` to `end`, where a text ends: at a 0 or
    /// with the used part. None where a 0 stands among them.
    pub fn hash(&mut self, file: &[u8], start: usize, end: usize) -> Option<u32> {
        let text = &file[start..end];
        let place = self.place(end);
        let ladder = &mut self.plain[place];
        while let Some(step) = ladder.next(text) {
            if holds_zero(step) {
                return None;
            }
            ladder.add(string_hash(Right, step));
            self.known[place].0 -= STEP;
        }
        let head = &text[..text.len() % STEP];
        (!holds_zero(head)).then(|| ladder.hash(text, |head| string_hash(Right, head)))
    }
}

impl<const ENDS: usize> Tails<ENDS, ENDS> {
    fn folded_hash(&mut self, file: &[u8], start: usize, end: usize) -> u32 {
        let text = &file[start..end];
        let place = self.place(end);
        let ladder = &mut self.folded[place];
        while let Some(step) = ladder.next(text) {
            ladder.add(folded_hash(step));
        }
        ladder.hash(text, folded_hash)
    }

    /// The hashes of the text that starts at `start`, in a used part that ends at
    /// `limit`. What is known of an end holds for all texts of its used part.
    pub fn text(&mut self, file: &[u8], start: usize, limit: usize) -> Option<Hashes> {
        let within = |known: &&(usize, usize)| known.0 <= start && start < known.1;
        let end = match self.known.iter().find(within) {
            Some(known) => known.1,
            None => start + text_of(&file[start..limit]).len(),
        };
        let text = &file[start..end];
        let (hash, folded) = if text.len() < LONG {
            (string_hash(Right, text), folded_hash(text))
        } else {
            (self.hash(file, start, end)?, self.folded_hash(file, start, end))
        };
        Some(Hashes { hash, value_hash: kept(folded) })
    }
}

#[cfg(test)]
mod tests {
    use super::*;
    use crate::hash::value_hash;

    /// Three texts, the first of them as long as can be with its 0. The last has none.
    fn characters() -> (Vec<u8>, [usize; 3]) {
        let mut seed: u32 = 1;
        let mut ends = [0; 3];
        let mut bytes = Vec::new();
        for (end, length) in ends.iter_mut().zip([65_534, 5_000, 1_024]) {
            for _ in 0..length {
                seed = seed.wrapping_mul(1_664_525).wrapping_add(1_013_904_223);
                bytes.extend_from_slice(&((seed >> 16 & 0x1ff) as u16 | 1).to_le_bytes());
            }
            *end = bytes.len();
            bytes.extend([0, 0]);
        }
        bytes.truncate(ends[2]);
        (bytes, ends)
    }

    #[test]
    fn ends_of_texts() {
        let (bytes, ends) = characters();
        let mut tails: Tails<2, 2> = Tails::EMPTY;
        let mut start = 0;
        for i in 0..3_000usize {
            start = (start + 2 * (7_919 * i + 13)) % bytes.len();
            let end = *ends.iter().find(|&&end| start <= end).unwrap();
            let text = &bytes[start..end];
            assert_eq!(tails.hash(&bytes, start, end), Some(string_hash(Right, text)));
            let found = tails.text(&bytes, start, bytes.len()).unwrap();
            assert_eq!(found.hash, string_hash(Right, text));
            assert_eq!(found.value_hash, value_hash(Right, text));
        }
    }

    #[test]
    fn zeros_within() {
        let (bytes, ends) = characters();
        let mut tails: Tails<2, 2> = Tails::EMPTY;
        assert_eq!(tails.hash(&bytes, 0, ends[1]), None);
        assert_eq!(tails.hash(&bytes, ends[0], ends[1]), None);
        assert!(tails.hash(&bytes, ends[0] + 2, ends[1]).is_some());
        assert_eq!(tails.hash(&bytes, ends[0], ends[1]), None);
    }

    /// The same characters with a used part that ends before the 0, just behind it, and
    /// inside the text.
    #[test]
    fn ends_of_used_parts() {
        let (bytes, ends) = characters();
        for limit in [ends[0], ends[0] + 2, ends[0] - 2, 4_096, 2] {
            let mut tails: Tails<2, 2> = Tails::EMPTY;
            for start in [0, 2, 2_048, 4_094].into_iter().filter(|&start| start < limit) {
                let text = &bytes[start..limit.min(ends[0])];
                let found = tails.text(&bytes, start, limit).unwrap();
                assert_eq!(found.hash, string_hash(Right, text));
                assert_eq!(found.value_hash, value_hash(Right, text));
            }
        }
    }
}
