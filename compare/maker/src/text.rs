//! Texts: vectors of characters without a 0.

use crate::rng::Rng;

pub type Text = Vec<u16>;

pub fn text(words: &str) -> Text {
    words.encode_utf16().collect()
}

pub fn to_bytes(text: &[u16]) -> Vec<u8> {
    text.iter().flat_map(|c| c.to_le_bytes()).collect()
}

/// The whole characters of some bytes.
pub fn from_bytes(bytes: &[u8]) -> Text {
    bytes.chunks_exact(2).map(|two| u16::from_le_bytes([two[0], two[1]])).collect()
}

/// Characters the outline escapes or the value hash folds, and their neighbours.
const ODD: [u16; 40] = [
    0x01, 0x09, 0x0a, 0x20, 0x21, 0x22, 0x23, 0x3c, 0x3d, 0x3e, 0x5b, 0x5c, 0x5d, 0x60, 0x61, 0x7a,
    0x7b, 0x7e, 0x7f, 0x80, 0x8c, 0x9c, 0x9f, 0xdf, 0xe0, 0xef, 0xf0, 0xf1, 0xf6, 0xf7, 0xf8, 0xfe,
    0xff, 0x100, 0x150, 0x151, 0x152, 0x8000, 0xd800, 0xffff,
];

const LETTERS: &[u8] = b"abcdefghijklmnopqrstuvwxyzABCDEFGHIJKLMNOPQRSTUVWXYZ0123456789_";

pub fn random(rng: &mut Rng, longest: usize) -> Text {
    let length = rng.between(0, longest);
    of_length(rng, length)
}

/// Characters of one sort or another, none of them 0.
pub fn of_length(rng: &mut Rng, length: usize) -> Text {
    let style = rng.below(4);
    (0..length)
        .map(|_| match style {
            0 => *rng.pick(&ODD),
            1 => rng.half().max(1),
            _ => *rng.pick(LETTERS) as u16,
        })
        .collect()
}

/// Printable letters only, never empty.
pub fn letters(rng: &mut Rng, shortest: usize, longest: usize) -> Text {
    let length = rng.between(shortest, longest);
    (0..length).map(|_| *rng.pick(LETTERS) as u16).collect()
}

/// Every character that matters to the outline or the fold, in one text.
pub fn every_odd() -> Text {
    ODD.to_vec()
}
