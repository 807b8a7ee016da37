//! The string hash and the value hash.
//!
//! One step takes a byte: hash = T[(hash xor byte) mod 256] xor (hash >> 8).
//! T is linear over GF(2) (T[a xor b] = T[a] xor T[b]), so the step is linear
//! in hash and byte together, and several bytes can be taken at once from
//! tables of T carried k steps further: the same slicing as for a plain CRC.
//!
//! Wrong and literal readings hash by the definition instead.

use crate::crc_table::T;
use crate::definition;
use crate::fold::{fold_block, fold_four, BLOCK};
use crate::reading::{Mutant, Reading};

/// Bytes taken at once from a long text, and tables for them. Short texts get by
/// with half of them, which leaves the caches to others.
const SLICED: usize = 16;

/// A text of so many bytes is long.
const LONG: usize = 64;

/// SLICES[k][b]: T[b] after k more steps with byte 0.
static SLICES: [[u32; 256]; SLICED] = slices();

const fn slices() -> [[u32; 256]; SLICED] {
    let mut all = [T; SLICED];
    let mut k = 1;
    while k < SLICED {
        let mut b = 0;
        while b < 256 {
            let before = all[k - 1][b];
            all[k][b] = T[(before & 255) as usize] ^ (before >> 8);
            b += 1;
        }
        k += 1;
    }
    all
}

#[inline(always)]
fn slice(k: usize, word: u32, byte: u32) -> u32 {
    SLICES[k][(word >> (8 * byte) & 255) as usize]
}

/// Four bytes, and k more steps with byte 0.
#[inline(always)]
fn word(k: usize, word: u32) -> u32 {
    slice(k + 3, word, 0) ^ slice(k + 2, word, 1) ^ slice(k + 1, word, 2) ^ slice(k, word, 3)
}

#[inline(always)]
fn half(hash: u32, byte: u8) -> u32 {
    slice(0, hash ^ byte as u32, 0) ^ (hash >> 8)
}

#[inline(always)]
pub fn one(hash: u32, character: u16) -> u32 {
    let x = hash ^ character as u32;
    slice(1, x, 0) ^ slice(0, x, 1) ^ (x >> 16)
}

#[inline(always)]
pub fn two(hash: u32, characters: u32) -> u32 {
    word(0, hash ^ characters)
}

#[inline(always)]
pub fn four(hash: u32, characters: u64) -> u32 {
    word(4, hash ^ characters as u32) ^ word(0, (characters >> 32) as u32)
}

/// Only the first word waits for the hash before.
#[inline(always)]
fn eight(hash: u32, characters: u128) -> u32 {
    let later = word(8, (characters >> 32) as u32)
        ^ word(4, (characters >> 64) as u32)
        ^ word(0, (characters >> 96) as u32);
    word(12, hash ^ characters as u32) ^ later
}

/// Up to three characters, packed from the low end.
#[inline(always)]
pub fn few(mut hash: u32, mut characters: u64, mut count: usize) -> u32 {
    if count >= 2 {
        hash = two(hash, characters as u32);
        characters >>= 32;
        count -= 2;
    }
    if count == 1 {
        hash = one(hash, characters as u16);
    }
    hash
}

/// Packs up to three characters from the low end.
#[inline(always)]
pub fn pack(bytes: &[u8]) -> u64 {
    let mut packed = 0;
    for (i, pair) in bytes.chunks_exact(2).enumerate() {
        packed |= (u16::from_le_bytes([pair[0], pair[1]]) as u64) << (16 * i);
    }
    packed
}

/// Whether a reading hashes by the definition: other hashes than the papers, or
/// literally the same.
#[inline(always)]
pub fn otherwise<R: Reading>(reading: R) -> bool {
    reading.literal() || reading.changes_hashes()
}

/// The string hash of a text given as bytes, two a character.
#[inline]
pub fn string_hash<R: Reading>(reading: R, text: &[u8]) -> u32 {
    hash_on(reading, 0, text)
}

/// The string hash, on from `start` over all bytes of the text. An odd last
/// byte is the low byte of a character; its high byte comes with the next part.
#[inline]
pub fn hash_on<R: Reading>(reading: R, start: u32, text: &[u8]) -> u32 {
    if otherwise(reading) {
        return definition::hash_on(reading, start, text);
    }
    let (hash, text) = if text.len() < LONG { (start, text) } else { long(start, text) };
    let (fours, rest) = text.as_chunks();
    let (twos, rest) = rest.as_chunks();
    let (ones, rest) = rest.as_chunks();
    let hash = fours.iter().fold(hash, |hash, &x| four(hash, u64::from_le_bytes(x)));
    let hash = twos.iter().fold(hash, |hash, &x| two(hash, u32::from_le_bytes(x)));
    let hash = ones.iter().fold(hash, |hash, &x| one(hash, u16::from_le_bytes(x)));
    rest.iter().fold(hash, |hash, &x| half(hash, x))
}

/// The hash of a long text but for its last bytes, and these.
fn long(start: u32, text: &[u8]) -> (u32, &[u8]) {
    let (all, rest) = text.as_chunks();
    (eights(start, all), rest)
}

#[inline(always)]
fn eights(start: u32, all: &[[u8; SLICED]]) -> u32 {
    all.iter().fold(start, |hash, &x| eight(hash, u128::from_le_bytes(x)))
}

/// The string hash of the folded characters, low 14 bits. An odd last byte is
/// no character.
#[inline]
pub fn value_hash<R: Reading>(reading: R, text: &[u8]) -> u16 {
    if otherwise(reading) {
        return definition::value_hash(reading, text);
    }
    kept(folded_hash(text))
}

/// What the value hash keeps of the hash of the folded characters.
#[inline(always)]
pub fn kept(folded: u32) -> u16 {
    folded as u16 & 0x3fff
}

/// The string hash of the folded characters, all of its bits.
#[inline]
pub fn folded_hash(text: &[u8]) -> u32 {
    let (blocks, rest) = text.as_chunks::<BLOCK>();
    let (fours, rest) = rest.as_chunks();
    let hash = blocks.iter().fold(0, |hash, block| eights(hash, fold_block(block).as_chunks().0));
    let hash = fours.iter().fold(hash, |hash, &x| four(hash, fold_four(u64::from_le_bytes(x))));
    few(hash, fold_four(pack(rest)), rest.len() / 2)
}

/// The bucket of a hash among `buckets`.
#[inline(always)]
pub fn bucket<R: Reading>(reading: R, hash: u32, buckets: usize) -> usize {
    let mixed = if reading.wrong(Mutant::BucketWithoutFold) { hash } else { hash ^ (hash >> 16) };
    mixed as usize % buckets
}

#[cfg(test)]
mod tests {
    use super::*;
    use crate::reading::Right;

    fn bytes(characters: &[u16]) -> Vec<u8> {
        characters.iter().flat_map(|c| c.to_le_bytes()).collect()
    }

    #[test]
    fn vectors() {
        assert_eq!(string_hash(Right, &[]), 0);
        let one = string_hash(Right, &bytes(&[1]));
        assert_eq!(one, 0xa37d_1c66);
        assert_eq!(bucket(Right, one, 1024), 795);
        assert_eq!(bucket(Right, one, 512), 283);
        assert_eq!(value_hash(Right, &bytes(&[1])), 7270);
        assert_eq!(string_hash(Right, &bytes(&[0x61])), 0x988b_d23b);
        assert_eq!(value_hash(Right, &bytes(&[0x61])), 6132);
        assert_eq!(value_hash(Right, &bytes(&[0x41])), 6132);
    }

    #[test]
    fn vectors_in_parts() {
        let on = |start, part: &[u8]| hash_on(Right, start, part);
        assert_eq!(on(on(0, &[0x01]), &[0x00]), 0xa37d_1c66);
        assert_eq!(on(on(0, &[0x61]), &[0x00]), 0x988b_d23b);
        assert_eq!(on(on(on(0, &[]), &[0x61, 0x00]), &[]), 0x988b_d23b);
        for start in [0, 1, 0x988b_d23b, u32::MAX] {
            assert_eq!(on(start, &[]), start);
        }
    }

    #[test]
    fn odd_last_byte() {
        // The hash takes it for a low byte: one step from 0 gives T at it.
        assert_eq!(hash_on(Right, 0, &[0x01]), 0x04c1_1db7);
        assert_eq!(hash_on(Right, 0, &[0xff]), 0xb1f7_40b4);
        // The value hash leaves it out.
        assert_eq!(value_hash(Right, &[0x61]), 0);
        assert_eq!(value_hash(Right, &[0x61, 0x00, 0x62]), 6132);
        assert_ne!(value_hash(Right, &[0x61, 0x00, 0x62, 0x00]), 6132);
    }

    #[test]
    fn zero_is_a_character() {
        assert_eq!(hash_on(Right, 0x01, &[0x00]), 0x04c1_1db7);
        assert_ne!(string_hash(Right, &bytes(&[0x61, 0])), 0x988b_d23b);
        assert_ne!(value_hash(Right, &bytes(&[0x61, 0])), 6132);
        let (joined, cut) = (bytes(&[0x61, 0, 0x62]), bytes(&[0x61, 0, 0x63]));
        assert_ne!(string_hash(Right, &joined), string_hash(Right, &cut));
        assert_ne!(value_hash(Right, &joined), value_hash(Right, &cut));
    }

    /// Characters of all sorts, most of them below 0100.
    fn texts() -> impl Iterator<Item = (u32, Vec<u8>)> {
        let mut seed: u32 = 1;
        (0..300).map(move |length| {
            let text = (0..length).map(|i| {
                seed = seed.wrapping_mul(1_664_525).wrapping_add(1_013_904_223);
                let ascii = length % 3 == 0;
                let high = i % 2 == 1 && (ascii || seed >> 30 != 0);
                (if high { 0 } else { seed >> 23 & if ascii { 0x7f } else { 0xff } }) as u8
            });
            let text = text.collect();
            (seed, text)
        })
    }

    #[test]
    fn slicing_agrees_with_the_definition() {
        for (start, text) in texts() {
            assert_eq!(
                hash_on(Right, start, &text),
                definition::hash_on(Right, start, &text),
                "{text:02x?} from {start:08x}"
            );
            assert_eq!(
                value_hash(Right, &text),
                definition::value_hash(Right, &text),
                "{text:02x?}"
            );
        }
    }

    #[test]
    fn parts_go_on_to_the_whole() {
        for (start, text) in texts() {
            let whole = hash_on(Right, start, &text);
            for cut in 0..=text.len() {
                let (first, second) = text.split_at(cut);
                assert_eq!(hash_on(Right, hash_on(Right, start, first), second), whole);
            }
        }
    }

    #[test]
    fn folded_text_has_the_same_value_hash() {
        for (_, text) in texts() {
            let folded = definition::folded(Right, &text);
            assert_eq!(value_hash(Right, &folded), value_hash(Right, &text));
        }
    }
}
