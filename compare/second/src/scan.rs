//! Reading a text, four characters at a time, with its hashes. It ends at the first
//! 0, or with the characters that are given.

use crate::fold::fold_four;
use crate::hash::{few, four, kept, one, otherwise, string_hash, value_hash};
use crate::reading::Reading;

/// A text: its length in bytes, without a 0, and hashes.
pub struct Scanned {
    pub bytes: usize,
    pub hash: u32,
    pub value_hash: u16,
}

const EACH: u64 = 0x0001_0001_0001_0001;

/// A bit in every lane that holds a 0 character. Lanes above the first such
/// lane may be flagged too, the ones below never.
#[inline(always)]
pub fn zero_lanes(characters: u64) -> u64 {
    characters.wrapping_sub(EACH) & !characters & (0x8000 * EACH)
}

/// The text at the start of some characters. The value hash is only made when it is
/// wanted.
#[inline(always)]
pub fn scan<R: Reading>(reading: R, chars: &[u8], with_value_hash: bool) -> Scanned {
    let (mut hash, mut folded) = (0, 0);
    let mut at = 0;
    while let Some(eight) = chars.get(at..at + 8) {
        let characters = u64::from_le_bytes(eight.try_into().unwrap());
        let zeros = zero_lanes(characters);
        if zeros != 0 {
            let left = zeros.trailing_zeros() as usize / 16;
            let last = characters & !(u64::MAX << (16 * left));
            hash = few(hash, last, left);
            if with_value_hash {
                folded = few(folded, fold_four(last), left);
            }
            return scanned(reading, &chars[..at + 2 * left], hash, folded);
        }
        hash = four(hash, characters);
        if with_value_hash {
            folded = four(folded, fold_four(characters));
        }
        at += 8;
    }
    for pair in chars[at..].chunks_exact(2) {
        let character = u16::from_le_bytes([pair[0], pair[1]]);
        if character == 0 {
            break;
        }
        hash = one(hash, character);
        if with_value_hash {
            folded = one(folded, fold_four(character as u64) as u16);
        }
        at += 2;
    }
    scanned(reading, &chars[..at], hash, folded)
}

#[inline(always)]
fn scanned<R: Reading>(reading: R, text: &[u8], hash: u32, folded: u32) -> Scanned {
    if otherwise(reading) {
        return Scanned {
            bytes: text.len(),
            hash: string_hash(reading, text),
            value_hash: value_hash(reading, text),
        };
    }
    Scanned { bytes: text.len(), hash, value_hash: kept(folded) }
}

/// The text at the start of some characters, without its hashes.
#[inline]
pub fn text_of(chars: &[u8]) -> &[u8] {
    let (fours, rest) = chars.as_chunks();
    for (i, &eight) in fours.iter().enumerate() {
        let zeros = zero_lanes(u64::from_le_bytes(eight));
        if zeros != 0 {
            return &chars[..8 * i + 2 * (zeros.trailing_zeros() as usize / 16)];
        }
    }
    let place = rest.chunks_exact(2).position(|pair| pair == [0, 0]);
    place.map_or(chars, |place| &chars[..8 * fours.len() + 2 * place])
}

/// Whether a text has a 0 character.
#[inline]
pub fn holds_zero(text: &[u8]) -> bool {
    let mut fours = text.chunks_exact(8);
    let mut flags = 0;
    for eight in &mut fours {
        flags |= zero_lanes(u64::from_le_bytes(eight.try_into().unwrap()));
    }
    let rest = fours.remainder().chunks_exact(2).any(|pair| pair == [0, 0]);
    flags != 0 || rest
}

#[cfg(test)]
mod tests {
    use super::*;
    use crate::definition;
    use crate::reading::Right;

    /// Characters of which at most one is 0: at each place, or none is.
    fn all_characters() -> impl Iterator<Item = Vec<u8>> {
        (0..40u16).flat_map(|length| {
            (0..=length).map(move |zero| {
                let character = |i| if i == zero { 0 } else { 0x60 + 0x0101 * (i % 7) };
                (0..length).flat_map(|i| character(i).to_le_bytes()).collect()
            })
        })
    }

    #[test]
    fn texts_end_at_a_0_or_with_the_characters() {
        for chars in all_characters() {
            let text = definition::text(&chars);
            assert_eq!(text_of(&chars), text);
            let scanned = scan(Right, &chars, true);
            assert_eq!(scanned.bytes, text.len());
            assert_eq!(scanned.hash, definition::hash_on(Right, 0, text));
            assert_eq!(scanned.value_hash, definition::value_hash(Right, text));
            assert_eq!(holds_zero(&chars), text.len() < chars.len());
        }
    }
}
