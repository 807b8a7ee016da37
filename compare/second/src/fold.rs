//! The fold of the value hash.

use crate::letter::fold_above;
use crate::reading::{Mutant, Reading, Right};

/// One character, by the words of document 01 and request T-10: 0151 stays.
#[inline]
pub fn fold<R: Reading>(reading: R, character: u16) -> u16 {
    match character {
        0x009c if !reading.wrong(Mutant::Fold009cStays) => 0x008c,
        0x00ff => 0x009f,
        0x00f7 if reading.wrong(Mutant::FoldF7) => 0x00d7,
        0x00f0 | 0x00f7 => character,
        0x0061..=0x007a | 0x00e0..=0x00fe => character - 0x20,
        0x0100.. => fold_above(reading, character),
        _ => character,
    }
}

const EACH: u64 = 0x0001_0001_0001_0001;

/// Bits that no character below 0080 has.
const PAST_ASCII: u64 = 0xff80 * EACH;

/// Four packed characters below 0080, where only a to z change: each lane gets
/// bit 7 by adding what is missing to 0080.
#[inline(always)]
fn fold_ascii(characters: u64) -> u64 {
    let from_a = characters + (0x80 - 0x61) * EACH;
    let past_z = characters + (0x80 - 0x7b) * EACH;
    let small = from_a & !past_z & (0x80 * EACH);
    characters - (small >> 2)
}

/// Four packed characters. Nearly all text is below 0080.
#[inline(always)]
pub fn fold_four(characters: u64) -> u64 {
    if characters & PAST_ASCII == 0 {
        fold_ascii(characters)
    } else {
        fold_each(characters)
    }
}

fn fold_each(characters: u64) -> u64 {
    (0..4).fold(0, |folded, lane| {
        let character = (characters >> (16 * lane)) as u16;
        folded | (fold(Right, character) as u64) << (16 * lane)
    })
}

/// Bytes of a long text that are folded at once.
pub const BLOCK: usize = 64;

/// A block of characters, as bytes.
#[inline(always)]
pub fn fold_block(block: &[u8; BLOCK]) -> [u8; BLOCK] {
    let mut folded = *block;
    let (fours, _) = folded.as_chunks_mut();
    if fours.iter().fold(0, |all, &four| all | u64::from_le_bytes(four)) & PAST_ASCII == 0 {
        for four in fours {
            *four = fold_ascii(u64::from_le_bytes(*four)).to_le_bytes();
        }
    } else {
        for one in folded.as_chunks_mut().0 {
            *one = fold_without_branch(u16::from_le_bytes(*one)).to_le_bytes();
        }
    }
    folded
}

/// One character without a branch, so that many are folded at once. Each change
/// flips bits.
#[inline(always)]
fn fold_without_branch(character: u16) -> u16 {
    let is = |other| (character == other) as u16;
    let among = |first, count| (character.wrapping_sub(first) < count) as u16;
    let stays = is(0xf0) | is(0xf7);
    let letter = among(0x61, 26) | among(0xe0, 31) & !stays;
    character ^ (letter << 5) ^ (is(0x9c) << 4) ^ (is(0xff) * 0x60)
}

#[cfg(test)]
mod tests {
    use super::*;

    #[test]
    fn vectors() {
        assert_eq!(fold(Right, 0x00ff), 0x009f);
        assert_eq!(fold(Right, 0x00f7), 0x00f7);
        assert_eq!(fold(Right, 0x00f0), 0x00f0);
        assert_eq!(fold(Right, 0x0151), 0x0151);
        assert_eq!(fold(Right, 0x0150), 0x0150);
        assert_eq!(fold(Right, 0x009c), 0x008c);
        assert_eq!(fold(Right, 0x00fe), 0x00de);
        assert_eq!(fold(Right, 0x0060), 0x0060);
        assert_eq!(fold(Right, 0x007b), 0x007b);
    }

    #[test]
    fn twice_is_once() {
        for character in 0..=0xffffu16 {
            let once = fold(Right, character);
            assert_eq!(fold(Right, once), once);
        }
    }

    #[test]
    fn many_at_once_agree_with_one() {
        for character in 0..=0xffffu16 {
            let right = fold(Right, character);
            let packed = u64::from(character) << 32 | 0x0061;
            let folded = fold_four(packed);
            assert_eq!((folded >> 32) as u16, right);
            assert_eq!(folded as u16, 0x0041);
            let [low, high] = character.to_le_bytes();
            let mut block = [0; BLOCK];
            (block[0], block[32], block[33]) = (0x61, low, high);
            let folded = fold_block(&block);
            assert_eq!(u16::from_le_bytes([folded[32], folded[33]]), right);
            assert_eq!(folded[..4], [0x41, 0, 0, 0]);
        }
    }

    /// 0150 and 0151 at each place of a group and of a block, beside ASCII and others.
    #[test]
    fn the_letter_stays_at_every_place() {
        for (letter, other) in [(0x0151u16, 0x61u16), (0x0151, 0xe1), (0x0150, 0x61)] {
            for place in 0..BLOCK / 2 {
                let character = |i| if i == place { letter } else { other };
                let folded = |i| if i == place { letter } else { other - 0x20 };
                let bytes = |of: &dyn Fn(usize) -> u16| {
                    let all: Vec<u8> = (0..BLOCK / 2).flat_map(|i| of(i).to_le_bytes()).collect();
                    all
                };
                let block: [u8; BLOCK] = bytes(&character).try_into().unwrap();
                assert_eq!(fold_block(&block)[..], bytes(&folded));
                let group = place / 4 * 8..place / 4 * 8 + 8;
                let four = u64::from_le_bytes(block[group.clone()].try_into().unwrap());
                assert_eq!(fold_four(four).to_le_bytes(), bytes(&folded)[group]);
            }
        }
    }
}
