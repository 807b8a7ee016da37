//! Texts and hashes by the words of document 01 and requests T-01 and T-10, a character
//! or a byte at a time: what the fast forms are compared with, and where wrong readings
//! of the hashes differ.

use crate::crc_table::T;
use crate::fold::fold;
use crate::letter::{fold_at, with_capital};
use crate::reading::{Mutant, Reading};

/// The text at the start of some characters: those up to the first 0, or all of them
/// where none is 0. The characters are those of a segment's used part from an address
/// on, so that is where a text ends at the latest.
pub fn text(chars: &[u8]) -> &[u8] {
    let zero = chars.chunks_exact(2).position(|character| character == [0, 0]);
    zero.map_or(chars, |zero| &chars[..2 * zero])
}

fn step<R: Reading>(reading: R, hash: u32, byte: u8) -> u32 {
    if reading.wrong(Mutant::HashShiftsLeft) {
        return T[(hash >> 24) as usize ^ byte as usize] ^ (hash << 8);
    }
    let by = if reading.wrong(Mutant::HashShiftsByFour) { 4 } else { 8 };
    T[((hash ^ byte as u32) % 256) as usize] ^ (hash >> by)
}

/// For each character its low byte, then its high byte.
fn steps<R: Reading>(reading: R, start: u32, text: &[u8]) -> u32 {
    text.chunks(2).fold(start, |hash, character| match *character {
        [low, high] if reading.wrong(Mutant::HashHighByteFirst) => {
            step(reading, step(reading, hash, high), low)
        }
        _ => character.iter().fold(hash, |hash, &byte| step(reading, hash, byte)),
    })
}

/// The bytes that the string hash takes: all, by the right reading.
fn hashed<R: Reading>(reading: R, text: &[u8]) -> &[u8] {
    if reading.wrong(Mutant::OddByteDropped) {
        return &text[..text.len() / 2 * 2];
    }
    if reading.wrong(Mutant::ZeroEndsHash) {
        return self::text(text);
    }
    text
}

/// The string hash, on from `start` over all bytes of the text.
pub fn hash_on<R: Reading>(reading: R, start: u32, text: &[u8]) -> u32 {
    let text = hashed(reading, text);
    if reading.wrong(Mutant::StringHash0151) {
        return steps(reading, start, &with_capital(text));
    }
    if reading.wrong(Mutant::StartIgnored) {
        return steps(reading, 0, text);
    }
    if reading.wrong(Mutant::StartAfterText) && start != 0 {
        return steps(reading, steps(reading, 0, text), &start.to_le_bytes());
    }
    if reading.wrong(Mutant::StartXored) {
        return start ^ steps(reading, 0, text);
    }
    let hash = steps(reading, start, text);
    if text.len() % 2 == 1 && reading.wrong(Mutant::OddBytePadded) {
        return step(reading, hash, 0);
    }
    hash
}

/// The characters of the value hash: whole ones alone.
fn characters<R: Reading>(reading: R, text: &[u8]) -> impl Iterator<Item = u16> + '_ {
    let odd_counts = reading.wrong(Mutant::OddByteIsCharacter);
    let zero_ends = reading.wrong(Mutant::ZeroEndsValueHash);
    let all = text.chunks(2).filter_map(move |bytes| match *bytes {
        [low, high] => Some(u16::from_le_bytes([low, high])),
        [low] if odd_counts => Some(low as u16),
        _ => None,
    });
    all.take_while(move |&character| character != 0 || !zero_ends)
}

fn folded_characters<'a, R: Reading + 'a>(
    reading: R,
    text: &'a [u8],
) -> impl Iterator<Item = u16> + 'a {
    let all = characters(reading, text).enumerate();
    all.map(move |(place, character)| fold_at(reading, text, place, character))
}

/// The folded characters of a text.
pub fn folded<R: Reading>(reading: R, text: &[u8]) -> Vec<u8> {
    folded_characters(reading, text).flat_map(u16::to_le_bytes).collect()
}

/// The string hash of the folded characters.
pub fn folded_hash<R: Reading>(reading: R, text: &[u8]) -> u32 {
    folded_characters(reading, text)
        .fold(0, |hash, character| steps(reading, hash, &character.to_le_bytes()))
}

/// The value hash of the whole characters of the text.
pub fn value_hash<R: Reading>(reading: R, text: &[u8]) -> u16 {
    let late = reading.wrong(Mutant::FoldAfterHash);
    let hash = if late || reading.wrong(Mutant::ValueHashUnfolded) {
        steps(reading, 0, &text[..text.len() / 2 * 2]) as u16
    } else {
        folded_hash(reading, text) as u16
    };
    let hash = if late { fold(reading, hash) } else { hash };
    if reading.wrong(Mutant::ValueHashOf16Bits) {
        return hash;
    }
    hash & 0x3fff
}
