//! Texts with a wished hash, by linear algebra over GF(2).
//!
//! The hash of a text of fixed length is affine in the bits of its characters.
//! Flipping a set of bits changes the hash by the xor of what each bit alone
//! changes, so a wished change is a linear system with 32 rows.

use std::sync::LazyLock;

use second::hashes::{by_definition, string_hash};

use crate::rng::Rng;
use crate::text::{letters, to_bytes, Text};

pub fn hash(text: &[u16]) -> u32 {
    string_hash(&to_bytes(text))
}

/// One reduced vector: a change of the hash and the flips that make it, a bit
/// for each flip.
struct Row {
    change: u32,
    flips: u64,
}

/// Another text of the base's length with the wished hash, made by flipping the
/// low four bits of its first characters. None where no flips give that hash.
pub fn with_hash(rng: &mut Rng, base: &[u16], wished: u32) -> Option<Text> {
    let mut bits: Vec<(usize, u16)> = (0..base.len().min(16))
        .flat_map(|place| (0..4).map(move |bit| (place, 1 << bit)))
        .collect();
    rng.shuffle(&mut bits);
    let start = hash(base);
    let mut rows: Vec<Row> = Vec::new();
    let mut idle: Vec<u64> = Vec::new();
    for (number, &(place, bit)) in bits.iter().enumerate() {
        let mut flipped = base.to_vec();
        flipped[place] ^= bit;
        let (change, flips) = reduce(&rows, hash(&flipped) ^ start, 1 << number);
        if change == 0 {
            idle.push(flips);
        } else {
            rows.push(Row { change, flips });
        }
    }
    let (left, mut flips) = reduce(&rows, start ^ wished, 0);
    if left != 0 {
        return None;
    }
    // Flips that change nothing make the text another one.
    let forced = rng.below(idle.len().max(1));
    for (number, set) in idle.iter().enumerate() {
        if number == forced || rng.one_in(2) {
            flips ^= set;
        }
    }
    let mut made = base.to_vec();
    for (number, &(place, bit)) in bits.iter().enumerate() {
        made[place] ^= if flips >> number & 1 == 1 { bit } else { 0 };
    }
    (made != base && !made.contains(&0)).then_some(made)
}

/// Another text with the same hash and length. The base needs about ten
/// characters for it.
pub fn twin(rng: &mut Rng, base: &[u16]) -> Option<Text> {
    (0..8).find_map(|_| with_hash(rng, base, hash(base)))
}

fn reduce(rows: &[Row], mut change: u32, mut flips: u64) -> (u32, u64) {
    for row in rows {
        let top = 1 << (31 - row.change.leading_zeros());
        if change & top != 0 {
            change ^= row.change;
            flips ^= row.flips;
        }
    }
    (change, flips)
}

/// A hash of the given bucket among `buckets`.
pub fn hash_in_bucket(rng: &mut Rng, bucket: usize, buckets: usize) -> u32 {
    let hash = rng.word();
    let mixed = (hash ^ (hash >> 16)) as usize % buckets;
    // The low bits stand alone in the mix, so flipping them moves the bucket.
    hash ^ (mixed ^ bucket) as u32
}

/// The two characters that give a text the wished hash, whatever it begins with.
///
/// A step takes the hash xor the next byte, and four steps are one to one: from
/// a hash h, the characters h xor y lead where y leads from 0.
pub fn closing(beginning: &[u16], wished: u32) -> [u16; 2] {
    let word = hash(beginning) ^ four_bytes_to(wished);
    [word as u16, (word >> 16) as u16]
}

/// A text with the wished hash that begins so, if none of its characters is 0.
pub fn closed(beginning: &[u16], wished: u32) -> Option<Text> {
    let mut text = beginning.to_vec();
    text.extend(closing(beginning, wished));
    (!text.contains(&0)).then_some(text)
}

/// Another text with the same hash, of any length. It begins with a few letters.
pub fn stranger(rng: &mut Rng, base: &[u16]) -> Text {
    let wished = hash(base);
    loop {
        let beginning = letters(rng, 1, 12);
        let made = closed(&beginning, wished).filter(|text| text != base);
        if let Some(text) = made {
            return text;
        }
    }
}

/// A text that begins so, ends in a 0 character and has the wished hash. No other
/// character behind the beginning is 0.
pub fn closed_before_zero(beginning: &[u16], wished: u32) -> Option<Text> {
    let mut text = closed(beginning, before_zeros(wished, 2))?;
    text.push(0);
    Some(text)
}

/// Beginnings of two characters, all different.
pub fn beginnings() -> impl Iterator<Item = [u16; 2]> {
    (1..u16::MAX).flat_map(|high| (1..=250).map(move |low| [low, high]))
}

/// The four bytes that lead from 0 to a hash. A step takes the hash xor the byte, so they
/// are the hash from which four bytes 0 lead there.
fn four_bytes_to(hash: u32) -> u32 {
    before_zeros(hash, 4)
}

/// The hash from which so many bytes 0 lead to this one, found by going back a step for
/// each. A step's high byte is that of the table's entry alone, and all entries differ
/// there.
fn before_zeros(hash: u32, bytes: usize) -> u32 {
    static BY_HIGH_BYTE: LazyLock<[(u8, u32); 256]> = LazyLock::new(|| {
        let mut entries: [(u8, u32); 256] =
            std::array::from_fn(|byte| (byte as u8, by_definition::hash(0, &[byte as u8])));
        entries.sort_by_key(|&(_, entry)| entry >> 24);
        entries
    });
    (0..bytes).fold(hash, |hash, _| {
        let (byte, entry) = BY_HIGH_BYTE[(hash >> 24) as usize];
        (hash ^ entry) << 8 | byte as u32
    })
}

#[cfg(test)]
mod tests {
    use super::*;

    #[test]
    fn closings_give_the_hash() {
        let mut rng = Rng::new(3);
        for wished in [0, 1, u32::MAX, 0x8000_0000, 77] {
            let mut made = letters(&mut rng, 0, 9);
            made.extend(closing(&made, wished));
            assert_eq!(hash(&made), wished);
        }
    }

    #[test]
    fn strangers_and_texts_with_a_last_0_share_the_hash() {
        let mut rng = Rng::new(4);
        for length in 0..20 {
            let base = letters(&mut rng, length, length);
            let other = stranger(&mut rng, &base);
            assert!(other != base && !other.contains(&0));
            assert_eq!(hash(&other), hash(&base));
            let ended = closed_before_zero(&letters(&mut rng, 3, 3), hash(&base));
            assert!(ended.is_none_or(|text| text.ends_with(&[0]) && hash(&text) == hash(&base)));
        }
    }

    #[test]
    fn twins_share_the_hash() {
        let mut rng = Rng::new(1);
        let mut made = 0;
        for _ in 0..50 {
            let base = letters(&mut rng, 12, 16);
            if let Some(other) = twin(&mut rng, &base) {
                assert_ne!(base, other);
                assert_eq!(hash(&base), hash(&other));
                made += 1;
            }
        }
        assert!(made > 40);
    }

    #[test]
    fn any_hash_can_be_had() {
        let mut rng = Rng::new(2);
        let mut made = 0;
        for wished in [0, 1, u32::MAX, 0x8000_0000, 77] {
            let base = letters(&mut rng, 16, 16);
            made += with_hash(&mut rng, &base, wished).is_some_and(|t| hash(&t) == wished) as u32;
        }
        assert!(made >= 4, "{made}");
    }
}
