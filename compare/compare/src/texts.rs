//! Texts to be hashed by themselves: any characters, 0 too, and sometimes an
//! odd byte at the end.

use std::collections::HashMap;

use maker::letter::alike::{ITEM, PHRASE};
use maker::letter::rule::{CAPITAL, LETTER};
use maker::letter::words::WORDS;
use maker::rng::Rng;
use maker::text::{every_odd, text, to_bytes, Text};
use second::hashes::value_hash;

/// Sorts of characters.
const SORTS: usize = 6;

fn character(rng: &mut Rng, sort: usize, odd: &[u16]) -> u16 {
    match sort {
        0 => (rng.below(26) + *rng.pick(&[0x41, 0x61])) as u16,
        1 => rng.below(0x80) as u16,
        2 => (0x80 + rng.below(0x80)) as u16,
        3 => *rng.pick(odd),
        4 => 0,
        _ => rng.half(),
    }
}

/// So many bytes: of one sort of characters, or of all sorts.
pub fn random(rng: &mut Rng, bytes: usize) -> Vec<u8> {
    let odd = every_odd();
    let sort = rng.below(2 * SORTS);
    let characters: Text = (0..bytes.div_ceil(2))
        .map(|_| {
            let sort = if sort < SORTS { sort } else { rng.below(SORTS) };
            character(rng, sort, &odd)
        })
        .collect();
    let mut text = to_bytes(&characters);
    text.truncate(bytes);
    text
}

/// A text of up to 80 characters, with an odd byte now and then.
pub fn short(rng: &mut Rng) -> Vec<u8> {
    let bytes = 2 * rng.between(0, 80) + rng.one_in(3) as usize;
    random(rng, bytes)
}

/// Some dozens of texts: of each number of bytes up to 24, and longer ones.
pub fn ordinary(rng: &mut Rng) -> Vec<Vec<u8>> {
    let mut all: Vec<Vec<u8>> = (0..=24).map(|bytes| random(rng, bytes)).collect();
    all.extend((0..40).map(|_| short(rng)));
    all
}

/// Texts of 1 to 20 characters with 0151 at each place, its capital beside it now and
/// then; the same character alone; and words.
pub fn letters(rng: &mut Rng) -> Vec<Vec<u8>> {
    let mut all: Vec<Vec<u8>> = Vec::new();
    for length in 1..=20 {
        for place in 0..length {
            let mut text = random(rng, 2 * length);
            if rng.one_in(2) {
                put(&mut text, (place + 1) % length, CAPITAL);
            }
            put(&mut text, place, LETTER);
            all.push(text);
        }
        all.extend([LETTER, CAPITAL].map(|letter| to_bytes(&vec![letter; length])));
    }
    let words = WORDS.into_iter().chain([PHRASE, ITEM]);
    all.extend(words.map(|word| to_bytes(&text(word))));
    all
}

/// Long texts with 0151 at both ends, or where a program may change its way.
pub fn long_letters(rng: &mut Rng) -> Vec<Vec<u8>> {
    let places =
        [(65, [0, 31, 63, 64]), (130, [1, 32, 65, 129]), (4_102, [0, 4_095, 4_096, 4_101])];
    let each = places.into_iter().flat_map(|(length, places)| places.map(|place| (length, place)));
    let with = |(length, place): (usize, usize)| {
        let mut text = random(rng, 2 * length);
        put(&mut text, place, LETTER);
        text
    };
    each.map(with).collect()
}

fn put(text: &mut [u8], place: usize, character: u16) {
    text[2 * place..2 * place + 2].copy_from_slice(&character.to_le_bytes());
}

/// Texts on both sides of lengths where a program may change its way, and two
/// that are longer than a segment.
pub fn long(rng: &mut Rng) -> Vec<Vec<u8>> {
    let about = [255..=260, 511..=516, 1_023..=1_028, 2_047..=2_052];
    let longest = [2 * 65_535, 2 * 70_000 + 1];
    about.into_iter().flatten().chain(longest).map(|bytes| random(rng, bytes)).collect()
}

/// Pairs of words with one value hash, which do not fold to one text.
pub fn pairs(rng: &mut Rng, count: usize) -> Vec<[Vec<u8>; 2]> {
    let mut seen: HashMap<u16, Vec<u8>> = HashMap::new();
    let mut pairs = Vec::new();
    while pairs.len() < count {
        let letters: Text = (0..rng.between(3, 6)).map(|_| (0x61 + rng.below(26)) as u16).collect();
        let word = to_bytes(&letters);
        match seen.insert(value_hash(&word), word.clone()) {
            Some(other) if other != word => pairs.push([other, word]),
            _ => {}
        }
    }
    pairs
}

#[cfg(test)]
mod tests {
    use super::*;

    #[test]
    fn pairs_share_the_value_hash_and_part_when_gone_on_with() {
        let mut rng = Rng::new(1);
        let pairs = pairs(&mut rng, 20);
        let parts = |[first, second]: &[Vec<u8>; 2]| {
            assert_ne!(first, second);
            assert_eq!(value_hash(first), value_hash(second));
            let more = [0x61, 0];
            value_hash(&[&first[..], &more].concat()) != value_hash(&[&second[..], &more].concat())
        };
        assert!(pairs.iter().any(parts));
    }
}
