//! Values with one hash, ends of one another, crowded buckets, and collided texts.

use second::hashes::{by_definition, folded};

use super::parts::{
    left, names, nodes_of_ranges, placed, table_of, tree, whole_ranges, Characters, Parts,
    ATTRIBUTE, ENTRY, FULL, NODE,
};
use super::{Ask, Class, Trap, KB, MB};
use crate::attributes::text_attribute;
use crate::buckets::hashes::Hashes;
use crate::collide::{beginnings, closed, hash};
use crate::model::{Addr, Attr};
use crate::rng::Rng;
use crate::table::{string_table, Placed};
use crate::text::{letters, to_bytes, Text};

pub fn classes() -> Vec<Class> {
    let crowd = |hashes: fn(usize, usize) -> u32| move |bytes| crowded_bucket(bytes, hashes);
    let batch = |hashes| move |bytes| crowd(hashes)(bytes).batch();
    let singles = |hashes| move |bytes| crowd(hashes)(bytes).singles();
    vec![
        Class::new("one-hash-words", 60 * KB, |bytes| words(bytes, FULL / WORD - 2)),
        Class::new("one-hash-words-alike", 60 * KB, |bytes| words(bytes, left(bytes) / 8 / 26)),
        Class::new("one-hash-short", MB, |bytes| one_hash(bytes, 0).accepted()),
        Class::new("one-hash-alike", MB, |bytes| one_hash(bytes, 60).accepted()),
        Class::new("one-hash-repeat", MB, repeat_last),
        Class::new("one-hash-uncarried", MB, uncarried_last),
        Class::new("one-hash-attributes", MB, crowd_attributes),
        Class::new("suffixes", 500 * KB, |bytes| suffixes(bytes, 4, false)),
        Class::new("suffixes-attributes", 500 * KB, |bytes| suffixes(bytes, 4, true)),
        Class::new("suffixes-sparse", 2 * MB, |bytes| suffixes(bytes, 64, false)),
        Class::new("bucket-even-batch", MB, batch(even)),
        Class::new("bucket-even-single", MB, singles(even)),
        Class::new("bucket-clustered-batch", MB, batch(clustered)),
        Class::new("bucket-clustered-single", MB, singles(clustered)),
        Class::new("bucket-one-hash-batch", MB, batch(all_but_one_equal)),
        Class::new("bucket-one-hash-single", MB, singles(all_but_one_equal)),
        Class::new("empty-texts-batch", MB, empty_texts),
        Class::new("collided-batch", MB, collided),
        Class::new("collided-single", MB, collided_one_by_one),
        Class::new("collided-empty-batch", MB, collided_empty_texts),
    ]
}

/// Any hash will do that texts have in common.
const COMMON: u32 = 0x5eed_0042;

/// Characters of a word that leaves the hash as it was, and of a tail.
const WORD: usize = 3;
const TAIL: usize = 3;

/// Texts of one hash: a tail, and before it a word once, twice, three times …,
/// where the word's own hash is 0 and so the tail's hash stays. They are the ends
/// of one text in each segment, with up to `most` words there. Tails differ from
/// segment to segment.
fn words(bytes: usize, most: usize) -> Trap {
    let most = most.clamp(1, FULL / WORD - 2);
    let word = (1..).find_map(|c| closed(&[c], 0)).expect("some word has no 0");
    let mut tails = (1..FULL as u16).filter_map(|c| closed(&[c], COMMON));
    let mut characters = Characters::default();
    let mut placed = Vec::new();
    let mut wanted = left(bytes) / (ENTRY + 2 * WORD);
    while wanted > 0 {
        let count = most.min(wanted);
        let mut text = word.repeat(count);
        text.extend(tails.next().expect("there are more tails than segments"));
        // A segment of its own, however short.
        characters.region.segments.push(Default::default());
        let (segment, first) = characters.put(&text);
        placed.extend((1..=count).rev().map(|before| Placed {
            hash: COMMON,
            characters: WORD * before + TAIL,
            address: (segment, first + (WORD * (count - before)) as u16),
        }));
        wanted -= count;
    }
    Parts { values: string_table(characters.region, placed, 1024), ..Parts::new(names(1)) }
        .accepted()
}

/// Texts of one hash and one length, after so many characters that all share.
fn one_hash_texts(bytes: usize, shared: usize) -> Vec<Text> {
    let beginning = letters(&mut Rng::new(13), shared, shared);
    let count = left(bytes) / (ENTRY + 2 * (shared + 5));
    let text = |[a, b]: [u16; 2]| closed(&[&beginning[..], &[a, b]].concat(), COMMON);
    beginnings().filter_map(text).take(count).collect()
}

fn one_hash(bytes: usize, shared: usize) -> Parts {
    Parts { values: table_of(&one_hash_texts(bytes, shared)), ..Parts::new(names(1)) }
}

/// The last of them is the first again, at another place.
fn repeat_last(bytes: usize) -> Trap {
    let mut texts = one_hash_texts(bytes, 0);
    texts.push(texts[0].clone());
    Parts { values: table_of(&texts), ..Parts::new(names(1)) }.trap(Ask::Accept, 12)
}

/// The list has a position more than there are entries.
fn uncarried_last(bytes: usize) -> Trap {
    let mut model = one_hash(bytes, 0).model();
    model.values.list.push((0, 0));
    Trap { model, ask: Ask::Accept, refusal: 13 }
}

/// Attributes with values that all have one hash. Two characters at the start
/// belong to no value.
fn crowd_attributes(bytes: usize) -> Trap {
    const EACH: usize = 8;
    let texts = one_hash_texts(left(bytes) / 2, 0);
    let mut characters = Characters::default();
    characters.put(&[0x78]);
    let placed = placed(&mut characters, &texts);
    let addresses: Vec<Addr> = placed.iter().map(|text| text.address).collect();
    let nodes = left(bytes) / 2 / (NODE + EACH * ATTRIBUTE);
    let mut rng = Rng::new(14);
    let attribute = |i: usize| {
        let value = rng.below(texts.len());
        text_attribute((i % EACH) as u16 + 1, &texts[value], addresses[value])
    };
    let attributes = whole_ranges((0..nodes * EACH).map(attribute).collect(), EACH);
    Parts {
        nodes: tree(nodes_of_ranges(&attributes, EACH)),
        attributes,
        values: string_table(characters.region, placed, 1024),
        ..Parts::new(names(EACH))
    }
    .accepted()
}

/// In each segment one text that nearly fills it; its ends that start so far apart are
/// values, and attributes may have them.
fn suffixes(bytes: usize, apart: usize, with_attributes: bool) -> Trap {
    const EACH: usize = 8;
    let own = if with_attributes { ATTRIBUTE + NODE / EACH } else { 0 };
    let mut wanted = left(bytes) / (ENTRY + 2 * apart + own) / EACH * EACH;
    let mut rng = Rng::new(15);
    let mut characters = Characters::default();
    let (mut placed, mut attributes) = (Vec::new(), Vec::new());
    while wanted > 0 {
        // The shortest end has enough characters to be another one than those of
        // other segments.
        let count = (FULL / apart - 8).min(wanted);
        let length = apart * (count + 4);
        let text: Text = (0..length).map(|_| rng.between(1, 0xffff) as u16).collect();
        let (segment, first) = characters.put(&text);
        let ends = hashes_of_ends(&text);
        for start in (0..count).map(|i| i * apart) {
            let address = (segment, first + start as u16);
            placed.push(Placed { hash: ends[start], characters: length - start, address });
        }
        if with_attributes {
            let folds = value_hashes_of_ends(&text);
            attributes.extend((0..count).map(|i| {
                let element = (first as usize + i * apart) as u32;
                let (type_word, word) = (folds[i * apart] << 2 | 3, element << 16 | segment as u32);
                Attr { name: 0, type_word, word, ignored: 0 }
            }));
        }
        wanted -= count;
    }
    rng.shuffle(&mut attributes);
    for (i, attribute) in attributes.iter_mut().enumerate() {
        attribute.name = (i % EACH) as u16 + 1;
    }
    let attributes = whole_ranges(attributes, EACH);
    Parts {
        nodes: tree(nodes_of_ranges(&attributes, EACH)),
        attributes,
        values: string_table(characters.region, placed, 1024),
        ..Parts::new(names(EACH))
    }
    .accepted()
}

/// The hash of every end of a text, from its last character on: the hash of a
/// character alone, carried on over those behind it, changes the hash of these.
fn hashes_of_ends(text: &[u16]) -> Vec<u32> {
    // What each bit of a hash becomes by the characters behind.
    let mut carried: [u32; 32] = std::array::from_fn(|bit| 1 << bit);
    let mut ends = vec![0; text.len() + 1];
    for i in (0..text.len()).rev() {
        let alone = hash(&text[i..i + 1]);
        let bits = (0..32).filter(|bit| alone >> bit & 1 == 1);
        ends[i] = bits.fold(ends[i + 1], |hash, bit| hash ^ carried[bit]);
        carried = carried.map(|hash| by_definition::hash(hash, &[0, 0]));
    }
    ends
}

/// The value hash of every end of a text.
fn value_hashes_of_ends(text: &[u16]) -> Vec<u16> {
    let folded = folded(&to_bytes(text));
    let characters = folded.chunks_exact(2).map(|two| u16::from_le_bytes([two[0], two[1]]));
    let hashes = hashes_of_ends(&characters.collect::<Text>());
    hashes.into_iter().map(|hash| hash as u16 & 0x3fff).collect()
}

/// A file whose values all stand in one bucket, and its texts.
struct Crowded {
    parts: Parts,
    texts: Vec<Text>,
}

/// The bucket's hashes.
const CROWDED: Hashes = Hashes { bucket: 7, buckets: 1024 };

fn even(i: usize, count: usize) -> u32 {
    CROWDED.at((i as u64 * CROWDED.count() as u64 / count as u64) as u32)
}

/// All at the low end but the last.
fn clustered(i: usize, count: usize) -> u32 {
    CROWDED.at(if i + 1 < count { i as u32 } else { CROWDED.count() - 1 })
}

fn all_but_one_equal(i: usize, count: usize) -> u32 {
    CROWDED.at((i + 1 < count) as u32)
}

/// Values of four characters with hashes of one bucket.
fn crowded_bucket(bytes: usize, hashes: fn(usize, usize) -> u32) -> Crowded {
    let count = left(bytes) / (ENTRY + 10);
    let mut beginnings = beginnings();
    let text = |i| {
        let wished = hashes(i, count);
        beginnings.find_map(|two| closed(&two, wished)).expect("there are beginnings enough")
    };
    let mut texts: Vec<Text> = (0..count).map(text).collect();
    let parts = Parts { values: table_of(&texts), ..Parts::new(names(1)) };
    Rng::new(16).shuffle(&mut texts);
    Crowded { parts, texts }
}

/// Texts each followed by a 0.
fn list(texts: &[Text]) -> Vec<u8> {
    texts.iter().flat_map(|text| to_bytes(text).into_iter().chain([0, 0])).collect()
}

impl Crowded {
    /// Every value is asked for, in another order than the file's.
    fn batch(self) -> Trap {
        self.parts.trap(Ask::Batch(list(&self.texts)), 0)
    }

    /// A few values are asked for, one at a time.
    fn singles(self) -> Trap {
        let few = &self.texts[..self.texts.len().min(8)];
        self.parts.trap(Ask::Singles(list(few)), 0)
    }
}

/// The empty text is asked for over and over. Its hash is 0, and many values
/// before it have that hash too.
fn empty_texts(bytes: usize) -> Trap {
    let count = left(bytes) / (ENTRY + 10);
    let mut texts: Vec<Text> = beginnings().filter_map(|two| closed(&two, 0)).take(count).collect();
    texts.push(Text::new());
    let parts = Parts { values: table_of(&texts), ..Parts::new(names(1)) };
    parts.trap(Ask::Batch(vec![0; 2 * count]), 0)
}

/// Values of one hash and one length, and as many texts with that hash and length that are
/// not there.
fn strangers(bytes: usize) -> (Parts, Vec<Text>) {
    let count = left(bytes) / (ENTRY + 10);
    let mut all = beginnings().filter_map(|two| closed(&two, COMMON));
    let texts: Vec<Text> = all.by_ref().take(count).collect();
    let parts = Parts { values: table_of(&texts), ..Parts::new(names(1)) };
    (parts, all.take(count).collect())
}

/// All of them are asked for. Each collides with every value.
fn collided(bytes: usize) -> Trap {
    let (parts, others) = strangers(bytes);
    parts.trap(Ask::Batch(list(&others)), 0)
}

/// A few of them, one at a time.
fn collided_one_by_one(bytes: usize) -> Trap {
    let (parts, others) = strangers(bytes);
    parts.trap(Ask::Singles(list(&others[..others.len().min(8)])), 0)
}

/// The empty text is asked for over and over, and is not there. All values have its hash.
fn collided_empty_texts(bytes: usize) -> Trap {
    let count = left(bytes) / (ENTRY + 10);
    let texts: Vec<Text> = beginnings().filter_map(|two| closed(&two, 0)).take(count).collect();
    let parts = Parts { values: table_of(&texts), ..Parts::new(names(1)) };
    parts.trap(Ask::Batch(vec![0; 2 * count]), 0)
}

/// Crowds of so many texts, of one length and of many, in which the later of each
/// pair is the earlier again.
#[cfg(test)]
pub fn with_repeats(count: usize, pairs: &[(usize, usize)]) -> [Trap; 2] {
    let mut alike: Vec<Text> =
        beginnings().filter_map(|two| closed(&two, COMMON)).take(count).collect();
    let mut unlike: Vec<Text> = alike
        .iter()
        .enumerate()
        .filter_map(|(i, text)| closed(&[&text[..2], &vec![0x61; i % 40]].concat(), COMMON))
        .collect();
    for texts in [&mut alike, &mut unlike] {
        for &(first, second) in pairs {
            let second = second.min(texts.len() - 1);
            texts[second] = texts[first].clone();
        }
    }
    [alike, unlike].map(|texts| {
        Parts { values: table_of(&texts), ..Parts::new(names(1)) }.trap(Ask::Accept, 12)
    })
}
