//! String tables from texts: placing the characters, entries and list.

use crate::collide::hash;
use crate::model::{Addr, Bucket, Entry, Region, Segment, Table};
use crate::rng::Rng;
use crate::text::Text;

/// How the characters are laid out.
#[derive(Clone, Copy)]
pub struct Style {
    /// Texts start a new segment past this many characters.
    pub segment: usize,
    /// Garbage between texts, in the slack, and empty segments.
    pub untidy: bool,
    /// Texts that end another one are not written again.
    pub share: bool,
    /// Texts stand one after the other by their indices, as a builder that
    /// writes each when it is added leaves them; otherwise they are shuffled.
    pub in_order: bool,
}

pub const TIDY: Style = Style { segment: 60_000, untidy: false, share: false, in_order: false };

/// The table of texts that are all different; text i gets index i + 1.
pub fn table(rng: &mut Rng, texts: &[Text], buckets: usize, style: Style) -> Table {
    let mut chars = Region::default();
    let list = place_all(rng, texts, &mut chars, style);
    let placed = texts.iter().zip(list).map(|(text, address)| Placed {
        hash: hash(text),
        characters: text.len(),
        address,
    });
    let mut made = string_table(chars, placed.collect(), buckets);
    if style.untidy {
        for bucket in &mut made.buckets {
            // Entries of one hash may stand in any order.
            rng.shuffle(&mut bucket.entries);
            bucket.entries.sort_by_key(|entry| entry.hash);
        }
    }
    made
}

/// A text that gets an entry: its hash, characters and place.
pub struct Placed {
    pub hash: u32,
    pub characters: usize,
    pub address: Addr,
}

/// The table of these texts; the first has index 1. Entries of one hash keep
/// their order.
pub fn string_table(chars: Region<u16>, texts: Vec<Placed>, buckets: usize) -> Table {
    let list = texts.iter().map(|text| text.address).collect();
    let mut made = Table { chars, buckets: vec![Bucket::default(); buckets], list, count_is: None };
    for (i, Placed { hash, characters, address }) in texts.into_iter().enumerate() {
        let (length, index) = (characters as u32 + 1, i as u32 + 1);
        made.buckets[bucket_of(hash, buckets)].entries.push(Entry { hash, length, index, address });
    }
    for bucket in &mut made.buckets {
        bucket.entries.sort_by_key(|entry| entry.hash);
    }
    made
}

/// The bucket of a hash.
pub fn bucket_of(hash: u32, buckets: usize) -> usize {
    (hash ^ (hash >> 16)) as usize % buckets
}

fn place_all(rng: &mut Rng, texts: &[Text], chars: &mut Region<u16>, style: Style) -> Vec<Addr> {
    let mut order: Vec<usize> = (0..texts.len()).collect();
    if style.share {
        // Longer ones first, so that their ends are there to be shared.
        order.sort_by_key(|&i| std::cmp::Reverse(texts[i].len()));
    } else if !style.in_order {
        rng.shuffle(&mut order);
    }
    let mut list = vec![(0, 0); texts.len()];
    let mut placed: Vec<(usize, Addr)> = Vec::new();
    for i in order {
        let shared =
            placed.iter().find(|&&(other, _)| style.share && texts[other].ends_with(&texts[i]));
        list[i] = match shared {
            Some(&(other, (segment, element))) => {
                let skipped = texts[other].len() - texts[i].len();
                (segment, element + skipped as u16)
            }
            None => place(rng, &texts[i], chars, style),
        };
        if style.share {
            placed.push((i, list[i]));
        }
    }
    if style.untidy {
        for segment in &mut chars.segments {
            segment.slack = (0..rng.below(5)).map(|_| rng.half() & 0x1ff).collect();
        }
    }
    list
}

fn place(rng: &mut Rng, text: &[u16], chars: &mut Region<u16>, style: Style) -> Addr {
    let room = |segment: &Segment<u16>| segment.used.len() + text.len() < style.segment;
    if !chars.segments.last().is_some_and(room) {
        while style.untidy && rng.one_in(4) {
            chars.segments.push(Segment::default());
        }
        chars.segments.push(Segment::default());
    }
    let number = chars.segments.len() - 1;
    let used = &mut chars.segments[number].used;
    if style.untidy && rng.one_in(6) {
        used.extend((0..rng.below(4)).map(|_| rng.half() & 3));
    }
    let address = (number as u16, used.len() as u16);
    used.extend_from_slice(text);
    used.push(0);
    address
}
