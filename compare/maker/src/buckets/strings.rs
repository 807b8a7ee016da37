//! A table with one crowded bucket, texts that it does not have, and where each stands.

use std::collections::HashSet;

use super::hashes::Hashes;
use super::shape::{Ends, Shape};
use super::strays::{self, Stray};
use crate::collide::{closed, hash};
use crate::dropped::drop_some;
use crate::model::{Addr, Region, Segment, Table};
use crate::rng::Rng;
use crate::table::{string_table, Placed};
use crate::text::{letters, text, Text};

/// What a crowded bucket is to be like.
#[derive(Clone, Copy, Debug)]
pub struct Crowd {
    pub count: usize,
    pub shape: Shape,
    pub bucket: u32,
    /// Whether the bucket's least and largest hash may be there.
    pub whole: bool,
}

/// What is known of a table.
pub struct Strings {
    /// By their indices, from 1 on.
    pub texts: Vec<Text>,
    pub addresses: Vec<Addr>,
    /// Places of the crowd's texts among them, in the order of the bucket.
    pub crowd: Vec<usize>,
    /// Texts that are not there and whose hashes belong to the bucket, in their order.
    pub absent: Vec<Text>,
    /// Texts that stand among the characters and have no entry.
    pub strays: Vec<Stray>,
}

impl Strings {
    pub fn in_crowd(&self, i: usize) -> &Text {
        &self.texts[self.crowd[i]]
    }
}

/// Texts with wished hashes, all different.
pub struct Wished<'a> {
    pub rng: &'a mut Rng,
    pub hashes: Hashes,
    taken: HashSet<Text>,
}

impl Wished<'_> {
    pub fn with_hash(&mut self, wished: u32) -> Text {
        loop {
            let beginning = letters(self.rng, 1, 5);
            let made = closed(&beginning, wished).filter(|text| !self.taken.contains(text));
            if let Some(text) = made {
                self.taken.insert(text.clone());
                return text;
            }
        }
    }

    pub fn numbered(&mut self, number: u32) -> Text {
        self.with_hash(self.hashes.at(number))
    }

    /// The empty text has hash 0, and comes once among texts of it.
    fn crowd(&mut self, numbers: &[u32]) -> Vec<Text> {
        let zeros = numbers.iter().filter(|&&number| self.hashes.at(number) == 0).count();
        let empty = if zeros > 0 { self.rng.below(zeros) } else { usize::MAX };
        let text = |(i, &number): (usize, &u32)| match i == empty {
            true => Text::new(),
            false => self.numbered(number),
        };
        numbers.iter().enumerate().map(text).collect()
    }

    /// One to three texts in each bucket beside it, and a few others.
    fn others(&mut self) -> Vec<Text> {
        let Hashes { bucket, buckets } = self.hashes;
        let mut all = Vec::new();
        for beside in [bucket.wrapping_sub(1), bucket + 1] {
            let hashes = Hashes { bucket: beside, buckets };
            let count = if beside < buckets { self.rng.between(1, 3) } else { 0 };
            for _ in 0..count {
                let number = self.rng.word() % hashes.count();
                all.push(self.with_hash(hashes.at(number)));
            }
        }
        all.extend(["a", "b", "c"].map(text));
        all
    }

    /// Absent texts: with a hash between two neighbours, before the first, behind the
    /// last, and with the hash of some of them. Ends and runs are always among these.
    fn absent(&mut self, numbers: &[u32]) -> Vec<Text> {
        let last = self.hashes.count() - 1;
        let mut all = vec![0, last, last / 2];
        let gaps = numbers.windows(2).filter(|two| two[1] - two[0] > 1);
        all.extend(gaps.map(|two| two[0] + (two[1] - two[0]) / 2));
        if let [first, .., end] | [first @ end] = numbers {
            all.extend([first.saturating_sub(1), *first, *end, last.min(end + 1)]);
        }
        for (i, run) in numbers.chunk_by(|a, b| a == b).enumerate() {
            if run.len() > 1 || i % 7 == 0 {
                all.push(run[0]);
            }
        }
        all.sort_unstable();
        all.dedup();
        all.into_iter().map(|number| self.numbered(number)).collect()
    }
}

/// Characters with garbage between texts, which then do not fill their segments.
pub struct Characters {
    region: Region<u16>,
    /// Characters of a segment, about.
    segment: usize,
}

impl Characters {
    /// Some texts stand behind garbage that goes on into them, so that they end another.
    pub fn put(&mut self, rng: &mut Rng, text: &[u16]) -> Addr {
        let full = |segment: &Segment<u16>| segment.used.len() >= self.segment;
        let fresh = self.region.segments.last().is_none_or(full);
        if fresh {
            self.region.segments.push(Segment::default());
        }
        let number = self.region.segments.len() - 1;
        let used = &mut self.region.segments[number].used;
        if fresh || rng.one_in(4) {
            used.extend((0..rng.between(1, 3)).map(|_| rng.between(1, 0x1ff) as u16));
            if rng.one_in(2) {
                used.push(0);
            }
        }
        let address = (number as u16, used.len() as u16);
        used.extend_from_slice(text);
        used.push(0);
        address
    }

    pub fn segments(&self) -> usize {
        self.region.segments.len()
    }
}

/// The table and what is known of it; special texts have the highest indices.
pub fn strings(rng: &mut Rng, crowd: Crowd, buckets: u32, special: &[&str]) -> (Table, Strings) {
    let hashes = Hashes { bucket: crowd.bucket, buckets };
    let numbers = crowd.shape.numbers(crowd.count, Ends::new(hashes.count(), crowd.whole));
    let mut wished = Wished { rng, hashes, taken: HashSet::new() };
    let mut texts = wished.crowd(&numbers);
    texts.extend(wished.others());
    wished.rng.shuffle(&mut texts);
    texts.extend(special.iter().map(|name| text(name)));
    let absent = wished.absent(&numbers);
    let segment = wished.rng.between(40, 400);
    let mut characters = Characters { region: Region::default(), segment };
    let mut put = |text: &Text| characters.put(wished.rng, text);
    let addresses: Vec<Addr> = texts.iter().map(&mut put).collect();
    let own: Vec<(Text, Addr)> = texts.iter().cloned().zip(addresses.iter().copied()).collect();
    let strays = strays::strays(&mut wished, &numbers, &own, &mut characters);
    let placed = own.iter().map(|(text, address)| Placed {
        hash: hash(text),
        characters: text.len(),
        address: *address,
    });
    let mut table = string_table(characters.region, placed.collect(), buckets as usize);
    drop_some(wished.rng, &mut table);
    let entries = &table.buckets[crowd.bucket as usize].entries;
    let crowd = entries.iter().map(|entry| entry.index as usize - 1).collect();
    (table, Strings { texts, addresses, crowd, absent, strays })
}
