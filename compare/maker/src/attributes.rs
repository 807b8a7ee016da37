//! Attributes: runs with rising names, of which nodes take windows.

use second::hashes::value_hash;

use crate::model::{Addr, Attr, Region, Segment};
use crate::rng::Rng;
use crate::text::{to_bytes, Text};

/// What attributes may refer to.
pub struct Stock<'a> {
    pub names: u16,
    pub value_name: u16,
    pub values: &'a [Text],
    pub addresses: &'a [Addr],
}

/// Whole numbers and float bits with something to get wrong.
const WORDS: [u32; 16] = [
    0,
    1,
    2,
    9,
    10,
    0x7fff_ffff,
    0x8000_0000,
    0xffff_ffff,
    0xffff_fff6,
    0x3f80_0000,
    0x7f80_0000,
    0xff80_0000,
    0x7fc0_0000,
    0x7f80_0001,
    0xffff_ffff,
    0x0000_0100,
];

pub fn random_word(rng: &mut Rng) -> u32 {
    if rng.one_in(2) {
        *rng.pick(&WORDS)
    } else {
        rng.word()
    }
}

pub fn text_attribute(name: u16, text: &[u16], address: Addr) -> Attr {
    Attr {
        name,
        type_word: value_hash(&to_bytes(text)) << 2 | 3,
        word: (address.1 as u32) << 16 | address.0 as u32,
        ignored: 0,
    }
}

impl Stock<'_> {
    /// A right attribute of any kind.
    pub fn attribute(&self, rng: &mut Rng, name: u16) -> Attr {
        let no_texts = self.values.is_empty();
        let kind =
            if name == self.value_name { 3 } else { rng.below(if no_texts { 3 } else { 5 }) };
        let mut made = match kind {
            0 => Attr { type_word: 1, word: random_word(rng), ..Attr::default() },
            1 => Attr { type_word: 5, word: rng.below(2) as u32, ..Attr::default() },
            2 => Attr { type_word: 2, word: random_word(rng), ..Attr::default() },
            _ => {
                let i = rng.below(self.values.len());
                text_attribute(name, &self.values[i], self.addresses[i])
            }
        };
        made.name = name;
        made.ignored = rng.word();
        made
    }

    /// A run of attributes with rising names.
    pub fn run(&self, rng: &mut Rng, longest: usize) -> Vec<Attr> {
        let mut names: Vec<u16> = (0..rng.between(1, longest))
            .map(|_| rng.between(1, self.names as usize) as u16)
            .filter(|&name| name != self.value_name || !self.values.is_empty())
            .collect();
        names.sort_unstable();
        names.dedup();
        names.into_iter().map(|name| self.attribute(rng, name)).collect()
    }
}

/// Any bits: attributes that no node shows are not checked.
pub fn garbage(rng: &mut Rng) -> Attr {
    Attr { name: rng.half(), type_word: rng.half(), word: rng.word(), ignored: rng.word() }
}

/// Runs in their places.
pub struct Runs {
    pub region: Region<Attr>,
    /// Where each run starts and how long it is.
    pub places: Vec<(Addr, usize)>,
}

impl Runs {
    pub fn place(rng: &mut Rng, runs: Vec<Vec<Attr>>, segment: usize, untidy: bool) -> Runs {
        let mut region: Region<Attr> = Region::default();
        let mut places = Vec::new();
        for run in runs.into_iter().filter(|run| !run.is_empty()) {
            let room = |last: &Segment<Attr>| last.used.len() + run.len() <= segment;
            if !region.segments.last().is_some_and(room) {
                while untidy && rng.one_in(4) {
                    region.segments.push(Segment::default());
                }
                region.segments.push(Segment::default());
            }
            let number = region.segments.len() - 1;
            let used = &mut region.segments[number].used;
            if untidy && rng.one_in(6) {
                used.push(garbage(rng));
            }
            places.push(((number as u16, used.len() as u16), run.len()));
            used.extend(run);
        }
        Runs { region, places }
    }

    /// A window of a random run: where it starts and how many it takes.
    pub fn window(&self, rng: &mut Rng) -> (Addr, u16) {
        if self.places.is_empty() || rng.one_in(4) {
            return ((rng.half(), rng.half()), 0);
        }
        let &((segment, element), length) = rng.pick(&self.places);
        let skipped = rng.below(length);
        let count = rng.between(1, length - skipped);
        ((segment, element + skipped as u16), count as u16)
    }
}
