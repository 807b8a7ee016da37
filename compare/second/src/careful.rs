//! The index for files that are made to be slow. It allocates nothing either.
//!
//! It remembers addresses that were found right, reads ends of long texts in part,
//! and puts lookups in crowds off until many can be settled at once.

use crate::answer::{refuse, Refusal};
use crate::bytes::Address;
use crate::effort::Effort;
use crate::find::{seek, Sought};
use crate::hash::otherwise;
use crate::index::{Index, Spot, TextAttribute, Texts, Values};
use crate::reading::{Mutant, Reading};
use crate::region::Near;
use crate::scan::scan;
use crate::table::Entry;
use crate::tails::{Hashes, Tails};
use crate::waiting::Waiting;

/// Bytes of a text that are read like an ordinary one's.
const SHORT: usize = 256;
/// Ends of long texts that are remembered.
const ENDS: usize = 40;

pub struct CarefulIndex {
    known: Known,
    tails: Tails<ENDS, ENDS>,
    waiting: Waiting<Delayed>,
    delayed: u32,
}

/// A check that was put off: in which order that happened, and its attribute.
#[derive(Clone, Copy, Default, PartialEq, Eq, PartialOrd, Ord)]
struct Delayed {
    order: u32,
    at: u32,
}

impl Default for CarefulIndex {
    fn default() -> CarefulIndex {
        let waiting = Waiting::new(Delayed::default());
        CarefulIndex { known: Known::new(), tails: Tails::EMPTY, waiting, delayed: 0 }
    }
}

impl CarefulIndex {
    fn read<R: Reading>(&mut self, texts: &Texts<R>, spot: Spot) -> Option<Hashes> {
        let Texts { reading, file, .. } = *texts;
        let chars = spot.chars(file)?;
        let ordinary = if otherwise(reading) { chars.len() } else { chars.len().min(SHORT) };
        let text = scan(reading, &chars[..ordinary], true);
        if text.bytes < ordinary || ordinary == chars.len() {
            return Some(Hashes { hash: text.hash, value_hash: text.value_hash });
        }
        self.tails.text(file, spot.start as usize, spot.limit as usize)
    }
}

#[derive(Clone, Copy, Default)]
pub enum Work {
    #[default]
    NoText,
    /// The address was found right before, with this value hash.
    Known(u16),
    Sought(Sought, u16),
}

impl Index for CarefulIndex {
    const ALLOWANCE: usize = usize::MAX;

    type Careful = CarefulIndex;
    type Spot = Spot;
    type Work = Work;

    fn new(_: &[u8], _: &Values) -> CarefulIndex {
        CarefulIndex::default()
    }

    fn careful(self) -> CarefulIndex {
        self
    }

    fn add<R: Reading>(&mut self, _: &Texts<R>, _: Entry, _: &[u8]) {}

    fn expect<R: Reading>(
        &self,
        texts: &Texts<R>,
        address: Address,
        near: &mut Near,
    ) -> Self::Spot {
        Spot::of(texts, address, near)
    }

    fn begin<R: Reading>(
        &mut self,
        texts: &Texts<R>,
        attribute: TextAttribute,
        spot: Self::Spot,
        _: &mut Effort,
    ) -> Work {
        if let Some(hash) = self.known.value_hash(attribute.address) {
            return Work::Known(hash);
        }
        match self.read(texts, spot) {
            None => Work::NoText,
            Some(Hashes { hash, value_hash }) => {
                Work::Sought(seek(texts.reading, texts.file, texts.values, hash), value_hash)
            }
        }
    }

    fn refine(&self, file: &[u8], work: &mut Work) {
        if let Work::Sought(sought, _) = work {
            sought.refine(file);
        }
    }

    fn finish<R: Reading>(
        &mut self,
        texts: &Texts<R>,
        attribute: TextAttribute,
        work: Work,
        _: &mut Effort,
    ) -> Result<(), Refusal> {
        let Texts { reading, file, .. } = *texts;
        let (sought, hash) = match work {
            Work::NoText => return attribute.check(reading, None),
            Work::Known(hash) => return attribute.check(reading, Some(hash)),
            Work::Sought(sought, hash) => (sought, hash),
        };
        if reading.wrong(Mutant::AnyTextAddress) {
            return attribute.check(reading, Some(hash));
        }
        let number = sought.first_entry(file);
        let is_right = hash == attribute.extended;
        if is_right && sought.is_crowded(file, number) {
            return self.put_off(texts, attribute, sought.hash());
        }
        let same = |entry: Entry| entry.address == attribute.address;
        let found = sought.entry(reading, file, number, same).ok().filter(|&entry| same(entry));
        attribute.check(reading, found.map(|_| hash))?;
        self.known.add(attribute);
        Ok(())
    }

    fn settle<R: Reading>(&mut self, texts: &Texts<R>) -> Result<(), Refusal> {
        let Texts { reading, file, values } = *texts;
        let mut first: Option<Delayed> = None;
        let key = |entry: Entry| Some(entry.address.number());
        self.waiting.settle(reading, file, values, key, |delayed, found| {
            if found.is_err() {
                first = Some(first.map_or(delayed, |first| first.min(delayed)));
            }
            true
        });
        match first {
            Some(Delayed { at, .. }) => refuse(19, at as usize),
            None => Ok(()),
        }
    }
}

impl CarefulIndex {
    /// The address is taken for right until then: if it is not, the refusal is
    /// this attribute's, whatever comes later.
    fn put_off<R: Reading>(
        &mut self,
        texts: &Texts<R>,
        attribute: TextAttribute,
        hash: u32,
    ) -> Result<(), Refusal> {
        if self.waiting.is_full() {
            self.settle(texts)?;
        }
        let delayed = Delayed { order: self.delayed, at: attribute.at };
        self.delayed += 1;
        self.waiting.add(hash, attribute.address.number(), delayed);
        self.known.add(attribute);
        Ok(())
    }
}

/// Addresses that were found right, with their value hashes. An address has a set
/// of places, of which the one that was asked for longest ago is given up.
struct Known {
    sets: [[Option<(Address, u16)>; WAYS]; SETS],
}

const SETS: usize = 512;
const WAYS: usize = 4;

impl Known {
    fn new() -> Known {
        Known { sets: [[None; WAYS]; SETS] }
    }

    fn set(&mut self, address: Address) -> &mut [Option<(Address, u16)>; WAYS] {
        // The high bits of a product depend on all bits.
        let mixed = address.number().wrapping_mul(0x9e37_79b1) >> 16;
        &mut self.sets[mixed as usize % SETS]
    }

    fn value_hash(&mut self, address: Address) -> Option<u16> {
        let set = self.set(address);
        let is_there = |way: &Option<(Address, u16)>| way.is_some_and(|known| known.0 == address);
        let place = set.iter().position(is_there)?;
        set[..=place].rotate_right(1);
        set[0].map(|known| known.1)
    }

    fn add(&mut self, attribute: TextAttribute) {
        let set = self.set(attribute.address);
        set.rotate_right(1);
        set[0] = Some((attribute.address, attribute.extended));
    }
}
