//! How acceptance knows which addresses are values entries' addresses.
//!
//! `Plain` allocates nothing and looks each text up in its bucket. `Marked`
//! keeps a mark for every character of the values region, made while the
//! entries are checked, and then needs a single read for each attribute. It is
//! never careful: the careful ways are compared with it.
//!
//! An answer is had in steps, so that many can be under way at once: `expect`
//! asks for the memory, `begin` reads the text, `refine` comes closer to its
//! entry, `finish` answers.

use crate::answer::{refuse, Refusal};
use crate::bytes::Address;
use crate::careful::CarefulIndex;
use crate::effort::{Effort, ORDINARY};
use crate::find::{seek, Sought};
use crate::hash::value_hash;
use crate::prefetch::{prefetch, prefetch_text};
use crate::reading::{Mutant, Reading};
use crate::region::Near;
use crate::scan::scan;
use crate::searches::{fault, Searcher};
use crate::table::{Entry, Table, ENTRY, VALUE_BUCKETS};

pub type Values = Table<VALUE_BUCKETS>;

/// The file and its values, for whoever reads texts there.
#[derive(Clone, Copy)]
pub struct Texts<'a, R> {
    pub reading: R,
    pub file: &'a [u8],
    pub values: &'a Values,
}

/// A text attribute: where it stands, and what it says.
#[derive(Clone, Copy)]
pub struct TextAttribute {
    pub at: u32,
    pub address: Address,
    pub extended: u16,
}

impl TextAttribute {
    /// 19: the address is a values entry's, and the extended code its value hash,
    /// which is told if the address is.
    #[inline]
    pub fn check<R: Reading>(&self, reading: R, found: Option<u16>) -> Result<(), Refusal> {
        match found {
            Some(hash) if hash == self.extended => Ok(()),
            Some(_) if reading.wrong(Mutant::ValueHashAs18) => refuse(18, self.at as usize),
            _ => refuse(19, self.at as usize),
        }
    }
}

pub trait Index: Sized {
    /// Bytes that may be looked at for each byte of the file, before the rest is
    /// done carefully.
    const ALLOWANCE: usize;

    /// What goes on where the effort has become too much.
    type Careful: Index;

    /// Where a text stands.
    type Spot: Copy + Default;

    /// What is known between `begin` and `finish`.
    type Work: Copy + Default;

    fn new(file: &[u8], values: &Values) -> Self;

    fn careful(self) -> Self::Careful;

    /// A values entry of this address will be taken soon, if it passes its checks.
    fn expect_entry(&self, _: Address) {}

    /// Takes a values entry that has passed its checks.
    fn add<R: Reading>(&mut self, texts: &Texts<R>, entry: Entry, text: &[u8]);

    fn expect<R: Reading>(&self, texts: &Texts<R>, address: Address, near: &mut Near)
        -> Self::Spot;

    fn begin<R: Reading>(
        &mut self,
        texts: &Texts<R>,
        attribute: TextAttribute,
        spot: Self::Spot,
        effort: &mut Effort,
    ) -> Self::Work;

    fn refine(&self, file: &[u8], work: &mut Self::Work);

    /// The attribute's check. It may be put off; a refusal is then told by a later
    /// call.
    fn finish<R: Reading>(
        &mut self,
        texts: &Texts<R>,
        attribute: TextAttribute,
        work: Self::Work,
        effort: &mut Effort,
    ) -> Result<(), Refusal>;

    /// The checks that were put off.
    fn settle<R: Reading>(&mut self, _: &Texts<R>) -> Result<(), Refusal> {
        Ok(())
    }
}

/// The used characters from an address on: their offset, and where they end. An
/// address that resolves has one at least.
#[derive(Clone, Copy, Default)]
pub struct Spot {
    pub start: u32,
    pub limit: u32,
}

impl Spot {
    /// Where an address stands; asks for the text there.
    #[inline]
    pub fn of<R: Reading>(texts: &Texts<R>, address: Address, near: &mut Near) -> Spot {
        let Texts { reading, file, values } = *texts;
        match values.chars.segment_near(file, address.segment, near) {
            Some(segment) if segment.holds(address.element, 1) => {
                let start = values.chars.element_at(segment, address.element);
                let full = reading.wrong(Mutant::AttributeUpToFull);
                let end = if full { segment.full } else { segment.used };
                let limit = segment.first + 2 * end as usize;
                prefetch_text(file, start);
                Spot { start: start as u32, limit: limit as u32 }
            }
            _ => Spot::default(),
        }
    }

    /// The characters; none where the address does not resolve, and then there is no
    /// text either.
    #[inline]
    pub fn chars(self, file: &[u8]) -> Option<&[u8]> {
        (self.start < self.limit).then(|| &file[self.start as usize..self.limit as usize])
    }
}

/// `TIMES` is the allowance: 0 is careful from the start.
pub struct Plain<const TIMES: usize = ORDINARY>;

impl<const TIMES: usize> Index for Plain<TIMES> {
    const ALLOWANCE: usize = TIMES;

    type Careful = CarefulIndex;
    type Spot = Spot;

    /// The text's bucket and value hash. Where there is no text, the bucket is an
    /// empty one.
    type Work = (Sought, u16);

    fn new(_: &[u8], _: &Values) -> Self {
        Plain
    }

    fn careful(self) -> CarefulIndex {
        CarefulIndex::default()
    }

    #[inline]
    fn add<R: Reading>(&mut self, _: &Texts<R>, _: Entry, _: &[u8]) {}

    #[inline]
    fn expect<R: Reading>(
        &self,
        texts: &Texts<R>,
        address: Address,
        near: &mut Near,
    ) -> Self::Spot {
        Spot::of(texts, address, near)
    }

    #[inline]
    fn begin<R: Reading>(
        &mut self,
        texts: &Texts<R>,
        _: TextAttribute,
        spot: Self::Spot,
        effort: &mut Effort,
    ) -> Self::Work {
        let Texts { reading, file, values } = *texts;
        let Some(chars) = spot.chars(file) else {
            return Self::Work::default();
        };
        let mut text = scan(reading, chars, true);
        if text.bytes == chars.len() {
            if reading.wrong(Mutant::AttributeZeroNeeded) {
                return Self::Work::default();
            }
            if reading.wrong(Mutant::AbsentZeroValueHashed) {
                text.value_hash = value_hash(reading, &[chars, &[0, 0]].concat());
            }
        }
        effort.spend(text.bytes);
        (seek(reading, file, values, text.hash), text.value_hash)
    }

    #[inline]
    fn refine(&self, file: &[u8], work: &mut Self::Work) {
        work.0.refine(file);
    }

    /// Texts are told apart by 12, so only an entry of this text can have this
    /// address.
    #[inline]
    fn finish<R: Reading>(
        &mut self,
        texts: &Texts<R>,
        attribute: TextAttribute,
        (sought, hash): Self::Work,
        effort: &mut Effort,
    ) -> Result<(), Refusal> {
        let Texts { reading, file, .. } = *texts;
        if reading.wrong(Mutant::AnyTextAddress) {
            return attribute.check(reading, Some(hash));
        }
        let same = |entry: Entry| entry.address == attribute.address;
        if let Some(fault) = fault(reading, Searcher::Attribute) {
            let found = sought.entry_wrongly(file, fault, same);
            return attribute.check(reading, found.map(|_| hash));
        }
        let number = sought.first_entry(file);
        let found = sought.entry(reading, file, number, |entry| {
            effort.spend(if same(entry) { 0 } else { ENTRY });
            same(entry)
        });
        attribute.check(reading, found.ok().filter(|&entry| same(entry)).map(|_| hash))
    }
}

/// Set in a mark beside the 14 bits of the value hash.
const ENTRY_STARTS: u16 = 0x8000;

pub struct Marked {
    marks: Vec<u16>,
    /// Characters before each segment.
    before: Vec<u32>,
}

impl Marked {
    #[inline]
    fn place(
        &self,
        file: &[u8],
        values: &Values,
        address: Address,
        near: &mut Near,
    ) -> Option<usize> {
        let segment = values.chars.segment_near(file, address.segment, near)?;
        let before = self.before[address.segment as usize];
        segment.holds(address.element, 1).then_some(before as usize + address.element as usize)
    }
}

impl Index for Marked {
    const ALLOWANCE: usize = usize::MAX;

    type Careful = Marked;

    /// The place of the mark.
    type Spot = Option<usize>;

    /// The mark, 0 where there is none.
    type Work = u16;

    fn new(file: &[u8], values: &Values) -> Marked {
        let mut sum = 0;
        let before = values.chars.in_order(file).map(|segment| {
            sum += segment.used;
            sum - segment.used
        });
        Marked { before: before.collect(), marks: vec![0; values.chars.used as usize] }
    }

    fn careful(self) -> Marked {
        self
    }

    #[inline]
    fn expect_entry(&self, address: Address) {
        if let Some(&before) = self.before.get(address.segment as usize) {
            prefetch(&self.marks, before as usize + address.element as usize);
        }
    }

    #[inline]
    fn add<R: Reading>(&mut self, texts: &Texts<R>, entry: Entry, text: &[u8]) {
        let Texts { reading, file, values } = *texts;
        if let Some(place) = self.place(file, values, entry.address, &mut Near::default()) {
            self.marks[place] = value_hash(reading, text) | ENTRY_STARTS;
        }
    }

    #[inline]
    fn expect<R: Reading>(
        &self,
        texts: &Texts<R>,
        address: Address,
        near: &mut Near,
    ) -> Self::Spot {
        let place = self.place(texts.file, texts.values, address, near)?;
        prefetch(&self.marks, place);
        Some(place)
    }

    #[inline]
    fn begin<R: Reading>(
        &mut self,
        _: &Texts<R>,
        _: TextAttribute,
        spot: Self::Spot,
        _: &mut Effort,
    ) -> Self::Work {
        spot.map_or(0, |place| self.marks[place])
    }

    #[inline]
    fn refine(&self, _: &[u8], _: &mut Self::Work) {}

    #[inline]
    fn finish<R: Reading>(
        &mut self,
        texts: &Texts<R>,
        attribute: TextAttribute,
        mark: Self::Work,
        _: &mut Effort,
    ) -> Result<(), Refusal> {
        let found = (mark & ENTRY_STARTS != 0).then_some(mark & !ENTRY_STARTS);
        attribute.check(texts.reading, found)
    }
}
