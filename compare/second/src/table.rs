//! String tables: layout, entries and the text at an address.

use crate::answer::{refuse, Refusal};
use crate::bytes::{u32_at, Address};
use crate::cursor::Cursor;
use crate::definition;
use crate::prefetch::{prefetch, prefetch_text};
use crate::reading::{Mutant, Reading};
use crate::region::{Region, Segment};
use crate::scan::text_of;
use crate::searches::Searcher;

pub const VALUE_BUCKETS: usize = 1024;
pub const NAME_BUCKETS: usize = 512;
pub const ENTRY: usize = 16;

/// Segments of characters that are marked: texts are read in any order.
const MARKS: usize = 4096;

pub struct Table<const BUCKETS: usize> {
    pub chars: Region<2, MARKS>,
    /// Offset of each bucket's count; its entries follow.
    pub buckets: [u32; BUCKETS],
    /// Entries of all buckets.
    pub entries: u64,
    /// Offset of the address count.
    pub count_at: usize,
    /// Address count less one: how many addresses the list holds.
    pub listed: u32,
}

#[derive(Clone, Copy)]
pub struct Entry {
    pub hash: u32,
    pub length: u32,
    pub index: u32,
    pub address: Address,
}

/// Who reads a text at an address, for wrong readings that tell them apart.
#[derive(Clone, Copy)]
pub enum Reader {
    Repeat,
    Special,
    Single,
    Batch,
    Path,
    Outline,
}

impl Reader {
    /// The wrong reading by which it reads on to the end of full.
    #[inline(always)]
    fn up_to_full(self, names: bool) -> Mutant {
        match (self, names) {
            (Reader::Repeat, _) => Mutant::RepeatsUpToFull,
            (Reader::Special, _) => Mutant::SpecialUpToFull,
            (Reader::Single, true) => Mutant::NameLookupUpToFull,
            (Reader::Single, false) => Mutant::ValueLookupUpToFull,
            (Reader::Batch, _) => Mutant::BatchUpToFull,
            (Reader::Path, _) => Mutant::PathUpToFull,
            (Reader::Outline, true) => Mutant::OutlineNameUpToFull,
            (Reader::Outline, false) => Mutant::OutlineTextUpToFull,
        }
    }

    /// The wrong reading by which it finds no text without a stored 0.
    #[inline(always)]
    fn zero_needed(self, names: bool) -> Mutant {
        match (self, names) {
            (Reader::Repeat, _) => Mutant::RepeatsZeroNeeded,
            (Reader::Special, _) => Mutant::SpecialZeroNeeded,
            (Reader::Single, true) => Mutant::NameLookupZeroNeeded,
            (Reader::Single, false) => Mutant::ValueLookupZeroNeeded,
            (Reader::Batch, _) => Mutant::BatchZeroNeeded,
            (Reader::Path, _) => Mutant::PathZeroNeeded,
            (Reader::Outline, true) => Mutant::OutlineNameZeroNeeded,
            (Reader::Outline, false) => Mutant::OutlineTextZeroNeeded,
        }
    }

    /// The wrong reading by which a lookup takes 0150 and 0151 for the same character.
    #[inline(always)]
    pub fn either_letter(self, names: bool) -> Option<Mutant> {
        match (self, names) {
            (Reader::Single, true) => Some(Mutant::NameLookup0151),
            (Reader::Single, false) => Some(Mutant::ValueLookup0151),
            (Reader::Batch, _) => Some(Mutant::Batch0151),
            (Reader::Path, _) => Some(Mutant::Path0151),
            (Reader::Repeat | Reader::Special | Reader::Outline, _) => None,
        }
    }

    /// Whose search a wrong reading of it gets wrong.
    #[inline(always)]
    pub fn searcher(self, names: bool) -> Searcher {
        match (self, names) {
            (Reader::Path, _) => Searcher::Path,
            (Reader::Batch, _) => Searcher::Batch,
            (_, true) => Searcher::Name,
            (_, false) => Searcher::Value,
        }
    }

    /// Whether it reads an entry's text by its address, though the entry tells the
    /// length.
    #[inline(always)]
    pub fn rereads<R: Reading>(self, reading: R, names: bool) -> bool {
        reading.literal()
            || reading.wrong(self.up_to_full(names))
            || reading.wrong(self.zero_needed(names))
    }
}

impl Entry {
    #[inline(always)]
    pub fn at(file: &[u8], at: usize) -> Entry {
        let bytes = &file[at..at + ENTRY];
        Entry {
            hash: u32_at(bytes, 0),
            length: u32_at(bytes, 4),
            index: u32_at(bytes, 8),
            address: Address::at(bytes, 12),
        }
    }
}

impl<const BUCKETS: usize> Table<BUCKETS> {
    /// Whether this is the names table: the two differ in their bucket number.
    pub const NAMES: bool = BUCKETS == NAME_BUCKETS;

    /// A table still to be read.
    pub const UNREAD: Self =
        Table { chars: Region::UNREAD, buckets: [0; BUCKETS], entries: 0, count_at: 0, listed: 0 };

    /// Reads in place: a table is too large to be handed about.
    pub fn read<R: Reading>(&mut self, reading: R, cursor: &mut Cursor) -> Result<(), Refusal> {
        self.chars.read(reading, cursor)?;
        for bucket in &mut self.buckets {
            *bucket = cursor.at as u32;
            let count = cursor.word()?;
            cursor.array(reading, count, ENTRY as u32)?;
            self.entries += count as u64;
        }
        self.count_at = cursor.at;
        let count = cursor.word()?;
        let limited = if Self::NAMES {
            !reading.wrong(Mutant::NamesListUnlimited)
        } else {
            reading.wrong(Mutant::ValuesListLimited)
        };
        if (count == 0 && !reading.wrong(Mutant::ListCountZero)) || (limited && count > 65_536) {
            return refuse(5, self.count_at);
        }
        self.listed = count.saturating_sub(1);
        cursor.array(reading, self.listed, 4)?;
        Ok(())
    }

    /// Number of entries of a bucket and the offset of its first.
    #[inline]
    pub fn bucket(&self, file: &[u8], bucket: usize) -> (u32, usize) {
        let at = self.buckets[bucket] as usize;
        (u32_at(file, at), at + 4)
    }

    /// The entries of all buckets.
    pub fn entries<'a>(&'a self, file: &'a [u8]) -> impl Iterator<Item = Entry> + 'a {
        (0..BUCKETS).flat_map(move |bucket| {
            let (count, first) = self.bucket(file, bucket);
            (0..count as usize).map(move |number| Entry::at(file, first + number * ENTRY))
        })
    }

    /// The list's address for an index from 1 to `listed`.
    #[inline]
    pub fn listed_address(&self, file: &[u8], index: u32) -> Address {
        Address::at(file, self.count_at + 4 * index as usize)
    }

    /// The text of an entry that has passed its checks. Its length is one more than the
    /// characters, whether the 0 is stored or not.
    #[inline]
    pub fn entry_text<'a>(&self, file: &'a [u8], entry: Entry) -> &'a [u8] {
        let first = self.entry_start(file, entry);
        let bytes = 2 * (entry.length as usize - 1);
        &file[first..first + bytes]
    }

    /// Offset of the text of an entry whose address has passed its check.
    #[inline]
    pub fn entry_start(&self, file: &[u8], entry: Entry) -> usize {
        self.chars
            .segment(file, entry.address.segment)
            .map_or(0, |segment| self.chars.element_at(segment, entry.address.element))
    }

    /// Asks for the text of an entry that will be read soon; its segment.
    #[inline]
    pub fn expect_text(&self, file: &[u8], entry: Entry) -> Option<Segment> {
        let segment = self.chars.segment(file, entry.address.segment)?;
        prefetch_text(file, self.chars.element_at(segment, entry.address.element));
        Some(segment)
    }

    /// Asks for all that the checks of an entry will read; its text's segment.
    #[inline]
    pub fn expect(&self, file: &[u8], entry: Entry) -> Option<Segment> {
        prefetch(file, self.count_at.wrapping_add((entry.index as usize).wrapping_mul(4)));
        self.expect_text(file, entry)
    }

    /// The text at any address: up to the first 0 or to the end of the used part. None
    /// where the address does not resolve.
    pub fn text_at<'a, R: Reading>(
        &self,
        reading: R,
        reader: Reader,
        file: &'a [u8],
        address: Address,
    ) -> Option<&'a [u8]> {
        let segment = self.chars.resolve(file, address)?;
        let full = reading.wrong(reader.up_to_full(Self::NAMES));
        let end = if full { segment.full } else { segment.used };
        let start = self.chars.element_at(segment, address.element);
        let chars = &file[start..segment.first + 2 * end as usize];
        let text = if reading.literal() { definition::text(chars) } else { text_of(chars) };
        let stored = text.len() < chars.len();
        (stored || !reading.wrong(reader.zero_needed(Self::NAMES))).then_some(text)
    }

    /// The text of an index, empty where the list has no such index.
    pub fn listed_text<'a, R: Reading>(
        &self,
        reading: R,
        reader: Reader,
        file: &'a [u8],
        index: u32,
    ) -> &'a [u8] {
        if index == 0 || index > self.listed {
            return &[];
        }
        let address = self.listed_address(file, index);
        self.text_at(reading, reader, file, address).unwrap_or(&[])
    }
}
