//! Finding the entry of a text, in steps that many lookups can interleave.

use crate::bytes::u32_at;
use crate::crowd::FEW;
use crate::definition::folded_hash;
use crate::hash::{bucket, string_hash};
use crate::letter::is_same_but_for_it;
use crate::prefetch::prefetch;
use crate::reading::{Mutant, Reading};
use crate::searches::fault;
use crate::table::{Entry, Reader, Table, ENTRY};

/// A hash on its way to its entries: its bucket, and where they may stand.
#[derive(Clone, Copy, Default)]
pub struct Sought {
    hash: u32,
    count: u32,
    /// Offset of the bucket's first entry.
    first: u32,
    guess: u32,
}

/// In buckets of so few entries the ones below are simply counted: that takes
/// no turn a processor could guess wrong.
const SMALL: u32 = 8;

/// Picks the bucket and guesses the place. Hashes are spread evenly over a
/// bucket, so the hash itself tells about where it stands.
#[inline]
pub fn seek<R: Reading, const BUCKETS: usize>(
    reading: R,
    file: &[u8],
    table: &Table<BUCKETS>,
    hash: u32,
) -> Sought {
    let (count, first) = table.bucket(file, bucket(reading, hash, BUCKETS));
    let guess = ((hash as u64 * count as u64) >> 32) as u32;
    let sought = Sought { hash, count, first: first as u32, guess };
    prefetch(file, sought.place(guess));
    sought
}

impl Sought {
    #[inline(always)]
    pub fn place(&self, number: u32) -> usize {
        self.first as usize + number as usize * ENTRY
    }

    #[inline(always)]
    pub fn hash_at(&self, file: &[u8], number: u32) -> u32 {
        u32_at(file, self.place(number))
    }

    /// Corrects the guess by what stands there.
    #[inline]
    pub fn refine(&mut self, file: &[u8]) {
        if self.count > SMALL {
            let there = self.hash_at(file, self.guess);
            let off = ((self.hash as i64 - there as i64) * self.count as i64) >> 32;
            self.guess = (self.guess as i64 + off).clamp(0, self.count as i64 - 1) as u32;
            prefetch(file, self.place(self.guess));
        }
    }

    /// The bucket's first entry whose hash is not below the asked one.
    ///
    /// The place is closed in from the guess by doubling steps and then by
    /// halving: a few entries in ordinary buckets, never more than twice the
    /// logarithm in any.
    #[inline]
    pub fn first_entry(&self, file: &[u8]) -> u32 {
        if self.count <= SMALL {
            let below = |number: u32| (self.hash_at(file, number) < self.hash) as u32;
            return (0..self.count).map(below).sum();
        }
        let (mut low, mut high) = if self.hash_at(file, self.guess) < self.hash {
            self.closed_in_above(file)
        } else {
            self.closed_in_below(file)
        };
        while low < high {
            let middle = low + (high - low) / 2;
            if self.hash_at(file, middle) < self.hash {
                low = middle + 1;
            } else {
                high = middle;
            }
        }
        low
    }

    /// Bounds of the place, which lies past the guess.
    #[inline]
    fn closed_in_above(&self, file: &[u8]) -> (u32, u32) {
        let (mut low, mut step) = (self.guess + 1, 1);
        while low + step < self.count && self.hash_at(file, low + step) < self.hash {
            low += step + 1;
            step *= 2;
        }
        (low, self.count.min(low + step))
    }

    /// Bounds of the place, which is the guess or lies before it.
    #[inline]
    fn closed_in_below(&self, file: &[u8]) -> (u32, u32) {
        let (mut high, mut step) = (self.guess, 1);
        while high >= step && self.hash_at(file, high - step) >= self.hash {
            high -= step;
            step *= 2;
        }
        ((high + 1).saturating_sub(step), high)
    }

    /// The entry with this hash for which `same` holds, or how many have the hash where
    /// it holds for none. Entries with one hash stand together, from `first` on, and
    /// every one of them is asked.
    #[inline]
    pub fn entry<R: Reading>(
        &self,
        reading: R,
        file: &[u8],
        first: u32,
        mut same: impl FnMut(Entry) -> bool,
    ) -> Result<Entry, u32> {
        let first_only = reading.wrong(Mutant::FirstHashOnly);
        let mut others = 0;
        for entry in self.entries(file, first) {
            if same(entry) || first_only {
                return Ok(entry);
            }
            others += 1;
        }
        Err(others)
    }

    /// The entries with this hash, from the first of them on.
    #[inline]
    pub fn entries<'a>(&'a self, file: &'a [u8], first: u32) -> impl Iterator<Item = Entry> + 'a {
        let all = (first..self.count).map(|number| Entry::at(file, self.place(number)));
        all.take_while(|entry| entry.hash == self.hash)
    }

    /// Whether many entries have this hash, of which the first is told.
    #[inline]
    pub fn is_crowded(&self, file: &[u8], first: u32) -> bool {
        let behind = first as u64 + FEW as u64;
        behind < self.count as u64 && self.hash_at(file, behind as u32) == self.hash
    }

    pub fn hash(&self) -> u32 {
        self.hash
    }

    /// Entries of the bucket.
    pub fn count(&self) -> u32 {
        self.count
    }

    /// Asks for the text of an entry that will be compared soon.
    #[inline]
    pub fn expect<const BUCKETS: usize>(&self, file: &[u8], table: &Table<BUCKETS>, number: u32) {
        if number < self.count {
            table.expect_text(file, Entry::at(file, self.place(number)));
        }
    }
}

/// Whether an entry that has passed its checks bears a text. Entries hold no 0, so an
/// equal text settles a 0 in the asked one too.
#[inline]
pub fn bears<R: Reading, const BUCKETS: usize>(
    reading: R,
    reader: Reader,
    file: &[u8],
    table: &Table<BUCKETS>,
    entry: Entry,
    text: &[u8],
) -> bool {
    if reader.rereads(reading, Table::<BUCKETS>::NAMES) {
        return table.text_at(reading, reader, file, entry.address) == Some(text);
    }
    entry.length as u64 == text.len() as u64 / 2 + 1 && table.entry_text(file, entry) == text
}

/// The hash a text is looked up by.
#[inline]
pub fn lookup_hash<R: Reading, const BUCKETS: usize>(reading: R, text: &[u8]) -> u32 {
    if reading.wrong(Mutant::LookupFolds) && !Table::<BUCKETS>::NAMES {
        return folded_hash(reading, text);
    }
    string_hash(reading, text)
}

/// The entry that bears a text given as bytes, or how many have its hash where none
/// does. None bears a text holding a 0.
#[inline]
pub fn find<R: Reading, const BUCKETS: usize>(
    reading: R,
    reader: Reader,
    file: &[u8],
    table: &Table<BUCKETS>,
    text: &[u8],
) -> Result<Entry, u32> {
    if reading.literal() {
        return find_literally(reading, reader, file, table, text);
    }
    let mut sought = seek(reading, file, table, lookup_hash::<R, BUCKETS>(reading, text));
    sought.refine(file);
    let same = |entry| bears(reading, reader, file, table, entry, text);
    if let Some(fault) = fault(reading, reader.searcher(Table::<BUCKETS>::NAMES)) {
        return sought.found_wrongly(file, fault, same);
    }
    let first = sought.first_entry(file);
    let found = sought.entry(reading, file, first, same);
    found.or_else(|others| find_either(reading, reader, file, table, text).ok_or(others))
}

/// The same by the words of document 01 and request T-05: over all entries of the table.
pub fn find_literally<R: Reading, const BUCKETS: usize>(
    reading: R,
    reader: Reader,
    file: &[u8],
    table: &Table<BUCKETS>,
    text: &[u8],
) -> Result<Entry, u32> {
    let bears = |entry: &Entry| table.text_at(reading, reader, file, entry.address) == Some(text);
    let hash = string_hash(reading, text);
    let with_hash = || table.entries(file).filter(|entry| entry.hash == hash).count();
    table.entries(file).find(bears).ok_or_else(|| with_hash() as u32)
}

/// What a wrong reading finds that takes 0150 and 0151 for the same character, in any
/// bucket.
#[inline(always)]
pub fn find_either<R: Reading, const BUCKETS: usize>(
    reading: R,
    reader: Reader,
    file: &[u8],
    table: &Table<BUCKETS>,
    text: &[u8],
) -> Option<Entry> {
    let mutant = reader.either_letter(Table::<BUCKETS>::NAMES)?;
    let same = |entry: &Entry| is_same_but_for_it(table.entry_text(file, *entry), text);
    reading.wrong(mutant).then(|| table.entries(file).find(same)).flatten()
}
