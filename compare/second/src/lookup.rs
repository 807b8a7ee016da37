//! Lookups by text on a held view, one at a time.

use crate::answer::{Answer, Refusal, ABSENT};
use crate::collisions::{slip, Asker};
use crate::definition;
use crate::find::find;
use crate::index::Index;
use crate::reading::{Mutant, Reading};
use crate::scan::holds_zero;
use crate::table::{Entry, Reader, Table};
use crate::view::View;

/// Which string table a lookup asks.
#[derive(Clone, Copy, Debug, PartialEq, Eq)]
pub enum Which {
    Names,
    Values,
}

/// 24 for a single text: an odd number of bytes.
pub fn text_fault(text: &[u8]) -> Option<Refusal> {
    (text.len() % 2 == 1).then_some(Refusal { number: 24, place: text.len() as u64 })
}

/// 24 for a path or a batch: odd, or not empty and not ending in a 0 character.
pub fn list_fault<R: Reading>(reading: R, texts: &[u8]) -> Option<Refusal> {
    let odd = texts.len() % 2 == 1;
    let unended = !texts.is_empty() && !texts.ends_with(&[0, 0]);
    let allowed = reading.wrong(Mutant::UnendedPathAllowed) && !odd;
    ((odd || unended) && !allowed).then_some(Refusal { number: 24, place: texts.len() as u64 })
}

/// The texts of a path or a batch: each is what stands before a 0 character.
pub fn texts(list: &[u8]) -> impl Iterator<Item = &[u8]> {
    let mut left = list;
    std::iter::from_fn(move || {
        if left.is_empty() {
            return None;
        }
        let length = left.chunks_exact(2).position(|pair| pair == [0, 0]).unwrap_or(left.len() / 2);
        let (text, rest) = left.split_at(2 * length);
        left = rest.get(2..).unwrap_or(&[]);
        Some(text)
    })
}

impl<R: Reading, I: Index> View<'_, R, I> {
    /// The index of a path's name. A collided name is no node's, as an absent one is.
    #[inline]
    pub(crate) fn path_name(&self, text: &[u8]) -> Option<u32> {
        let found = find(self.reading, Reader::Path, self.file, &self.layout.names, text);
        found.ok().map(|entry| entry.index)
    }

    pub fn single(&self, which: Which, text: &[u8]) -> Answer {
        if let Some(refusal) = text_fault(text) {
            return refusal.into();
        }
        match which {
            Which::Names => self.lookup(&self.layout.names, text),
            Which::Values => self.lookup(&self.layout.values, text),
        }
    }

    #[inline]
    fn lookup<const BUCKETS: usize>(&self, table: &Table<BUCKETS>, text: &[u8]) -> Answer {
        let text = if self.reading.wrong(Mutant::ZeroCutsText) {
            texts(text).next().unwrap_or(text)
        } else {
            text
        };
        let found = find(self.reading, Reader::Single, self.file, table, text);
        if let Some(slip) = slip(self.reading, Asker::of_one(Table::<BUCKETS>::NAMES)) {
            return self.told_wrongly(slip, table, text, found);
        }
        // Entries hold no 0, so a text with one is not found. But it may have their hash.
        if matches!(found, Err(1..)) && self.holds_zero(text) {
            return ABSENT;
        }
        self.told::<BUCKETS>(found)
    }

    fn holds_zero(&self, text: &[u8]) -> bool {
        if self.reading.literal() {
            return definition::text(text).len() < text.len();
        }
        holds_zero(text)
    }

    /// What a lookup answers for a text that holds no 0, by its entry or by the number of
    /// entries that have its hash.
    #[inline]
    pub(crate) fn told<const BUCKETS: usize>(&self, found: Result<Entry, u32>) -> Answer {
        match found {
            Ok(entry) => Answer::of(self.number::<BUCKETS>(entry) as u64),
            Err(0) => ABSENT,
            Err(others) => Answer::collided(others),
        }
    }

    /// What a lookup answers for an entry: a name's index, a value's address.
    #[inline]
    pub(crate) fn number<const BUCKETS: usize>(&self, entry: Entry) -> u32 {
        if Table::<BUCKETS>::NAMES {
            entry.index
        } else if self.reading.wrong(Mutant::AddressNumberSwapped) {
            entry.address.number().rotate_left(16)
        } else {
            entry.address.number()
        }
    }
}
