//! Crowds: entries of a bucket that all have one hash.
//!
//! Two names of one hash are two names, and files hold a few such pairs at most.
//! But any number of texts with one hash can be made, and then comparing each
//! entry with all before it takes the square of their number.

use std::ops::Range;

use crate::mix::Mixer;
use crate::table::{Entry, Table, ENTRY};

/// Crowds of so few are compared entry by entry.
pub const FEW: usize = 16;

pub struct Crowd<'a, const BUCKETS: usize> {
    pub file: &'a [u8],
    pub table: &'a Table<BUCKETS>,
    /// Offset of the first entry.
    pub first: usize,
    pub count: usize,
}

impl<'a, const BUCKETS: usize> Crowd<'a, BUCKETS> {
    fn entry(&self, number: usize) -> Entry {
        Entry::at(self.file, self.first + number * ENTRY)
    }

    fn text(&self, entry: Entry) -> &'a [u8] {
        self.table.entry_text(self.file, entry)
    }

    /// The number of the first entry whose text an earlier one has too.
    ///
    /// Texts of different lengths differ, so most texts need not be looked at. Of
    /// the rest a second hash is kept in a table, which has room for some thousand:
    /// a round takes the entries of some lengths, and one length that many have
    /// takes the round several times, from where the table was full.
    #[inline(never)]
    pub fn first_repeat(&self) -> Option<usize> {
        let lengths = Lengths::of(self);
        let shared = |entry: Entry| lengths.shared(entry.length);
        let alike = (0..self.count).filter(|&number| shared(self.entry(number))).count();
        let rounds = (alike / ROOM + 1).min(lengths.count_shared()) as u32;
        let mixer = Mixer::new();
        let mut seen = Seen::new();
        let mut end = self.count;
        for round in 0..rounds {
            let elsewhere = |length| rounds > 1 && mixer.number(length) % rounds != round;
            let mut start = 0;
            while start < end {
                seen.clear();
                let mut full_at = end;
                for number in start..end {
                    let entry = self.entry(number);
                    if !shared(entry) || elsewhere(entry.length) {
                        continue;
                    }
                    let key = mixer.text(self.text(entry));
                    match seen.put(key, number < full_at) {
                        Put::Done => {}
                        Put::Full => full_at = full_at.min(number),
                        Put::Seen => {
                            if self.is_among(entry, start..full_at.min(number)) {
                                end = number;
                                break;
                            }
                        }
                    }
                }
                start = full_at;
            }
        }
        (end < self.count).then_some(end)
    }

    /// Whether one of these entries has the same text.
    fn is_among(&self, entry: Entry, numbers: Range<usize>) -> bool {
        let text = self.text(entry);
        let same = |other: Entry| other.length == entry.length && self.text(other) == text;
        numbers.rev().any(|number| same(self.entry(number)))
    }
}

/// Which lengths entries have, and which of them more than one has.
struct Lengths {
    seen: [u64; WORDS],
    shared: [u64; WORDS],
}

/// Lengths are 1 to 65,536: a text that fills a segment has 65,535 characters.
const WORDS: usize = 65_536 / 64;

impl Lengths {
    fn of<const BUCKETS: usize>(crowd: &Crowd<BUCKETS>) -> Lengths {
        let mut lengths = Lengths { seen: [0; WORDS], shared: [0; WORDS] };
        for number in 0..crowd.count {
            let (word, bit) = place(crowd.entry(number).length);
            lengths.shared[word] |= lengths.seen[word] & bit;
            lengths.seen[word] |= bit;
        }
        lengths
    }

    #[inline]
    fn shared(&self, length: u32) -> bool {
        let (word, bit) = place(length);
        self.shared[word] & bit != 0
    }

    fn count_shared(&self) -> usize {
        self.shared.iter().map(|word| word.count_ones() as usize).sum()
    }
}

#[inline]
fn place(length: u32) -> (usize, u64) {
    let place = length as usize - 1;
    (place / 64 % WORDS, 1 << (place % 64))
}

/// Places of the table of second hashes, and how many of them may be filled.
const PLACES: usize = 16_384;
const ROOM: usize = 12_288;

/// Second hashes of texts; 0 is empty.
struct Seen {
    keys: [u32; PLACES],
    filled: usize,
}

enum Put {
    Done,
    /// The hash was there, so the text may have been.
    Seen,
    /// There is no room for it, or it was not to be put.
    Full,
}

impl Seen {
    fn new() -> Seen {
        Seen { keys: [0; PLACES], filled: 0 }
    }

    fn clear(&mut self) {
        self.keys.fill(0);
        self.filled = 0;
    }

    #[inline]
    fn put(&mut self, key: u32, wanted: bool) -> Put {
        let key = key.max(1);
        let mut place = key as usize % PLACES;
        while self.keys[place] != 0 {
            if self.keys[place] == key {
                return Put::Seen;
            }
            place = (place + 1) % PLACES;
        }
        if !wanted || self.filled == ROOM {
            return Put::Full;
        }
        self.filled += 1;
        self.keys[place] = key;
        Put::Done
    }
}
