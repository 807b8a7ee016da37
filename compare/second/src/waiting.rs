//! Lookups in crowds, put off until many of them can be settled by going over the
//! crowd's entries once.

use crate::find::seek;
use crate::reading::Reading;
use crate::table::{Entry, Table};

/// Lookups that can wait.
const MOST: usize = 1024;

/// A lookup among the entries of a hash. The key is what it looks for, or a
/// number that tells most others from it.
#[derive(Clone, Copy)]
struct Lookup<T> {
    hash: u32,
    key: u32,
    found: bool,
    what: T,
}

pub struct Waiting<T> {
    lookups: [Lookup<T>; MOST],
    count: usize,
}

impl<T: Copy> Waiting<T> {
    /// None yet; the places hold `nothing`.
    pub fn new(nothing: T) -> Waiting<T> {
        let empty = Lookup { hash: 0, key: 0, found: false, what: nothing };
        Waiting { lookups: [empty; MOST], count: 0 }
    }

    pub fn is_full(&self) -> bool {
        self.count == MOST
    }

    /// Adds one where there is room.
    pub fn add(&mut self, hash: u32, key: u32, what: T) {
        self.lookups[self.count] = Lookup { hash, key, found: false, what };
        self.count += 1;
    }

    /// Settles all of them. An entry is offered to the lookups that have its key,
    /// and the answer is whether it is the one. Those that none was for are offered the
    /// number of entries with their hash. An entry without a key is nobody's.
    pub fn settle<R: Reading, const BUCKETS: usize>(
        &mut self,
        reading: R,
        file: &[u8],
        table: &Table<BUCKETS>,
        key: impl Fn(Entry) -> Option<u32>,
        mut offer: impl FnMut(T, Result<Entry, u32>) -> bool,
    ) {
        let lookups = &mut self.lookups[..self.count];
        lookups.sort_unstable_by_key(|lookup| (lookup.hash, lookup.key));
        for group in lookups.chunk_by_mut(|a, b| a.hash == b.hash) {
            let mut sought = seek(reading, file, table, group[0].hash);
            sought.refine(file);
            let first = sought.first_entry(file);
            settle_group(group, sought.entries(file, first), &key, &mut offer);
        }
        self.count = 0;
    }
}

/// Settles lookups of one hash, among all entries that have it.
fn settle_group<T: Copy>(
    group: &mut [Lookup<T>],
    entries: impl Iterator<Item = Entry>,
    key: &impl Fn(Entry) -> Option<u32>,
    offer: &mut impl FnMut(T, Result<Entry, u32>) -> bool,
) {
    let mut keys = Filter::new();
    group.iter().for_each(|lookup| keys.add(lookup.key));
    let (mut left, mut count) = (group.len(), 0);
    for entry in entries {
        count += 1;
        let Some(key) = key(entry).filter(|&key| keys.may_hold(key)) else {
            continue;
        };
        let from = group.partition_point(|lookup| lookup.key < key);
        for lookup in group[from..].iter_mut().take_while(|lookup| lookup.key == key) {
            if !lookup.found && offer(lookup.what, Ok(entry)) {
                lookup.found = true;
                left -= 1;
            }
        }
        if left == 0 {
            return;
        }
    }
    for lookup in group.iter().filter(|lookup| !lookup.found) {
        offer(lookup.what, Err(count));
    }
}

/// Tells most numbers that are not there.
pub struct Filter {
    bits: [u64; FILTER_WORDS],
}

const FILTER_WORDS: usize = 256;

impl Filter {
    pub fn new() -> Filter {
        Filter { bits: [0; FILTER_WORDS] }
    }

    fn place(key: u32) -> (usize, u64) {
        // The high bits of a product depend on all bits.
        let mixed = key.wrapping_mul(0x9e37_79b1) >> 18;
        (mixed as usize / 64 % FILTER_WORDS, 1 << (mixed % 64))
    }

    pub fn add(&mut self, key: u32) {
        let (word, bit) = Filter::place(key);
        self.bits[word] |= bit;
    }

    #[inline]
    pub fn may_hold(&self, key: u32) -> bool {
        let (word, bit) = Filter::place(key);
        self.bits[word] & bit != 0
    }
}
