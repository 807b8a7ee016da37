//! The search of a bucket with something wrong. Only mutants come this far, so plain
//! words matter more than speed.

use std::ops::Range;

use crate::answer::{refuse, Refusal};
use crate::find::{lookup_hash, seek, Sought};
use crate::mutant::Fault;
use crate::reading::Reading;
use crate::table::{Entry, Reader, Table};

/// Entries on either side of an estimate.
const NEAR: u32 = 4;
/// Entries of one hash that are looked at.
const EIGHT: u32 = 8;

impl Sought {
    /// The entry that is found: of those with the hash the one that is the same, save for
    /// what is wrong.
    pub fn entry_wrongly(
        &self,
        file: &[u8],
        fault: Fault,
        same: impl Fn(Entry) -> bool,
    ) -> Option<Entry> {
        let numbers = self.numbers_wrongly(file, fault);
        let entries = numbers.map(|number| Entry::at(file, self.place(number)));
        let mut entries = entries.take_while(|entry| entry.hash == self.hash());
        entries.find(|&entry| same(entry) || fault == Fault::AnyEqual)
    }

    /// The same for a lookup, whose number of entries with the hash stays right: only what
    /// is found differs.
    pub fn found_wrongly(
        &self,
        file: &[u8],
        fault: Fault,
        same: impl Fn(Entry) -> bool,
    ) -> Result<Entry, u32> {
        let with_hash = || self.entries(file, self.first_entry(file)).count() as u32;
        self.entry_wrongly(file, fault, same).ok_or_else(with_hash)
    }

    fn numbers_wrongly(&self, file: &[u8], fault: Fault) -> Range<u32> {
        let count = self.count();
        let first = self.halved(0..count, u32::MAX, |number| self.is_below(file, number));
        let equal = |number: &u32| self.hash_at(file, *number) == self.hash();
        let equals = (first..count).take_while(equal).count() as u32;
        match fault {
            Fault::Early => first.saturating_sub(1)..count,
            Fault::Late => first + 1..count,
            Fault::LastEqual => first + equals.saturating_sub(1)..count,
            Fault::FirstMissed => first.max(1)..count,
            Fault::LastMissed => first..count.saturating_sub(1),
            Fault::RoundTooFew => {
                // The least k with 2 to the k above the count is one more.
                let rounds = count.checked_ilog2().unwrap_or(0);
                self.halved(0..count, rounds, |number| self.is_below(file, number))..count
            }
            Fault::FirstEqual | Fault::AnyEqual => first..count.min(first + 1),
            Fault::EightEqual => first..count.min(first + EIGHT),
            Fault::Signed => {
                let signed = |number| (self.hash_at(file, number) as i32) < self.hash() as i32;
                self.halved(0..count, u32::MAX, signed)..count
            }
            Fault::HighHalf => {
                let high = |number| self.hash_at(file, number) >> 16 < self.hash() >> 16;
                self.halved(0..count, u32::MAX, high)..count
            }
            Fault::Below256 => first..count.min(255),
            Fault::NearEstimate => {
                let estimate = ((self.hash() as u64 * count as u64) >> 32) as u32;
                first.max(estimate.saturating_sub(NEAR))..count.min(estimate + NEAR)
            }
        }
    }

    fn is_below(&self, file: &[u8], number: u32) -> bool {
        self.hash_at(file, number) < self.hash()
    }

    /// The first number that is not below, by so many halvings at most.
    fn halved(&self, numbers: Range<u32>, rounds: u32, below: impl Fn(u32) -> bool) -> u32 {
        let Range { start: mut low, end: mut high } = numbers;
        for _ in 0..rounds {
            if low >= high {
                break;
            }
            let middle = low + (high - low) / 2;
            if below(middle) {
                low = middle + 1;
            } else {
                high = middle;
            }
        }
        low
    }
}

/// 13 by a search for each list position: an entry with its index, where its text belongs.
pub fn check_carried_wrongly<R: Reading, const BUCKETS: usize>(
    reading: R,
    file: &[u8],
    table: &Table<BUCKETS>,
    fault: Fault,
) -> Result<(), Refusal> {
    let is_carried = |index: u32| {
        let address = table.listed_address(file, index);
        // No mutant reads texts in another way than the right reading here.
        let Some(text) = table.text_at(reading, Reader::Single, file, address) else {
            return false;
        };
        let sought = seek(reading, file, table, lookup_hash::<R, BUCKETS>(reading, text));
        sought.entry_wrongly(file, fault, |entry| entry.index == index).is_some()
    };
    match (1..=table.listed).find(|&index| !is_carried(index)) {
        Some(index) => refuse(13, table.count_at + 4 * index as usize),
        None => Ok(()),
    }
}
