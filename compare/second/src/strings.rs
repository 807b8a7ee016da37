//! Checks of a string table: refusals 7 to 13.

use crate::answer::{refuse, Refusal};
use crate::crowd::{Crowd, FEW};
use crate::effort::{Effort, Stop};
use crate::find::bears;
use crate::hash::{bucket, hash_on, otherwise, string_hash};
use crate::index::{Index, Plain, Texts};
use crate::layout::Layout;
use crate::letter::{is_same_but_for_it, with_capital};
use crate::literal::{self, Told};
use crate::reading::{Mutant, Reading};
use crate::region::Segment;
use crate::scan::holds_zero;
use crate::searches::{fault, Searcher};
use crate::table::{Entry, Reader, Table, ENTRY};
use crate::tails::{Tails, LONG};
use crate::wrong_search::check_carried_wrongly;

/// How many entries ahead memory is asked for.
const AHEAD: usize = 8;
/// Ends of long texts that are remembered.
const ENDS: usize = 96;

/// Values first, then names.
pub fn check_tables<R: Reading, I: Index>(
    reading: R,
    file: &[u8],
    layout: &Layout,
    index: &mut I,
) -> Result<(), Refusal> {
    let texts = Texts { reading, file, values: &layout.values };
    let values = TableChecks { reading, file, table: texts.values, allowance: I::ALLOWANCE };
    let names = TableChecks { reading, file, table: &layout.names, allowance: I::ALLOWANCE };
    // Nobody asks for names by their addresses.
    let mut nobody: Plain = Plain;
    if reading.wrong(Mutant::NamesBeforeValues) {
        names.run(&texts, &mut nobody)?;
    }
    values.run(&texts, index)?;
    names.run(&texts, &mut nobody)
}

struct TableChecks<'a, R, const BUCKETS: usize> {
    reading: R,
    file: &'a [u8],
    table: &'a Table<BUCKETS>,
    allowance: usize,
}

/// An entry and where it stands: in which bucket, after which hash.
#[derive(Clone, Copy)]
struct Standing {
    entry: Entry,
    at: usize,
    bucket: usize,
    /// Offset of the bucket's first entry.
    first: usize,
    /// The hash of the entry before, or 0.
    before: u32,
}

impl<'a, R: Reading, const BUCKETS: usize> TableChecks<'a, R, BUCKETS> {
    /// Bucket by bucket, and carefully from the bucket on where the effort has
    /// become too much.
    fn run<I: Index>(&self, texts: &Texts<R>, index: &mut I) -> Result<(), Refusal> {
        let mut effort = Effort::new(self.allowance, self.file.len());
        for number in 0..BUCKETS {
            match self.bucket(number, &mut effort, texts, index) {
                Ok(()) => {}
                Err(Stop::Refused(refusal)) => return Err(refusal),
                Err(Stop::Dear) => {
                    self.carefully(number, texts, index)?;
                    break;
                }
            }
        }
        self.check_carried()
    }

    fn bucket<I: Index>(
        &self,
        bucket: usize,
        effort: &mut Effort,
        texts: &Texts<R>,
        index: &mut I,
    ) -> Result<(), Stop> {
        let (count, first) = self.table.bucket(self.file, bucket);
        if count == 0 {
            return Ok(());
        }
        let mut before = 0;
        // The segments of texts that were asked for ahead.
        let mut ahead = [None; AHEAD];
        for number in 0..count as usize {
            effort.check()?;
            let at = first + number * ENTRY;
            let entry = Entry::at(self.file, at);
            let segment = if number < AHEAD { self.segment(entry) } else { ahead[number % AHEAD] };
            if number + AHEAD < count as usize {
                let later = Entry::at(self.file, at + AHEAD * ENTRY);
                ahead[number % AHEAD] = self.table.expect(self.file, later);
                index.expect_entry(later.address);
            }
            let standing = Standing { entry, at, bucket, first, before };
            let text = self.told_text(standing, segment)?;
            effort.spend(text.len());
            self.check_text(standing, text)?;
            self.check_order(standing)?;
            self.check_index(standing)?;
            self.check_repeat(standing, text, effort)?;
            index.add(texts, entry, text);
            before = entry.hash;
        }
        Ok(())
    }

    /// The buckets from one on, with long texts that are ends of others read in
    /// part, and crowds checked for repeats in one go.
    #[inline(never)]
    fn carefully<I: Index>(
        &self,
        from: usize,
        texts: &Texts<R>,
        index: &mut I,
    ) -> Result<(), Refusal> {
        let mut tails: Tails<ENDS, 0> = Tails::EMPTY;
        for bucket in from..BUCKETS {
            let (count, first) = self.table.bucket(self.file, bucket);
            let end = first + count as usize * ENTRY;
            let mut before = 0;
            let mut crowd = first;
            for at in (first..end).step_by(ENTRY) {
                let entry = Entry::at(self.file, at);
                let standing = Standing { entry, at, bucket, first, before };
                let text = match self.entry_carefully(standing, &mut tails) {
                    Ok(text) => text,
                    Err(refusal) => {
                        // A repeat among those before it comes first.
                        self.check_crowd(crowd, at)?;
                        return Err(refusal);
                    }
                };
                if entry.hash != before {
                    self.check_crowd(crowd, at)?;
                    crowd = at;
                }
                index.add(texts, entry, text);
                before = entry.hash;
            }
            self.check_crowd(crowd, end)?;
        }
        Ok(())
    }

    /// 7 to 11.
    fn entry_carefully(
        &self,
        standing: Standing,
        tails: &mut Tails<ENDS, 0>,
    ) -> Result<&'a [u8], Refusal> {
        let text = self.told_text(standing, self.segment(standing.entry))?;
        if text.len() < LONG || otherwise(self.reading) {
            self.check_text(standing, text)?;
        } else {
            let start = self.table.entry_start(self.file, standing.entry);
            match tails.hash(self.file, start, start + text.len()) {
                None => return refuse(8, standing.at),
                Some(hash) if hash != standing.entry.hash => return refuse(9, standing.at),
                Some(_) => {}
            }
        }
        self.check_order(standing)?;
        self.check_index(standing)?;
        Ok(text)
    }

    #[inline]
    fn segment(&self, entry: Entry) -> Option<Segment> {
        self.table.chars.segment(self.file, entry.address.segment)
    }

    /// 7, and of 8 that a 0 or the end of the used part is where the length says: the
    /// text before that.
    #[inline]
    fn told_text(
        &self,
        Standing { entry, at, .. }: Standing,
        segment: Option<Segment>,
    ) -> Result<&'a [u8], Refusal> {
        let Self { reading, file, table, .. } = *self;
        let Some(segment) = segment else {
            return refuse(7, at);
        };
        if literal::reads(reading) {
            let told = Told { reading, file, table, entry, segment };
            return told.text().or_else(|number| refuse(number, at));
        }
        let Some(room) = segment.used.checked_sub(entry.address.element as u32 + 1) else {
            return refuse(7, at);
        };
        // The length counts a 0, which is not stored where the text has all the room.
        let room = room as usize + 1;
        let characters = (entry.length as usize).wrapping_sub(1);
        if characters > room {
            return refuse(8, at);
        }
        let start = table.chars.element_at(segment, entry.address.element);
        let end = start + 2 * characters;
        if characters < room && file[end..end + 2] != [0, 0] {
            return refuse(8, at);
        }
        Ok(&file[start..end])
    }

    /// 8: no 0 stands before that; and 9.
    #[inline]
    fn check_text(&self, Standing { entry, at, .. }: Standing, text: &[u8]) -> Result<(), Refusal> {
        if holds_zero(text) {
            return refuse(8, at);
        }
        let mut hash = string_hash(self.reading, text);
        if self.reading.wrong(Mutant::AbsentZeroHashed) && !self.stores_zero(entry) {
            hash = hash_on(self.reading, hash, &[0, 0]);
        }
        if self.reading.wrong(Mutant::NameHash0151) && Table::<BUCKETS>::NAMES {
            hash = string_hash(self.reading, &with_capital(text));
        }
        if hash != entry.hash {
            return refuse(9, at);
        }
        Ok(())
    }

    /// Whether the 0 of an entry that has passed 8 is stored.
    fn stores_zero(&self, entry: Entry) -> bool {
        let end = entry.address.element as u64 + entry.length as u64;
        self.segment(entry).is_some_and(|segment| end <= segment.used as u64)
    }

    /// 10: the right bucket, and hashes that do not fall.
    #[inline]
    fn check_order(&self, standing: Standing) -> Result<(), Refusal> {
        let Standing { entry, at, before, first, .. } = standing;
        let wrong_bucket = bucket(self.reading, entry.hash, BUCKETS) != standing.bucket;
        let equal = at > first && entry.hash == before;
        if (wrong_bucket && !self.reading.wrong(Mutant::BucketNotChecked))
            || (entry.hash < before && !self.reading.wrong(Mutant::OrderNotChecked))
            || (equal && self.reading.wrong(Mutant::EqualHashRefused))
        {
            return refuse(10, at);
        }
        Ok(())
    }

    /// 11: the index is in the list and the address there is the entry's.
    #[inline]
    fn check_index(&self, Standing { entry, at, .. }: Standing) -> Result<(), Refusal> {
        if entry.index == 0 && self.reading.wrong(Mutant::IndexZeroAllowed) {
            return Ok(());
        }
        let inside = entry.index >= 1 && entry.index <= self.table.listed;
        if !inside {
            return refuse(11, at);
        }
        let same = self.table.listed_address(self.file, entry.index) == entry.address;
        if !same && !self.reading.wrong(Mutant::IndexAddressNotChecked) {
            return refuse(11, at);
        }
        Ok(())
    }

    /// 12: no earlier entry of the bucket has this text. Hashes do not fall, so
    /// only the earlier entries with the same hash can.
    #[inline]
    fn check_repeat(
        &self,
        Standing { entry, at, first, .. }: Standing,
        text: &[u8],
        effort: &mut Effort,
    ) -> Result<(), Refusal> {
        let mut earlier = at;
        while earlier > first {
            earlier -= ENTRY;
            let other = Entry::at(self.file, earlier);
            if other.hash != entry.hash && !self.reading.wrong(Mutant::Repeats0151) {
                break;
            }
            effort.spend(ENTRY);
            if self.is_same(other, entry, text) && !self.reading.wrong(Mutant::RepeatsAllowed) {
                return refuse(12, at);
            }
            if self.reading.wrong(Mutant::RepeatsNeighbourOnly) {
                break;
            }
        }
        Ok(())
    }

    /// Whether an earlier entry has the text of this one: both have passed 8, and
    /// whether their 0 is stored makes no difference.
    #[inline]
    fn is_same(&self, other: Entry, entry: Entry, text: &[u8]) -> bool {
        let Self { reading, file, table, .. } = *self;
        if reading.wrong(Mutant::RepeatsByHash) && other.length == entry.length {
            return true;
        }
        if reading.wrong(Mutant::Repeats0151) {
            return is_same_but_for_it(table.entry_text(file, other), text);
        }
        let apart = reading.wrong(Mutant::RepeatsByStorage)
            && self.stores_zero(other) != self.stores_zero(entry);
        !apart && bears(reading, Reader::Repeat, file, table, other, text)
    }

    /// 12 for the entries of one hash, from one offset to another.
    fn check_crowd(&self, first: usize, end: usize) -> Result<(), Refusal> {
        let Self { reading, file, table, .. } = *self;
        let count = (end - first) / ENTRY;
        let mutants = [
            Mutant::RepeatsByHash,
            Mutant::RepeatsAllowed,
            Mutant::RepeatsNeighbourOnly,
            Mutant::RepeatsByStorage,
            Mutant::RepeatsZeroNeeded,
            Mutant::RepeatsUpToFull,
        ];
        if count > FEW && !mutants.iter().any(|&mutant| reading.wrong(mutant)) {
            return match (Crowd { file, table, first, count }).first_repeat() {
                Some(number) => refuse(12, first + number * ENTRY),
                None => Ok(()),
            };
        }
        for at in (first..end).step_by(ENTRY) {
            let entry = Entry::at(file, at);
            let standing = Standing { entry, at, first, bucket: 0, before: 0 };
            let text = table.entry_text(file, entry);
            self.check_repeat(standing, text, &mut Effort::endless())?;
        }
        Ok(())
    }

    /// 13: every list position is carried. Two entries with one index would have
    /// one address, so one text, so one bucket, and 12 would have refused them:
    /// indices are all different, and as many entries as positions carry them all.
    /// With fewer, the first gap is among the first positions that fewer entries
    /// carry than there are.
    fn check_carried(&self) -> Result<(), Refusal> {
        let Self { reading, file, table, .. } = *self;
        if table.entries == table.listed as u64 || reading.wrong(Mutant::UncarriedAllowed) {
            return Ok(());
        }
        if let Some(fault) = fault(reading, Searcher::Carried) {
            return check_carried_wrongly(reading, file, table, fault);
        }
        let (mut first, mut count) = (1, table.listed);
        while count > 1 {
            let Some((start, length)) = self.first_short_part(first, count) else {
                return Ok(());
            };
            (first, count) = (start, length);
        }
        let carried = table.entries(file).any(|entry| entry.index == first);
        if carried {
            return Ok(());
        }
        refuse(13, table.count_at + 4 * first as usize)
    }

    /// Of `count` indices from `first` on, cut into parts: the first part that has
    /// fewer entries than indices.
    #[inline(never)]
    fn first_short_part(&self, first: u32, count: u32) -> Option<(u32, u32)> {
        const PARTS: u32 = 1024;
        let part = count.div_ceil(PARTS);
        let mut carried = [0; PARTS as usize];
        for entry in self.table.entries(self.file) {
            let number = entry.index.wrapping_sub(first);
            if number < count {
                carried[(number / part) as usize] += 1;
            }
        }
        let parts = (0..count).step_by(part as usize).map(|start| (start, part.min(count - start)));
        let short = parts.zip(carried).find(|&((_, length), carried)| carried < length);
        short.map(|((start, length), _)| (first + start, length))
    }
}
