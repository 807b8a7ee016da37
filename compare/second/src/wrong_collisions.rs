//! Lookups with something wrong where a text may collide (T-05). Only mutants come this
//! far, so plain words matter more than speed.

use crate::answer::{Answer, ABSENT};
use crate::definition;
use crate::find::{find, seek};
use crate::hash::{string_hash, value_hash};
use crate::index::Index;
use crate::mutant::Slip;
use crate::reading::{Mutant, Reading, Right};
use crate::table::{Entry, Reader, Table};
use crate::view::View;

/// More characters than any text of a file has.
const LONG: usize = 65_536;
const SIXTEEN: u32 = 16;

/// A text that is asked for.
struct Asked<'a, const BUCKETS: usize> {
    file: &'a [u8],
    table: &'a Table<BUCKETS>,
    text: &'a [u8],
    hash: u32,
    /// Its entry, or how many have its hash.
    found: Result<Entry, u32>,
    /// The bucket of its hash, and the entries of it that have the hash.
    bucket: Vec<Entry>,
    equal: Vec<Entry>,
}

fn with_hash<const BUCKETS: usize>(file: &[u8], table: &Table<BUCKETS>, hash: u32) -> u32 {
    table.entries(file).filter(|entry| entry.hash == hash).count() as u32
}

/// A text collides with this many entries, or is absent where there are none.
fn counted(entries: u32) -> Answer {
    match entries {
        0 => ABSENT,
        _ => Answer::collided(entries),
    }
}

fn characters(text: &[u8]) -> Vec<u16> {
    text.chunks_exact(2).map(|two| u16::from_le_bytes([two[0], two[1]])).collect()
}

impl<R: Reading, I: Index> View<'_, R, I> {
    /// What a lookup answers for a text, by its entry or by the number of entries that
    /// have its hash.
    pub(crate) fn told_wrongly<const BUCKETS: usize>(
        &self,
        slip: Slip,
        table: &Table<BUCKETS>,
        text: &[u8],
        found: Result<Entry, u32>,
    ) -> Answer {
        let asked = Asked::new(self.file, table, text, found);
        if asked.holds_zero() {
            return asked.with_zero(slip).unwrap_or(ABSENT);
        }
        match found {
            Ok(entry) => asked.not_preferred(slip, entry),
            Err(_) if asked.is_taken_for_zero(slip) => Some(ABSENT),
            Err(_) => self
                .in_tables(slip, Table::<BUCKETS>::NAMES, asked.hash)
                .or_else(|| asked.by_other_hash(slip))
                .or_else(|| self.tells_other(&asked, slip))
                .or_else(|| asked.miscounted(slip).map(counted)),
        }
        .unwrap_or_else(|| self.told::<BUCKETS>(found))
    }

    /// Other entries than those of the asked table.
    fn in_tables(&self, slip: Slip, of_names: bool, hash: u32) -> Option<Answer> {
        let names = with_hash(self.file, &self.layout.names, hash);
        let values = with_hash(self.file, &self.layout.values, hash);
        match slip {
            Slip::BothTables => Some(counted(names + values)),
            Slip::OtherTable if of_names => Some(counted(values)),
            Slip::OtherTable => Some(counted(names)),
            _ => None,
        }
    }

    /// Something else than the number.
    fn tells_other<const BUCKETS: usize>(
        &self,
        asked: &Asked<BUCKETS>,
        slip: Slip,
    ) -> Option<Answer> {
        let first = *asked.equal.first()?;
        match slip {
            Slip::AbsentTells => Some(Answer { kind: 1, ..counted(asked.equal.len() as u32) }),
            Slip::TellsEntry => Some(Answer::collided(self.number::<BUCKETS>(first))),
            Slip::TellsHash => Some(Answer::collided(asked.hash)),
            Slip::LengthWraps => {
                let entry = asked.equal.iter().find(|entry| asked.wraps_to(entry))?;
                Some(Answer::of(self.number::<BUCKETS>(*entry) as u64))
            }
            _ => None,
        }
    }

    /// What a list of texts answers, and what its answers are changed to; nothing for the
    /// right reading.
    #[inline(always)]
    pub(crate) fn list_wrongly(&self, answers: &mut [u8]) -> Option<Answer> {
        let sticks = self.reading.wrong(Mutant::BatchCollidedSticks);
        if sticks || self.reading.wrong(Mutant::BatchNumbersAdd) {
            carry_on(answers, sticks);
        }
        let count = answers.len() as u64 / 8;
        let collided = || answers.chunks_exact(8).filter(|place| place[0] == 2).count() as u64;
        if self.reading.wrong(Mutant::BatchCollidedUncounted) {
            return Some(Answer::of(count - collided()));
        }
        let kind = self.reading.wrong(Mutant::BatchCollidedKind) && collided() > 0;
        kind.then(|| Answer { kind: 2, ..Answer::of(count) })
    }

    /// The index of a path's name that collides; none by the right reading.
    #[inline(always)]
    pub(crate) fn collided_name(&self, text: &[u8]) -> Option<u32> {
        let first = self.reading.wrong(Mutant::PathCollidedFirst);
        if !first && !self.reading.wrong(Mutant::PathCollidedLast) {
            return None;
        }
        let found = find(self.reading, Reader::Path, self.file, &self.layout.names, text);
        let asked = Asked::new(self.file, &self.layout.names, text, found);
        let entry = if first { asked.equal.first() } else { asked.equal.last() };
        entry.map(|entry| entry.index)
    }

    /// How many entries have the hash of a path's name, where none has the name.
    pub(crate) fn name_collisions(&self, text: &[u8]) -> u32 {
        let found = find(self.reading, Reader::Path, self.file, &self.layout.names, text);
        found.err().unwrap_or(0)
    }
}

/// Goes over a list's answers: an absent text takes the answer of a collided one before
/// it, or numbers add up.
fn carry_on(answers: &mut [u8], sticks: bool) {
    let mut sum = 0;
    let mut before = [0; 8];
    for place in answers.chunks_exact_mut(8) {
        match (place[0], sticks) {
            (1, true) if before[0] == 2 => place.copy_from_slice(&before),
            (2, false) => {
                sum += u32::from_le_bytes([place[4], place[5], place[6], place[7]]);
                place[4..].copy_from_slice(&sum.to_le_bytes());
            }
            _ => {}
        }
        before.copy_from_slice(place);
    }
}

impl<'a, const BUCKETS: usize> Asked<'a, BUCKETS> {
    fn new(
        file: &'a [u8],
        table: &'a Table<BUCKETS>,
        text: &'a [u8],
        found: Result<Entry, u32>,
    ) -> Self {
        let hash = string_hash(Right, text);
        let sought = seek(Right, file, table, hash);
        let bucket: Vec<Entry> =
            (0..sought.count()).map(|number| Entry::at(file, sought.place(number))).collect();
        let equal = bucket.iter().copied().filter(|entry| entry.hash == hash).collect();
        Asked { file, table, text, hash, found, bucket, equal }
    }

    fn holds_zero(&self) -> bool {
        definition::text(self.text).len() < self.text.len()
    }

    fn entry_text(&self, entry: &Entry) -> &'a [u8] {
        self.table.entry_text(self.file, *entry)
    }

    /// A text that holds a 0: where it is not looked for in the right characters, the
    /// text collides.
    fn with_zero(&self, slip: Slip) -> Option<Answer> {
        let all = characters(self.text);
        let fours = all.len() / 4 * 4;
        let seen = match slip {
            Slip::ZeroCollides | Slip::ZeroTells => &[][..],
            Slip::ZeroFirst => &all[..1],
            Slip::ZeroLast => &all[all.len() - 1..],
            Slip::ZeroInFours => &all[..fours],
            Slip::ZeroInRest => &all[fours..],
            Slip::ZeroIn64 => &all[..all.len().min(64)],
            Slip::ZeroIn65535 => &all[..all.len().min(LONG - 1)],
            Slip::ZeroCuts => {
                let cut = string_hash(Right, definition::text(self.text));
                return Some(counted(with_hash(self.file, self.table, cut)));
            }
            _ => return None,
        };
        if seen.contains(&0) {
            return None;
        }
        let collided = counted(self.found.err()?);
        Some(if slip == Slip::ZeroTells { Answer { kind: 1, ..collided } } else { collided })
    }

    /// Whether a text without a 0 is taken for one that holds a 0.
    fn is_taken_for_zero(&self, slip: Slip) -> bool {
        match slip {
            Slip::ZeroByte => self.text.contains(&0),
            Slip::ZeroLowByte => self.text.chunks_exact(2).any(|two| two[0] == 0),
            Slip::ZeroAcross => self.text.windows(2).any(|two| two == [0, 0]),
            _ => false,
        }
    }

    /// A text that is there, and collides with other entries all the same.
    fn not_preferred(&self, slip: Slip, entry: Entry) -> Option<Answer> {
        let others = self.equal.len() as u32 - 1;
        let first = self.equal.first().is_some_and(|first| first.index == entry.index);
        match slip {
            Slip::FoundToo if others > 0 => Some(Answer::collided(others)),
            Slip::FoundNotFirst if !first => Some(Answer::collided(others)),
            _ => None,
        }
    }

    /// Entries that have something else in common with the text than its hash.
    fn by_other_hash(&self, slip: Slip) -> Option<Answer> {
        let halves = |hash: u32| (hash ^ (hash >> 16)) as u16;
        let of_bucket = |alike: &dyn Fn(u32) -> bool| {
            self.bucket.iter().filter(|entry| alike(entry.hash)).count() as u32
        };
        let entries = match slip {
            Slip::AnyOfBucket => self.bucket.len() as u32,
            Slip::ByLowHalf => of_bucket(&|hash| hash as u16 == self.hash as u16),
            Slip::ByHighHalf => of_bucket(&|hash| hash >> 16 == self.hash >> 16),
            Slip::ByMixedHalves => of_bucket(&|hash| halves(hash) == halves(self.hash)),
            Slip::ByValueHash => {
                let own = value_hash(Right, self.text);
                let alike = |entry: &Entry| value_hash(Right, self.entry_text(entry)) == own;
                self.table.entries(self.file).filter(alike).count() as u32
            }
            Slip::ByFoldedHash => {
                with_hash(self.file, self.table, definition::folded_hash(Right, self.text))
            }
            _ => return None,
        };
        Some(counted(entries))
    }

    /// Another number of entries with the hash, where there are any.
    fn miscounted(&self, slip: Slip) -> Option<u32> {
        let count = self.equal.len() as u32;
        let never = match slip {
            Slip::Never => true,
            Slip::EmptyNever => self.text.is_empty(),
            Slip::HashZeroNever => self.hash == 0,
            Slip::LongNever => self.text.len() / 2 >= LONG,
            _ => false,
        };
        let uncounted = |other: Option<&Entry>| {
            let own = other.is_some_and(|entry| entry.hash == self.hash);
            count - own as u32
        };
        match slip {
            _ if count == 0 => None,
            _ if never => Some(0),
            Slip::OneLess => Some(count - 1),
            Slip::OneMore => Some(count + 1),
            Slip::WholeBucket => Some(self.bucket.len() as u32),
            Slip::One => Some(1),
            Slip::Sixteen => Some(count.min(SIXTEEN)),
            Slip::InByte => Some(count % 256),
            Slip::FirstUncounted => Some(uncounted(self.bucket.first())),
            Slip::LastUncounted => Some(uncounted(self.bucket.last())),
            Slip::OfLength => {
                Some(self.equal.iter().filter(|entry| self.is_as_long(entry)).count() as u32)
            }
            _ => self.stopped(slip),
        }
    }

    fn is_as_long(&self, entry: &Entry) -> bool {
        self.entry_text(entry).len() == self.text.len()
    }

    /// The number of entries before the one at which the count stops.
    fn stopped(&self, slip: Slip) -> Option<u32> {
        let length = |number: usize| self.entry_text(&self.equal[number]).len();
        let lower =
            |number: usize| number > 0 && self.equal[number].index < self.equal[number - 1].index;
        let own = characters(self.text);
        let stops = |number: usize| match slip {
            Slip::AtLength => length(number) == self.text.len(),
            Slip::AtLonger => length(number) > self.text.len(),
            Slip::AtShorter => length(number) < self.text.len(),
            Slip::AtLater => characters(self.entry_text(&self.equal[number])) > own,
            Slip::AtLowerIndex => lower(number),
            _ => false,
        };
        (0..self.equal.len()).find(|&number| stops(number)).map(|number| number as u32)
    }

    /// Whether an entry has the text's length in 16 bits and begins the text.
    fn wraps_to(&self, entry: &Entry) -> bool {
        let beginning = self.entry_text(entry);
        (self.text.len() - beginning.len().min(self.text.len())) / 2 == LONG
            && self.text.starts_with(beginning)
    }
}
