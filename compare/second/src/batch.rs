//! Many lookups by text in one question, on a held view.

use crate::answer::{Answer, Refusal};
use crate::collisions::{slip, Asker};
use crate::effort::Effort;
use crate::find::{bears, find_either, find_literally, lookup_hash, seek, Sought};
use crate::index::Index;
use crate::lookup::{list_fault, Which};
use crate::mix::Mixer;
use crate::reading::{Mutant, Reading};
use crate::scan::scan;
use crate::searches::{fault, Searcher};
use crate::table::{Entry, Reader, Table, ENTRY};
use crate::view::View;
use crate::waiting::{Filter, Waiting};

/// How many lookups of a batch are under way at once.
const GROUP: usize = 16;

/// What lookups that are put off are told from others by.
struct Crowded {
    mixer: Mixer,
    /// The lengths that they ask for.
    lengths: Filter,
}

impl<R: Reading, I: Index> View<'_, R, I> {
    /// Many lookups: eight bytes a text, kind and value, low byte first.
    pub fn batch(&self, which: Which, list: &[u8], answers: &mut [u8]) -> Answer {
        if let Some(refusal) = list_fault(self.reading, list) {
            return refusal.into();
        }
        // Every text of the list ends in a 0 and holds none.
        let count = list.chunks_exact(2).filter(|pair| *pair == [0, 0]).count();
        if answers.len() / 8 < count {
            return Answer::from(Refusal { number: 25, place: count as u64 });
        }
        match which {
            Which::Names => self.batch_of(&self.layout.names, list, answers),
            Which::Values => self.batch_of(&self.layout.values, list, answers),
        }
        self.list_wrongly(&mut answers[..8 * count]).unwrap_or(Answer::of(count as u64))
    }

    /// Lookups a group at a time, step by step, so that their waits for memory
    /// fall together.
    fn batch_of<const BUCKETS: usize>(
        &self,
        table: &Table<BUCKETS>,
        list: &[u8],
        mut answers: &mut [u8],
    ) {
        let mut effort = Effort::new(I::ALLOWANCE, self.file.len() + list.len());
        let mut left = list;
        let mut group: [(&[u8], Sought, u32); GROUP] = [(&[], Sought::default(), 0); GROUP];
        while !left.is_empty() {
            if effort.check().is_err() {
                return self.batch_carefully(table, left, answers);
            }
            let mut filled = 0;
            while filled < GROUP && !left.is_empty() {
                let (text, hash) = self.next_text::<BUCKETS>(&mut left);
                group[filled] = (text, seek(self.reading, self.file, table, hash), 0);
                filled += 1;
            }
            for (_, sought, _) in &mut group[..filled] {
                sought.refine(self.file);
            }
            for (_, sought, first) in &mut group[..filled] {
                *first = sought.first_entry(self.file);
                sought.expect(self.file, table, *first);
            }
            let (places, later) = answers.split_at_mut(answers.len().min(8 * filled));
            for (&(text, sought, first), place) in group[..filled].iter().zip(places.chunks_mut(8))
            {
                let found = self.batch_entry(table, sought, first, text, &mut effort);
                self.put(self.batch_told(table, text, found), place);
            }
            answers = later;
        }
    }

    /// The same for files with crowds: lookups there are put off, and many of them
    /// are settled by going over a crowd once.
    #[inline(never)]
    fn batch_carefully<const BUCKETS: usize>(
        &self,
        table: &Table<BUCKETS>,
        mut left: &[u8],
        answers: &mut [u8],
    ) {
        let mut crowded = Crowded { mixer: Mixer::new(), lengths: Filter::new() };
        let mut waiting: Waiting<(&[u8], usize)> = Waiting::new((&[], 0));
        for number in 0.. {
            if left.is_empty() {
                break;
            }
            let (text, hash) = self.next_text::<BUCKETS>(&mut left);
            let mut sought = seek(self.reading, self.file, table, hash);
            sought.refine(self.file);
            let first = sought.first_entry(self.file);
            if sought.is_crowded(self.file, first) {
                if waiting.is_full() {
                    self.answer_crowded(table, &mut waiting, &mut crowded, answers);
                }
                crowded.lengths.add(text.len() as u32 / 2 + 1);
                waiting.add(hash, crowded.mixer.text(text), (text, number));
            } else {
                let same = |entry| self.bears(table, entry, text);
                let found = sought.entry(self.reading, self.file, first, same);
                self.put_at(number, self.batch_told(table, text, found), answers);
            }
        }
        self.answer_crowded(table, &mut waiting, &mut crowded, answers);
    }

    fn answer_crowded<const BUCKETS: usize>(
        &self,
        table: &Table<BUCKETS>,
        waiting: &mut Waiting<(&[u8], usize)>,
        crowded: &mut Crowded,
        answers: &mut [u8],
    ) {
        let Crowded { mixer, lengths } = crowded;
        // Most entries have a length that nobody asks for: their texts are not read.
        let key = |entry: Entry| {
            let text = || mixer.text(table.entry_text(self.file, entry));
            lengths.may_hold(entry.length).then(text)
        };
        waiting.settle(self.reading, self.file, table, key, |(text, number), found| {
            let takes = found.map_or(true, |entry| self.bears(table, entry, text));
            if takes {
                self.put_at(number, self.batch_told(table, text, found), answers);
            }
            takes
        });
        *lengths = Filter::new();
    }

    /// What a batch answers for a text, by its entry or by the number of entries that have
    /// its hash. The text holds no 0.
    #[inline]
    fn batch_told<const BUCKETS: usize>(
        &self,
        table: &Table<BUCKETS>,
        text: &[u8],
        found: Result<Entry, u32>,
    ) -> Answer {
        let either = || find_either(self.reading, Reader::Batch, self.file, table, text);
        let found = found.or_else(|others| either().ok_or(others));
        if let Some(slip) = slip(self.reading, Asker::of_many(Table::<BUCKETS>::NAMES)) {
            return self.told_wrongly(slip, table, text, found);
        }
        self.told::<BUCKETS>(found)
    }

    /// The entry that bears a text of a batch, or how many have its hash. They stand from
    /// `first` on.
    #[inline]
    fn batch_entry<const BUCKETS: usize>(
        &self,
        table: &Table<BUCKETS>,
        sought: Sought,
        first: u32,
        text: &[u8],
        effort: &mut Effort,
    ) -> Result<Entry, u32> {
        if self.reading.literal() {
            return find_literally(self.reading, Reader::Batch, self.file, table, text);
        }
        if let Some(fault) = fault(self.reading, Searcher::Batch) {
            let same = |entry| self.bears(table, entry, text);
            return sought.found_wrongly(self.file, fault, same);
        }
        sought.entry(self.reading, self.file, first, |entry| {
            let same = self.bears(table, entry, text);
            effort.spend(if same { 0 } else { ENTRY });
            same
        })
    }

    /// Whether an entry bears a text of a batch.
    #[inline]
    fn bears<const BUCKETS: usize>(
        &self,
        table: &Table<BUCKETS>,
        entry: Entry,
        text: &[u8],
    ) -> bool {
        bears(self.reading, Reader::Batch, self.file, table, entry, text)
    }

    /// Takes the first text of a list, with the hash it is looked up by. Only a wrong
    /// reading's list can end without a 0.
    #[inline]
    fn next_text<'t, const BUCKETS: usize>(&self, left: &mut &'t [u8]) -> (&'t [u8], u32) {
        let list = *left;
        let scanned = scan(self.reading, list, false);
        let text = &list[..scanned.bytes];
        *left = list.get(scanned.bytes + 2..).unwrap_or(&[]);
        if self.reading.wrong(Mutant::LookupFolds) {
            return (text, lookup_hash::<R, BUCKETS>(self.reading, text));
        }
        (text, scanned.hash)
    }

    fn put_at(&self, number: usize, told: Answer, answers: &mut [u8]) {
        self.put(told, &mut answers[8 * number..8 * number + 8]);
    }

    #[inline]
    fn put(&self, told: Answer, place: &mut [u8]) {
        let keeps = match told.kind {
            1 => self.reading.wrong(Mutant::BatchAbsentKeepsPlace),
            2 => self.reading.wrong(Mutant::BatchCollidedKeepsPlace),
            _ => false,
        };
        if !keeps {
            // A lookup's value has 32 bits.
            let both = told.kind as u64 | told.value << 32;
            place.copy_from_slice(&both.to_le_bytes());
        }
    }
}
