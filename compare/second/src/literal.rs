//! The text of an entry by the words of document 01 and request T-01, with what wrong
//! readings make of them. Plain words matter more than speed here.

use crate::definition;
use crate::reading::{Mutant, Reading};
use crate::region::Segment;
use crate::table::{Entry, Table};

/// Whether entries' texts are read here.
#[inline(always)]
pub fn reads<R: Reading>(reading: R) -> bool {
    reading.literal() || MUTANTS.iter().any(|&mutant| reading.wrong(mutant))
}

const MUTANTS: [Mutant; 21] = [
    Mutant::AddressUpToFull,
    Mutant::LengthWithoutZero,
    Mutant::StoredZeroNeeded,
    Mutant::SlackZeroNeeded,
    Mutant::TextUpToFull,
    Mutant::TextIntoNextSegment,
    Mutant::TextPastSegment,
    Mutant::DroppedOnlyWhereFull,
    Mutant::DroppedOnlyInLastSegment,
    Mutant::DroppedOnlyInNames,
    Mutant::DroppedOnlyInValues,
    Mutant::DroppedOnlyUpTo64,
    Mutant::DroppedOnlyUpTo4096,
    Mutant::LastFewLost,
    Mutant::WholeFoursRunOn,
    Mutant::UnendedEndIsEmpty,
    Mutant::DroppedZeroNotCounted,
    Mutant::DroppedZeroEitherWay,
    Mutant::LengthCutAtUsed,
    Mutant::DroppedZeroResolves,
    Mutant::DroppedZeroIs8,
];

/// An entry and the segment that its address names.
pub struct Told<'a, R, const BUCKETS: usize> {
    pub reading: R,
    pub file: &'a [u8],
    pub table: &'a Table<BUCKETS>,
    pub entry: Entry,
    pub segment: Segment,
}

impl<'a, R: Reading, const BUCKETS: usize> Told<'a, R, BUCKETS> {
    /// The entry's text, or the number of its refusal: 7 or 8.
    pub fn text(&self) -> Result<&'a [u8], u32> {
        if !self.resolves() {
            return Err(7);
        }
        let chars = self.chars();
        let text = definition::text(chars);
        let stored = text.len() < chars.len();
        if !stored && self.refuses_dropped(text) {
            return Err(8);
        }
        let text = if stored { text } else { self.unended(text) };
        match self.fits(text.len() as u64 / 2, stored) {
            true => Ok(text),
            false => Err(8),
        }
    }

    fn element(&self) -> u32 {
        self.entry.address.element as u32
    }

    /// Offset of an element.
    fn at(&self, element: u32) -> usize {
        self.segment.first + 2 * element as usize
    }

    /// Whether the used part ends in a character that is not 0, and the address is
    /// just behind it.
    fn is_on_dropped(&self) -> bool {
        let Segment { used, .. } = self.segment;
        used > 0 && self.element() == used && self.file[self.at(used - 1)..self.at(used)] != [0, 0]
    }

    /// The element is below the segment's used count.
    fn resolves(&self) -> bool {
        let dropped = [Mutant::DroppedZeroResolves, Mutant::DroppedZeroIs8];
        if dropped.iter().any(|&mutant| self.reading.wrong(mutant)) && self.is_on_dropped() {
            return true;
        }
        let full = self.reading.wrong(Mutant::AddressUpToFull);
        self.element() < if full { self.segment.full } else { self.segment.used }
    }

    /// The characters from the address on, to the end of the used part.
    fn chars(&self) -> &'a [u8] {
        let full = self.reading.wrong(Mutant::TextUpToFull);
        let end = if full { self.segment.full } else { self.segment.used };
        &self.file[self.at(self.element())..self.at(end.max(self.element()))]
    }

    /// Whether a text without its stored 0 is refused for that. None is.
    fn refuses_dropped(&self, text: &[u8]) -> bool {
        let Segment { full, used, .. } = self.segment;
        let is_last = self.entry.address.segment as u32 + 1 == self.table.chars.segments;
        let zero_behind = used < full && self.file[self.at(used)..self.at(used + 1)] == [0, 0];
        let names = Table::<BUCKETS>::NAMES;
        let wrong = [
            (Mutant::StoredZeroNeeded, true),
            (Mutant::SlackZeroNeeded, !zero_behind),
            (Mutant::DroppedOnlyWhereFull, used < full),
            (Mutant::DroppedOnlyInLastSegment, !is_last),
            (Mutant::DroppedOnlyInNames, !names),
            (Mutant::DroppedOnlyInValues, names),
            (Mutant::DroppedOnlyUpTo64, text.len() > 2 * 64),
            (Mutant::DroppedOnlyUpTo4096, text.len() > 2 * 4_096),
            (Mutant::DroppedZeroIs8, self.element() == used),
        ];
        wrong.into_iter().any(|(mutant, refused)| refused && self.reading.wrong(mutant))
    }

    /// What is taken for a text that has no stored 0: the text.
    fn unended(&self, text: &'a [u8]) -> &'a [u8] {
        let reading = self.reading;
        let start = self.at(self.element());
        let fours = text.len() / 8 * 8;
        let runs_on = reading.wrong(Mutant::WholeFoursRunOn) && fours == text.len();
        if runs_on || reading.wrong(Mutant::TextPastSegment) {
            return definition::text(&self.file[start..]);
        }
        if reading.wrong(Mutant::TextIntoNextSegment) {
            let more = self.next_segment_text().len();
            return &self.file[start..(start + text.len() + more).min(self.file.len())];
        }
        if reading.wrong(Mutant::LastFewLost) {
            return &text[..fours];
        }
        let inside = self.element() > 0 && self.file[start - 2..start] != [0, 0];
        if reading.wrong(Mutant::UnendedEndIsEmpty) && inside {
            return &[];
        }
        text
    }

    /// The text at the start of the next segment.
    fn next_segment_text(&self) -> &'a [u8] {
        let chars = &self.table.chars;
        let next = self.entry.address.segment.checked_add(1);
        let segment = next.and_then(|next| chars.segment(self.file, next)).unwrap_or_default();
        definition::text(&self.file[segment.first..segment.first + 2 * segment.used as usize])
    }

    /// Whether the length is that of a text of so many characters: one more, for the 0,
    /// stored or not.
    fn fits(&self, characters: u64, stored: bool) -> bool {
        let length = self.entry.length as u64;
        let less = self.reading.wrong(Mutant::LengthWithoutZero)
            || (!stored && self.reading.wrong(Mutant::DroppedZeroNotCounted));
        if less {
            return length == characters;
        }
        let either = !stored && self.reading.wrong(Mutant::DroppedZeroEitherWay);
        let more = !stored && self.reading.wrong(Mutant::LengthCutAtUsed);
        length == characters + 1
            || (either && length == characters)
            || (more && length > characters)
    }
}
