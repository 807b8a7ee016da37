//! Segmented regions: layout, and finding a segment by its number without a
//! table of them all.

use crate::answer::{refuse, Refusal};
use crate::bytes::{u32_at, Address};
use crate::cursor::Cursor;
use crate::reading::{Mutant, Reading};

/// Ordinary files have at most a few hundred segments in a region, and then
/// every one is marked. With more than `MARKS`, every 2nd, 4th … is, and the few
/// between are walked, so that a file of 65,535 segments costs no table and no
/// long walk.
///
/// Where it is asked for, `COUNTED` is as large, and the used elements before each
/// marked segment are counted. An element has `SIZE` bytes.
pub struct Region<const SIZE: usize, const MARKS: usize, const COUNTED: usize = 0> {
    /// Offset of the segment count.
    pub count_at: usize,
    pub segments: u32,
    /// Used elements of all segments.
    pub used: u32,
    shift: u32,
    /// Offsets of the marked segments.
    marks: [u32; MARKS],
    before: [u32; COUNTED],
}

/// One segment: its elements start at `first`.
#[derive(Clone, Copy, Default)]
pub struct Segment {
    pub first: usize,
    pub full: u32,
    pub used: u32,
}

/// The segment that was asked for last. The next one is often the same or stands
/// a little further on, and then the walk from a mark is saved.
#[derive(Clone, Copy, Default)]
pub struct Near {
    last: Option<(u32, Segment)>,
}

impl<const SIZE: usize, const MARKS: usize, const COUNTED: usize> Region<SIZE, MARKS, COUNTED> {
    /// A region still to be read.
    pub const UNREAD: Self = Region {
        count_at: 0,
        segments: 0,
        used: 0,
        shift: 0,
        marks: [0; MARKS],
        before: [0; COUNTED],
    };

    /// Reads in place: a region is too large to be handed about.
    pub fn read<R: Reading>(&mut self, reading: R, cursor: &mut Cursor) -> Result<(), Refusal> {
        self.count_at = cursor.at;
        self.segments = cursor.word()?;
        let most = if reading.wrong(Mutant::SegmentLimit65536) { 65_536 } else { 65_535 };
        if self.segments > most {
            return refuse(5, self.count_at);
        }
        while self.segments.saturating_sub(1) >> self.shift >= MARKS as u32 {
            self.shift += 1;
        }
        for number in 0..self.segments {
            if self.behind_mark(number) == 0 {
                let mark = (number >> self.shift) as usize;
                self.marks[mark] = cursor.at as u32;
                if COUNTED > 0 {
                    self.before[mark] = self.used;
                }
            }
            self.used += read_segment(reading, cursor, SIZE as u32)?;
        }
        Ok(())
    }

    /// How many segments behind a marked one this stands.
    #[inline]
    fn behind_mark(&self, number: u32) -> u32 {
        number & ((1 << self.shift) - 1)
    }

    #[inline]
    fn marked(&self, file: &[u8], number: u32) -> Segment {
        segment_at(file, self.marks[(number >> self.shift) as usize] as usize)
    }

    #[inline]
    pub fn segment(&self, file: &[u8], number: u16) -> Option<Segment> {
        let number = number as u32;
        if number >= self.segments {
            return None;
        }
        Some(self.walk(file, self.marked(file, number), self.behind_mark(number)))
    }

    /// The same for whoever asks for one segment after the other.
    #[inline]
    pub fn segment_near(&self, file: &[u8], number: u16, near: &mut Near) -> Option<Segment> {
        if self.shift == 0 {
            return self.segment(file, number);
        }
        let number = number as u32;
        if number >= self.segments {
            return None;
        }
        let from_mark = self.behind_mark(number);
        let segment = match near.last {
            Some((last, segment)) if last <= number && number - last <= from_mark => {
                self.walk(file, segment, number - last)
            }
            _ => self.walk(file, self.marked(file, number), from_mark),
        };
        near.last = Some((number, segment));
        Some(segment)
    }

    #[inline]
    fn walk(&self, file: &[u8], mut segment: Segment, steps: u32) -> Segment {
        for _ in 0..steps {
            segment = self.after(file, segment);
        }
        segment
    }

    fn after(&self, file: &[u8], segment: Segment) -> Segment {
        segment_at(file, segment.first + segment.full as usize * SIZE)
    }

    /// The segments in file order.
    pub fn in_order<'a>(&'a self, file: &'a [u8]) -> impl Iterator<Item = Segment> + 'a {
        let mut next = None;
        (0..self.segments).map(move |_| {
            let segment = match next {
                None => segment_at(file, self.count_at + 4),
                Some(before) => self.after(file, before),
            };
            next = Some(segment);
            segment
        })
    }

    /// The segment of an address that resolves.
    #[inline]
    pub fn resolve(&self, file: &[u8], address: Address) -> Option<Segment> {
        self.segment(file, address.segment)
            .filter(|segment| (address.element as u32) < segment.used)
    }

    /// Offset of an element.
    #[inline]
    pub fn element_at(&self, segment: Segment, element: u16) -> usize {
        segment.first + element as usize * SIZE
    }
}

impl<const SIZE: usize, const MARKS: usize> Region<SIZE, MARKS, MARKS> {
    /// Used elements of the segments before this one.
    #[inline]
    pub fn before(&self, file: &[u8], number: u16) -> usize {
        let number = number as u32;
        let (mut segment, mut between) = (self.marked(file, number), 0);
        for _ in 0..self.behind_mark(number) {
            between += segment.used;
            segment = self.after(file, segment);
        }
        (self.before[(number >> self.shift) as usize] + between) as usize
    }
}

impl Segment {
    /// Whether a range lies within the used part.
    #[inline]
    pub fn holds(&self, element: u16, count: u16) -> bool {
        self.holds_up_to(self.used, element, count)
    }

    /// Whether a range ends at that element or before.
    #[inline]
    pub fn holds_up_to(&self, end: u32, element: u16, count: u16) -> bool {
        element as u32 + count as u32 <= end
    }
}

#[inline]
fn segment_at(file: &[u8], at: usize) -> Segment {
    Segment { first: at + 8, full: u32_at(file, at), used: u32_at(file, at + 4) }
}

/// Checks one segment along the file; its used count.
fn read_segment<R: Reading>(reading: R, cursor: &mut Cursor, size: u32) -> Result<u32, Refusal> {
    let full_at = cursor.at;
    let full = cursor.word()?;
    let most = if reading.wrong(Mutant::FullLimit65536) { 65_536 } else { 65_535 };
    if full > most && !reading.wrong(Mutant::FullAfterUsed) {
        return refuse(5, full_at);
    }
    let used_at = cursor.at;
    let used = cursor.word()?;
    if full > most {
        return refuse(5, full_at);
    }
    if used > full || (reading.wrong(Mutant::UsedBelowFull) && used == full && full > 0) {
        let at = if reading.wrong(Mutant::UsedFaultAtFull) { full_at } else { used_at };
        return refuse(5, at);
    }
    cursor.array(reading, full, size)?;
    Ok(used)
}
