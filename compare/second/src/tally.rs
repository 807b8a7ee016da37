//! The length of an outline of a file that is made to be slow. A line may be as
//! long as the texts of all attributes, and any number of nodes may share them:
//! what was counted once is remembered.

use std::ops::Range;

use crate::escape::Sink;
use crate::index::Index;
use crate::node::{Attribute, ATTRIBUTE};
use crate::outline::{Lines, Value};
use crate::reading::Reading;
use crate::view::View;

pub struct Tally {
    pub length: u64,
    parts: Parts,
    sums: Sums,
}

impl Tally {
    pub fn new<R: Reading, I: Index>(view: &View<R, I>) -> Tally {
        let mut parts = Parts { names: Lengths::new(), texts: Lengths::new() };
        let sums = Sums::new(view, &mut parts);
        Tally { length: 0, parts, sums }
    }
}

impl Sink for Tally {
    fn put(&mut self, bytes: &[u8]) {
        self.length += bytes.len() as u64;
    }
}

impl Lines for Tally {
    fn name<R: Reading, I: Index>(&mut self, view: &View<R, I>, name: u16) {
        self.length += self.parts.name(view, name);
    }

    fn attributes<R: Reading, I: Index>(&mut self, view: &View<R, I>, range: Range<usize>) {
        self.length += self.sums.of(view, range, &mut self.parts);
    }
}

/// Lengths of names and of values.
struct Parts {
    names: Lengths,
    texts: Lengths,
}

impl Parts {
    fn name<R: Reading, I: Index>(&mut self, view: &View<R, I>, name: u16) -> u64 {
        self.names.length(name as u32, |count| view.put_name(name, count))
    }

    /// As long as a space, the name, `=` and the value.
    fn attribute<R: Reading, I: Index>(&mut self, view: &View<R, I>, at: usize) -> u64 {
        let attribute = Attribute::at(view.file, at);
        let value = Value::of(attribute);
        let length = match value {
            Value::Text(_) => {
                self.texts.length(attribute.word, |count| view.put_value(value, count))
            }
            _ => counted(|count| view.put_value(value, count)),
        };
        self.name(view, attribute.name) + length + 2
    }

    fn attributes<R: Reading, I: Index>(&mut self, view: &View<R, I>, range: Range<usize>) -> u64 {
        range.step_by(ATTRIBUTE).map(|at| self.attribute(view, at)).sum()
    }
}

/// Counts the bytes of one part.
struct Count(u64);

impl Sink for Count {
    #[inline]
    fn put(&mut self, bytes: &[u8]) {
        self.0 += bytes.len() as u64;
    }
}

fn counted(part: impl FnOnce(&mut Count)) -> u64 {
    let mut count = Count(0);
    part(&mut count);
    count.0
}

/// Lengths that were counted, by a number: the last for each place of a table.
struct Lengths {
    places: [Option<(u32, u32)>; PLACES],
}

const PLACES: usize = 1024;

impl Lengths {
    fn new() -> Lengths {
        Lengths { places: [None; PLACES] }
    }

    fn length(&mut self, number: u32, part: impl FnOnce(&mut Count)) -> u64 {
        // The high bits of a product depend on all bits.
        let place = &mut self.places[(number.wrapping_mul(0x9e37_79b1) >> 22) as usize % PLACES];
        match *place {
            Some((known, length)) if known == number => length as u64,
            _ => {
                let length = counted(part);
                // A text has at most 65,535 characters, each of which takes five bytes
                // at most.
                *place = Some((number, length as u32));
                length
            }
        }
    }
}

/// The lengths of all used attributes before certain offsets, which are equally
/// far apart. A range is then counted but for its ends.
struct Sums {
    first: usize,
    apart: usize,
    sums: [u64; SUMS],
}

const SUMS: usize = 2048;

impl Sums {
    /// Attributes that no node has are counted too, whatever they hold.
    fn new<R: Reading, I: Index>(view: &View<R, I>, parts: &mut Parts) -> Sums {
        let region = &view.layout.attributes;
        let bytes = view.layout.nodes.count_at - region.count_at;
        let (first, apart) = (region.count_at, bytes / (SUMS - 1) + 1);
        let mut made = Sums { first, apart, sums: [0; SUMS] };
        let (mut next, mut sum) = (0, 0);
        for segment in region.in_order(view.file) {
            let end = segment.first + ATTRIBUTE * segment.used as usize;
            for at in (segment.first..end).step_by(ATTRIBUTE) {
                while made.offset(next) <= at {
                    made.sums[next] = sum;
                    next += 1;
                }
                sum += parts.attribute(view, at);
            }
        }
        made.sums[next..].fill(sum);
        made
    }

    fn offset(&self, number: usize) -> usize {
        self.first + number * self.apart
    }

    /// The lengths of the attributes of a range.
    fn of<R: Reading, I: Index>(
        &self,
        view: &View<R, I>,
        range: Range<usize>,
        parts: &mut Parts,
    ) -> u64 {
        let from = (range.start - self.first).div_ceil(self.apart);
        let to = (range.end - self.first) / self.apart;
        if from >= to {
            return parts.attributes(view, range);
        }
        // Attributes that start before the one offset, and not before the other.
        let head = range.start..self.offset(from);
        let skipped = (self.offset(to) - range.start).div_ceil(ATTRIBUTE) * ATTRIBUTE;
        let tail = range.start + skipped..range.end;
        let between = self.sums[to] - self.sums[from];
        parts.attributes(view, head) + between + parts.attributes(view, tail)
    }
}
