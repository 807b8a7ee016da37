//! Stretches of the file that are remembered: the longest of those that were
//! added, in file order.

use std::ops::Range;

/// Stretches that are remembered.
const MOST: usize = 2048;
/// Bytes of the shortest that is worth it.
const SHORTEST: u32 = 256;

#[derive(Clone, Copy)]
struct Span {
    start: u32,
    end: u32,
}

/// Starts and ends both rise. When there are too many, shorter ones go, and in the
/// end only longer ones are taken.
pub struct Spans {
    spans: [Span; MOST],
    count: usize,
    shortest: u32,
}

impl Spans {
    pub fn new() -> Spans {
        Spans { spans: [Span { start: 0, end: 0 }; MOST], count: 0, shortest: SHORTEST }
    }

    fn all(&self) -> &[Span] {
        &self.spans[..self.count]
    }

    /// Whether one holds a whole range.
    #[inline]
    pub fn hold(&self, range: &Range<usize>) -> bool {
        let (start, end) = (range.start as u32, range.end as u32);
        if end - start < self.shortest {
            return false;
        }
        // Of those that do not start too late, the last goes furthest.
        let behind = self.all().partition_point(|span| span.start <= start);
        behind > 0 && end <= self.spans[behind - 1].end
    }

    /// How far from `at` on, but not past `end`, one of them holds all or none
    /// holds any; and which of the two. For spans that do not overlap.
    pub fn piece(&self, at: usize, end: usize) -> (usize, bool) {
        let before = self.all().partition_point(|span| span.end <= at as u32);
        match self.all().get(before) {
            Some(span) if span.start <= at as u32 => (end.min(span.end as usize), true),
            Some(span) => (end.min(span.start as usize), false),
            None => (end, false),
        }
    }

    /// Adds one that starts and ends behind all others.
    pub fn push(&mut self, range: Range<usize>) {
        if self.is_worth_it(&range) {
            self.put(self.count..self.count, range);
        }
    }

    /// Adds one and makes it one with those that it overlaps.
    pub fn merge(&mut self, range: Range<usize>) {
        if !self.is_worth_it(&range) {
            return;
        }
        let (start, end) = (range.start as u32, range.end as u32);
        let first = self.all().partition_point(|span| span.end <= start);
        let behind = self.all().partition_point(|span| span.start < end);
        let mut merged = range;
        if first < behind {
            merged.start = merged.start.min(self.spans[first].start as usize);
            merged.end = merged.end.max(self.spans[behind - 1].end as usize);
        }
        self.put(first..behind, merged);
    }

    /// Whether a range is long enough, after room for one more was made.
    fn is_worth_it(&mut self, range: &Range<usize>) -> bool {
        if self.count == MOST {
            self.make_room();
        }
        range.len() >= self.shortest as usize
    }

    /// Puts one in the place of others, which are none or some.
    fn put(&mut self, others: Range<usize>, range: Range<usize>) {
        self.spans.copy_within(others.end..self.count, others.start + 1);
        self.spans[others.start] = Span { start: range.start as u32, end: range.end as u32 };
        self.count = self.count + 1 - others.len();
    }

    /// Lets some of the shorter ones go.
    fn make_room(&mut self) {
        const ENOUGH: usize = MOST / 4;
        while MOST - self.count < ENOUGH {
            let longer = 2 * self.shortest;
            let is_short = |span: &Span| span.end - span.start < longer;
            let short = self.all().iter().filter(|span| is_short(span)).count();
            // All of them if they are few, otherwise every second one.
            let few = short < ENOUGH;
            let (mut kept, mut met) = (0, 0);
            for i in 0..self.count {
                let span = self.spans[i];
                met += is_short(&span) as usize;
                if is_short(&span) && (few || met % 2 == 0) {
                    continue;
                }
                self.spans[kept] = span;
                kept += 1;
            }
            self.count = kept;
            if few {
                self.shortest = longer;
            }
        }
    }
}

#[cfg(test)]
mod tests {
    use super::*;

    /// Against a mark for each byte; spans that touch stay two.
    #[test]
    fn merged_spans_cover_what_was_added() {
        let mut seed: u32 = 7;
        let mut number = |below: usize| {
            seed = seed.wrapping_mul(1_664_525).wrapping_add(1_013_904_223);
            (seed >> 8) as usize % below
        };
        let mut spans = Spans::new();
        let mut covered = vec![false; 400_000];
        for _ in 0..3_000 {
            let start = number(covered.len() - 2_000);
            let range = start..start + 256 + number(1_500);
            spans.merge(range.clone());
            covered[range].fill(true);
        }
        let mut at = 0;
        while at < covered.len() {
            let (stop, known) = spans.piece(at, covered.len());
            assert!(stop > at);
            assert!(covered[at..stop].iter().all(|&mark| mark == known));
            assert_eq!(spans.hold(&(at..stop)), known && stop - at >= 256);
            at = stop;
        }
    }

    #[test]
    fn too_many_leave_the_longest() {
        let mut spans = Spans::new();
        for i in 0..10_000 {
            let length = if i % 100 == 0 { 2_000 } else { 300 };
            spans.merge(4_000 * i..4_000 * i + length);
        }
        for i in (0..10_000).step_by(100) {
            assert!(spans.hold(&(4_000 * i..4_000 * i + 2_000)));
            assert!(!spans.hold(&(4_000 * i..4_000 * i + 2_001)));
        }
    }
}
