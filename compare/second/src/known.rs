//! Ranges that were found right before. Any number of nodes may have the same
//! range, or ranges that overlap.

use std::ops::Range;

use crate::bytes::u16_at;
use crate::layout::Layout;
use crate::node::NODE;
use crate::reading::{Mutant, Reading};
use crate::spans::Spans;

pub trait Known {
    /// How far into a range of attributes they are all known to be right, names
    /// rising, or none is; and which of the two.
    fn attributes(&self, range: Range<usize>) -> (usize, bool);

    /// Adds a range that was found right, or is under way: if it is not right, the
    /// first node that has it is refused.
    fn add_attributes(&mut self, range: Range<usize>);

    /// Whether the names of a child range are known not to fall.
    fn children(&self, range: &Range<usize>) -> bool;
}

/// For ordinary files, where few nodes share anything.
pub struct Nothing;

impl Known for Nothing {
    #[inline(always)]
    fn attributes(&self, range: Range<usize>) -> (usize, bool) {
        (range.end, false)
    }

    #[inline(always)]
    fn add_attributes(&mut self, _: Range<usize>) {}

    #[inline(always)]
    fn children(&self, _: &Range<usize>) -> bool {
        false
    }
}

/// The longest ranges of attributes that some node has, and the longest stretches
/// of nodes whose names do not fall.
pub struct Remembered {
    attributes: Spans,
    children: Spans,
}

impl Remembered {
    pub fn new() -> Remembered {
        Remembered { attributes: Spans::new(), children: Spans::new() }
    }

    /// Every stretch of a segment in which names do not fall, as long as it can be.
    /// A nameless node has no name: where one falls, the next stretch begins behind
    /// the last live node before.
    pub fn find_children<R: Reading>(&mut self, reading: R, file: &[u8], layout: &Layout) {
        let otherwise = [Mutant::ChildOrderStrict, Mutant::ChildOrderNameless];
        if otherwise.iter().any(|&mutant| reading.wrong(mutant)) {
            return;
        }
        for segment in layout.nodes.in_order(file) {
            let end = segment.first + NODE * segment.used as usize;
            let (mut start, mut behind_last, mut before) = (segment.first, segment.first, 0);
            for at in (segment.first..end).step_by(NODE) {
                let name = u16_at(file, at);
                if name == 0 {
                    continue;
                }
                if name < before {
                    self.children.push(start..at);
                    start = behind_last;
                }
                (before, behind_last) = (name, at + NODE);
            }
            self.children.push(start..end);
        }
    }
}

impl Known for Remembered {
    fn attributes(&self, range: Range<usize>) -> (usize, bool) {
        self.attributes.piece(range.start, range.end)
    }

    fn add_attributes(&mut self, range: Range<usize>) {
        self.attributes.merge(range);
    }

    fn children(&self, range: &Range<usize>) -> bool {
        self.children.hold(range)
    }
}
