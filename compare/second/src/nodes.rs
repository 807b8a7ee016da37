//! Checks node by node: refusals 16 to 19 and 23.
//!
//! The checks of a node are inlined into the loop over the nodes: that is made
//! twice, once for ordinary files and once with what is remembered.

use std::ops::Range;

use crate::answer::{refuse, Refusal};
use crate::bytes::u16_at;
use crate::effort::{Effort, Stop};
use crate::index::{Index, Texts};
use crate::keys::Special;
use crate::known::{Known, Nothing, Remembered};
use crate::layout::Layout;
use crate::node::{Attribute, Node, ATTRIBUTE, NODE};
use crate::pending::Pending;
use crate::reading::{Mutant, Reading};
use crate::region::Near;

pub struct NodeChecks<'a, R> {
    pub reading: R,
    pub file: &'a [u8],
    pub layout: &'a Layout,
    pub special: Special,
}

/// What changes on the way along the nodes.
struct Walk<'a, R, I: Index, K> {
    pending: Pending<'a, R, I>,
    /// What is known of ranges that other nodes had before.
    known: &'a mut K,
    /// The number of the node that is being checked, among all used nodes.
    reached: usize,
    near_attributes: Near,
    near_children: Near,
    /// The name of the last attribute before, for a mutant.
    last_name: u16,
}

impl<'a, R: Reading> NodeChecks<'a, R> {
    pub fn run<I: Index>(&self, index: I) -> Result<(), Refusal> {
        self.codes_before()?;
        let outcome = self.in_order(index);
        self.codes_behind(outcome)
    }

    /// Node by node, and carefully from the node on where the effort has become too
    /// much.
    #[inline(always)]
    fn in_order<I: Index>(&self, mut index: I) -> Result<(), Refusal> {
        let nodes = &self.layout.nodes;
        let first_used = nodes.segment(self.file, 0).map_or(0, |segment| segment.used);
        let later_root = self.reading.wrong(Mutant::RootInLaterSegment) && nodes.used > 0;
        if first_used == 0 && !later_root {
            return refuse(16, nodes.count_at);
        }
        let effort = Effort::new(I::ALLOWANCE, self.file.len());
        match self.walk(0, &mut index, effort, &mut Nothing) {
            (_, Ok(())) => Ok(()),
            (_, Err(Stop::Refused(refusal))) => Err(refusal),
            (reached, Err(Stop::Dear)) => self.carefully(reached, index),
        }
    }

    /// The tables for that are on the stack, and only here.
    #[inline(never)]
    fn carefully<I: Index>(&self, from: usize, index: I) -> Result<(), Refusal> {
        let mut index = index.careful();
        let mut known = Remembered::new();
        known.find_children(self.reading, self.file, self.layout);
        match self.walk(from, &mut index, Effort::endless(), &mut known) {
            (_, Err(Stop::Refused(refusal))) => Err(refusal),
            _ => Ok(()),
        }
    }

    /// The nodes from one on: how far it got, and what came of it.
    fn walk<I: Index, K: Known>(
        &self,
        from: usize,
        index: &mut I,
        effort: Effort,
        known: &mut K,
    ) -> (usize, Result<(), Stop>) {
        let texts = Texts { reading: self.reading, file: self.file, values: &self.layout.values };
        let mut walk = Walk {
            pending: Pending::new(texts, index, effort),
            known,
            reached: from,
            near_attributes: Near::default(),
            near_children: Near::default(),
            last_name: 0,
        };
        let outcome = self.nodes(&mut walk);
        // Text attributes still under way stand before any other fault.
        let finished = walk.pending.finish();
        (walk.reached, finished.map_err(Stop::Refused).and(outcome))
    }

    fn nodes<I: Index, K: Known>(&self, walk: &mut Walk<R, I, K>) -> Result<(), Stop> {
        let mut before = 0;
        for segment in self.layout.nodes.in_order(self.file) {
            let skipped = walk.reached.saturating_sub(before);
            for element in skipped..segment.used as usize {
                walk.reached = before + element;
                walk.pending.effort.check()?;
                self.node(segment.first + NODE * element, walk)?;
            }
            before += segment.used as usize;
        }
        Ok(())
    }

    /// One node in the stated order: 16, 17, its attributes, 23.
    #[inline(always)]
    fn node<I: Index, K: Known>(&self, at: usize, walk: &mut Walk<R, I, K>) -> Result<(), Stop> {
        let node = Node::at(self.file, at);
        let is_root = walk.reached == 0;
        if is_root && (node.name != self.special.root || self.root_attributes(node)) {
            return refuse(16, at);
        }
        if node.name == 0 && !self.reading.wrong(Mutant::NamelessChecked) {
            return Ok(());
        }
        let flags = if self.reading.wrong(Mutant::FlagsUpToThree) { 3 } else { 1 };
        let keys = self.layout.keys + self.reading.wrong(Mutant::KeyIndexOnePast) as u32;
        if node.name as u32 > self.layout.names.listed
            || node.flags() > flags
            || node.key_index() as u32 >= keys
        {
            return refuse(16, at);
        }
        if self.reading.wrong(Mutant::ChildrenBeforeAttributes) {
            self.children(node, at, walk)?;
        }
        if node.attributes != 0 {
            self.attributes(node, at, walk)?;
        }
        if node.children != 0 {
            self.children(node, at, walk)?;
        }
        Ok(())
    }

    fn root_attributes(&self, node: Node) -> bool {
        node.attributes != 0 && !self.reading.wrong(Mutant::RootAttributesAllowed)
    }

    /// 17, then 18 and 19 for each attribute of the range.
    #[inline(always)]
    fn attributes<I: Index, K: Known>(
        &self,
        node: Node,
        at: usize,
        walk: &mut Walk<R, I, K>,
    ) -> Result<(), Stop> {
        let region = &self.layout.attributes;
        let (address, count) = (node.attribute_address, node.attributes);
        let resolved = region
            .segment_near(self.file, address.segment, &mut walk.near_attributes)
            .filter(|segment| match self.reading.wrong(Mutant::AttributeRangeFull) {
                true => segment.holds_up_to(segment.full, address.element, count),
                false => segment.holds(address.element, count),
            });
        let Some(segment) = resolved else {
            return refuse(17, at);
        };
        let first = region.element_at(segment, address.element);
        let range = first..first + ATTRIBUTE * count as usize;
        walk.pending.effort.spend(range.len());
        let mut before = 0;
        if self.reading.wrong(Mutant::AttributeOrderAcross) {
            before = walk.last_name;
        }
        let mut place = range.start;
        while place < range.end {
            let (stop, known) = walk.known.attributes(place..range.end);
            if known {
                // Only the first of them meets another attribute than before.
                self.check_name(Attribute::at(self.file, place).name, before, place)?;
                if stop - place == range.len() {
                    return Ok(());
                }
                before = Attribute::at(self.file, stop - ATTRIBUTE).name;
            } else {
                before = self.each_attribute(place..stop, before, walk)?;
            }
            place = stop;
        }
        walk.last_name = before;
        walk.known.add_attributes(range);
        Ok(())
    }

    /// The attributes of a part of a range, after one of the name told; the name of
    /// the last.
    #[inline(always)]
    fn each_attribute<I: Index, K: Known>(
        &self,
        part: Range<usize>,
        mut before: u16,
        walk: &mut Walk<R, I, K>,
    ) -> Result<u16, Stop> {
        let mut at = part.start;
        while at < part.end {
            let attribute = Attribute::at(self.file, at);
            self.check_name(attribute.name, before, at)?;
            self.check_value(self.taken(attribute, walk.reached), at, &mut walk.pending)?;
            before = attribute.name;
            at += ATTRIBUTE;
        }
        Ok(before)
    }

    /// 18: the name. The first attribute has none before it, and a name is at
    /// least 1: 0 stands for both.
    #[inline]
    fn check_name(&self, name: u16, before: u16, at: usize) -> Result<(), Refusal> {
        let equal = self.reading.wrong(Mutant::AttributeEqualAllowed) && name != 0;
        let rises = name > before || (equal && name == before);
        if !rises || name as u32 > self.layout.names.listed {
            return refuse(18, at);
        }
        Ok(())
    }

    /// 18: type, extended code and truth; and 19, which goes on later.
    #[inline(always)]
    fn check_value<I: Index>(
        &self,
        attribute: Attribute,
        at: usize,
        pending: &mut Pending<R, I>,
    ) -> Result<(), Stop> {
        let extended = attribute.extended();
        let fits = match attribute.kind() {
            1 => extended == 0 || (extended == 1 && self.is_truth(attribute.word)),
            2 => extended == 0 || self.reading.wrong(Mutant::FloatExtendedFree),
            3 => return pending.take(attribute, at),
            _ => self.reading.wrong(Mutant::TypeZeroAllowed),
        };
        let value_name =
            attribute.name == self.special.value && !self.reading.wrong(Mutant::ValueAnyType);
        if !fits || value_name {
            return refuse(18, at);
        }
        Ok(())
    }

    fn is_truth(&self, word: u32) -> bool {
        if self.reading.wrong(Mutant::TruthLowByte) {
            return word & 255 <= 1;
        }
        word <= 1
    }

    /// 23: the child range resolves and its live nodes' names do not fall.
    #[inline(always)]
    fn children<I: Index, K: Known>(
        &self,
        node: Node,
        at: usize,
        walk: &mut Walk<R, I, K>,
    ) -> Result<(), Stop> {
        let region = &self.layout.nodes;
        let (address, count) = (node.child_address, node.children);
        let resolved = region
            .segment_near(self.file, address.segment, &mut walk.near_children)
            .filter(|segment| match self.reading.wrong(Mutant::ChildRangeFull) {
                true => segment.holds_up_to(segment.full, address.element, count),
                false => segment.holds(address.element, count),
            });
        let Some(segment) = resolved else {
            return refuse(23, at);
        };
        let first = region.element_at(segment, address.element);
        let range = first..first + NODE * count as usize;
        if walk.known.children(&range) {
            return Ok(());
        }
        walk.pending.effort.spend(range.len());
        let mut before = 0;
        for child_at in range.step_by(NODE) {
            let name = u16_at(self.file, child_at);
            if name == 0 && !self.reading.wrong(Mutant::ChildOrderNameless) {
                continue;
            }
            let repeated = self.reading.wrong(Mutant::ChildOrderStrict) && name == before;
            if name < before || repeated {
                return refuse(23, at);
            }
            before = name;
        }
        Ok(())
    }
}
