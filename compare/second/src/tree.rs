//! The workspace and the tree: refusals 20, 21 and 22.

use crate::answer::{refuse, Refusal};
use crate::layout::Layout;
use crate::node::{Node, NODE};
use crate::reading::{Mutant, Reading};
use crate::wrong_tree;

/// Nodes that a chain from the root may have.
const DEEPEST: u32 = 64;

pub struct TreeChecks<'a, R> {
    pub reading: R,
    pub file: &'a [u8],
    pub layout: &'a Layout,
}

impl<R: Reading> TreeChecks<'_, R> {
    /// 20: a byte for each used node.
    pub fn check_room(&self, workspace: &[u8]) -> Result<(), Refusal> {
        let mut needed = self.layout.nodes.used as usize;
        if self.reading.wrong(Mutant::LiveNodesCounted) {
            needed = wrong_tree::live_nodes(self.file, self.layout);
        }
        if workspace.len() < needed {
            return refuse(20, needed);
        }
        Ok(())
    }

    /// 21 and 22. The marks are the workspace's first bytes; a refusal leaves
    /// them all 0.
    pub fn check(&self, workspace: &mut [u8]) -> Result<(), Refusal> {
        let used = self.layout.nodes.used as usize;
        if self.reading.wrong(Mutant::WorkspaceClearedWhole) {
            workspace.fill(0);
        }
        let marks = &mut workspace[..used];
        marks.fill(0);
        if let Err(refusal) = self.mark_ranges(marks) {
            if !self.reading.wrong(Mutant::MarksLeftAfter21) {
                marks.fill(0);
            }
            return Err(refusal);
        }
        if self.reading.wrong(Mutant::RootMarked) {
            marks[0] = 1;
        }
        let deep = if self.reading.wrong(Mutant::DeepestInFileOrder) {
            wrong_tree::deep_in_file_order(self.file, self.layout)
        } else {
            self.check_depth(self.layout.nodes.count_at + 12, 1)
        };
        if deep.is_err() && !self.reading.wrong(Mutant::MarksLeftAfter22) {
            marks.fill(0);
        }
        deep
    }

    /// 21: node by node, each element of a range is marked once and the root
    /// never. The root is the first used node, so a range holds it exactly when
    /// it starts at position 0.
    fn mark_ranges(&self, marks: &mut [u8]) -> Result<(), Refusal> {
        let nodes = &self.layout.nodes;
        let held = if self.reading.wrong(Mutant::OrphanRangesIgnored) {
            wrong_tree::held(self.file, self.layout)
        } else {
            Vec::new()
        };
        let mut before = 0;
        for segment in nodes.in_order(self.file) {
            for element in 0..segment.used as usize {
                let at = segment.first + NODE * element;
                let node = Node::at(self.file, at);
                if node.name == 0 || node.children == 0 {
                    continue;
                }
                let own = before + element;
                if own > 0 && held.get(own) == Some(&false) {
                    continue;
                }
                self.mark_range(marks, node, at, own)?;
            }
            before += segment.used as usize;
        }
        Ok(())
    }

    #[inline]
    fn mark_range(
        &self,
        marks: &mut [u8],
        node: Node,
        at: usize,
        own: usize,
    ) -> Result<(), Refusal> {
        // 23 has found the range in the used nodes.
        let address = node.child_address;
        let before = self.layout.nodes.before(self.file, address.segment);
        let first = before + address.element as usize;
        let range = first..first + node.children as usize;
        let holds_root = first == 0 && !self.reading.wrong(Mutant::RootInRangeAllowed);
        let holds_itself = self.reading.wrong(Mutant::OwnRangeRefused) && range.contains(&own);
        let marked = marks[range.clone()].iter().fold(0, |any, mark| any | mark);
        if marked != 0 && self.reading.wrong(Mutant::SharedAtFirstOwner) {
            return refuse(21, wrong_tree::first_owner(self.file, self.layout, &range));
        }
        if holds_root || holds_itself || marked != 0 {
            return refuse(21, at);
        }
        if self.reading.wrong(Mutant::NamelessNotMarked) {
            wrong_tree::mark_live(self.file, self.layout, node, &mut marks[range]);
        } else {
            marks[range].fill(1);
        }
        Ok(())
    }

    /// 22: `length` nodes lead down to the node at `at`, itself counted. By 21
    /// every node is met once. Goes down by level, along by a loop.
    fn check_depth(&self, at: usize, length: u32) -> Result<(), Refusal> {
        let nodes = &self.layout.nodes;
        let node = Node::at(self.file, at);
        let Some(segment) = nodes.segment(self.file, node.child_address.segment) else {
            return Ok(());
        };
        let first = nodes.element_at(segment, node.child_address.element);
        let deepest = match () {
            _ if self.reading.wrong(Mutant::ChainOf65Allowed) => DEEPEST + 1,
            _ if self.reading.wrong(Mutant::ChainOf64Refused) => DEEPEST - 1,
            _ => DEEPEST,
        };
        for child_at in (0..node.children as usize).map(|i| first + i * NODE) {
            let child = Node::at(self.file, child_at);
            let live = child.name != 0 || self.reading.wrong(Mutant::NamelessMakesChain);
            if live && length == deepest {
                return refuse(22, child_at);
            }
            if child.name != 0 && child.children != 0 {
                self.check_depth(child_at, length + 1)?;
            }
        }
        Ok(())
    }
}
