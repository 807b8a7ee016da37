//! The nodes that a path leads to, by the model's child ranges.

use crate::model::{Addr, Model};

/// An address as a number in answers.
pub fn number((segment, element): Addr) -> u32 {
    (segment as u32) << 16 | element as u32
}

impl Model {
    /// The nodes whose chains bear names of these indices below the root, in document
    /// order.
    pub fn matches(&self, names: &[u32]) -> Vec<u32> {
        let mut found = Vec::new();
        self.below((0, 0), names, &mut found);
        found
    }

    fn below(&self, address: Addr, names: &[u32], found: &mut Vec<u32>) {
        let (Some((&name, left)), Some(node)) = (names.split_first(), self.nodes.get(address))
        else {
            found.push(number(address));
            return;
        };
        let (segment, first) = node.child_addr;
        for child in (first..first + node.children).map(|element| (segment, element)) {
            if self.nodes.get(child).is_some_and(|node| node.name as u32 == name) {
                self.below(child, left, found);
            }
        }
    }
}
