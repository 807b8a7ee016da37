//! What some wrong readings of the tree rules need. Only mutants come here, so
//! plain words matter more than speed.

use std::ops::Range;

use crate::answer::{refuse, Refusal};
use crate::layout::Layout;
use crate::node::{Node, NODE};

/// Offsets of all used nodes in file order.
pub fn node_offsets(file: &[u8], layout: &Layout) -> Vec<usize> {
    let segments = layout.nodes.in_order(file);
    segments
        .flat_map(|segment| (0..segment.used as usize).map(move |i| segment.first + NODE * i))
        .collect()
}

/// Positions of a live node's child range among the used nodes.
fn child_positions(file: &[u8], layout: &Layout, at: usize) -> Range<usize> {
    let node = Node::at(file, at);
    if node.name == 0 || node.children == 0 {
        return 0..0;
    }
    let before = layout.nodes.before(file, node.child_address.segment);
    let first = before + node.child_address.element as usize;
    first..first + node.children as usize
}

pub fn live_nodes(file: &[u8], layout: &Layout) -> usize {
    let offsets = node_offsets(file, layout);
    offsets.iter().filter(|&&at| Node::at(file, at).name != 0).count()
}

/// For each used node, whether another node's range holds it.
pub fn held(file: &[u8], layout: &Layout) -> Vec<bool> {
    let offsets = node_offsets(file, layout);
    let mut held = vec![false; offsets.len()];
    for (own, &at) in offsets.iter().enumerate() {
        for position in child_positions(file, layout, at) {
            held[position] |= position != own;
        }
    }
    held
}

/// For each used node, whether a chain reaches it. A range that does not resolve, which
/// may not have been checked yet, leads nowhere.
pub fn reached(file: &[u8], layout: &Layout) -> Vec<bool> {
    let offsets = node_offsets(file, layout);
    let mut reached = vec![false; offsets.len()];
    let mut open = vec![0];
    while let Some(position) = open.pop() {
        let node = Node::at(file, offsets[position]);
        if node.name == 0 || std::mem::replace(&mut reached[position], true) {
            continue;
        }
        let segment = layout.nodes.segment(file, node.child_address.segment);
        if segment.is_some_and(|segment| segment.holds(node.child_address.element, node.children)) {
            open.extend(child_positions(file, layout, offsets[position]));
        }
    }
    reached
}

/// Offset of the first node whose range meets the given one.
pub fn first_owner(file: &[u8], layout: &Layout, range: &Range<usize>) -> usize {
    let meets = |at: &usize| {
        let other = child_positions(file, layout, *at);
        other.start < range.end && range.start < other.end
    };
    node_offsets(file, layout).into_iter().find(meets).unwrap_or(0)
}

/// Marks the live elements of a node's child range.
pub fn mark_live(file: &[u8], layout: &Layout, node: Node, marks: &mut [u8]) {
    if let Some(segment) = layout.nodes.segment(file, node.child_address.segment) {
        let first = layout.nodes.element_at(segment, node.child_address.element);
        for (i, mark) in marks.iter_mut().enumerate() {
            *mark = (Node::at(file, first + i * NODE).name != 0) as u8;
        }
    }
}

/// 22 by levels over the whole file instead of in document order.
pub fn deep_in_file_order(file: &[u8], layout: &Layout) -> Result<(), Refusal> {
    let offsets = node_offsets(file, layout);
    let mut level = vec![0];
    for _ in 0..64 {
        let mut next = Vec::new();
        for position in level {
            let children = child_positions(file, layout, offsets[position]);
            next.extend(children.filter(|&child| Node::at(file, offsets[child]).name != 0));
        }
        level = next;
    }
    match level.iter().min() {
        Some(&first) => refuse(22, offsets[first]),
        None => Ok(()),
    }
}
