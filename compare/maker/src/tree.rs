//! Trees: nodes that know their children, and their places in segments.

use crate::model::{Addr, Node, Region, Segment};
use crate::rng::Rng;

/// A node before it has a place. `fields` holds all but the child range.
#[derive(Clone, Default)]
pub struct Sprout {
    pub fields: Node,
    pub children: Vec<usize>,
}

/// Node 0 is the root. Each node may stand in at most one children list, and
/// the root in none; nodes in no list are orphans, and lists among orphans may
/// run in circles.
#[derive(Clone, Default)]
pub struct Tree {
    pub sprouts: Vec<Sprout>,
}

impl Tree {
    pub fn add(&mut self, fields: Node) -> usize {
        self.sprouts.push(Sprout { fields, children: Vec::new() });
        self.sprouts.len() - 1
    }

    pub fn child(&mut self, parent: usize, fields: Node) -> usize {
        let child = self.add(fields);
        self.sprouts[parent].children.push(child);
        child
    }

    /// Children by name, nameless ones where they stand.
    pub fn sort_children(&mut self) {
        for parent in 0..self.sprouts.len() {
            let children = self.sprouts[parent].children.clone();
            let name = |&child: &usize| self.sprouts[child].fields.name;
            let mut live: Vec<usize> =
                children.iter().copied().filter(|child| name(child) != 0).collect();
            live.sort_by_key(name);
            let mut next = live.into_iter();
            let sorted = children.iter().map(|child| match name(child) {
                0 => *child,
                _ => next.next().unwrap_or(*child),
            });
            self.sprouts[parent].children = sorted.collect();
        }
    }

    /// Places every children list in one piece, in the given order of mind:
    /// shuffled or level by level, in segments of about `segment` nodes.
    pub fn place(&self, rng: &mut Rng, segment: usize, untidy: bool) -> Region<Node> {
        let blocks = self.blocks(rng, untidy);
        let mut region = Region::default();
        region.segments.push(Segment::default());
        let mut places: Vec<Addr> = vec![(0, 0); self.sprouts.len()];
        let mut order: Vec<Vec<usize>> = vec![Vec::new()];
        for block in blocks {
            let open = if untidy { rng.below(order.len()) } else { order.len() - 1 };
            let number = if order[open].is_empty() || order[open].len() + block.len() <= segment {
                open
            } else {
                while untidy && rng.one_in(4) {
                    order.push(Vec::new());
                }
                order.push(Vec::new());
                order.len() - 1
            };
            for node in block {
                places[node] = (number as u16, order[number].len() as u16);
                order[number].push(node);
            }
        }
        region.segments.resize_with(order.len(), Segment::default);
        for (made, nodes) in region.segments.iter_mut().zip(order) {
            made.used = nodes.into_iter().map(|node| self.finished(node, &places)).collect();
        }
        region
    }

    /// The root alone first, then every children list and every node in none.
    fn blocks(&self, rng: &mut Rng, untidy: bool) -> Vec<Vec<usize>> {
        let mut listed = vec![false; self.sprouts.len()];
        let mut blocks = Vec::new();
        for sprout in &self.sprouts {
            sprout.children.iter().for_each(|&child| listed[child] = true);
            if !sprout.children.is_empty() {
                blocks.push(sprout.children.clone());
            }
        }
        let orphans = (1..self.sprouts.len()).filter(|&node| !listed[node]);
        blocks.extend(orphans.map(|node| vec![node]));
        if untidy {
            rng.shuffle(&mut blocks);
        }
        blocks.insert(0, vec![0]);
        blocks
    }

    fn finished(&self, node: usize, places: &[Addr]) -> Node {
        let sprout = &self.sprouts[node];
        let mut made = sprout.fields.clone();
        if let Some(&first) = sprout.children.first() {
            made.children = sprout.children.len() as u16;
            made.child_addr = places[first];
        }
        made
    }

    /// The name indices of the chain down to a random reachable node.
    pub fn random_path(&self, rng: &mut Rng, stop: usize) -> Vec<u16> {
        let mut path = Vec::new();
        let mut node = 0;
        while path.len() < 64 && !(path.len() > 1 && rng.one_in(stop)) {
            let children = &self.sprouts[node].children;
            let live: Vec<usize> =
                children.iter().copied().filter(|&c| self.sprouts[c].fields.name != 0).collect();
            if live.is_empty() {
                break;
            }
            node = *rng.pick(&live);
            path.push(self.sprouts[node].fields.name);
        }
        path
    }
}
