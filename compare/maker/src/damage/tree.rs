//! Damage to the tree: refusals 21 and 22.

use super::{damage, Damage};
use crate::model::{Addr, Model, Node};
use crate::rng::Rng;

pub const ALL: &[Damage] = &[
    damage(21, "a range holds the root", |model, rng| {
        let nodes = model.live();
        let chosen = *rng.pick(&nodes);
        model.nodes.get_mut(chosen).is_some_and(|node| {
            node.child_addr = (0, 0);
            node.children = 1;
            true
        })
    }),
    damage(21, "a range holds an element of another", |model, rng| {
        let nodes = model.live();
        let parents: Vec<Addr> =
            nodes.iter().copied().filter(|&address| children_of(model, address) > 0).collect();
        if parents.is_empty() {
            return false;
        }
        let owner = model.nodes.get(*rng.pick(&parents)).cloned().unwrap_or_default();
        let chosen = *rng.pick(&nodes);
        let place = owner.child_addr.1 + rng.below(owner.children as usize) as u16;
        model.nodes.get_mut(chosen).is_some_and(|node| {
            let other = node.child_addr != owner.child_addr || node.children == 0;
            node.child_addr = (owner.child_addr.0, place);
            node.children = 1;
            other
        })
    }),
    damage(21, "two nodes have one range", |model, rng| {
        let nodes = model.live();
        let chosen = *rng.pick(&nodes);
        let mut parents = nodes.iter().filter(|&&address| children_of(model, address) > 0);
        let Some(owner) =
            parents.next_back().and_then(|&address| model.nodes.get(address)).cloned()
        else {
            return false;
        };
        model.nodes.get_mut(chosen).is_some_and(|node| {
            let other = node.child_addr != owner.child_addr || node.children == 0;
            node.child_addr = owner.child_addr;
            node.children = owner.children;
            other
        })
    }),
    damage(21, "two nodes share a nameless child", |model, rng| {
        let shared = model.nodes.segments.len() as u16;
        let mut segment = crate::model::Segment::default();
        segment.used.push(Node::default());
        model.nodes.segments.push(segment);
        let mut nodes = model.live();
        rng.shuffle(&mut nodes);
        if nodes.len() < 2 {
            return false;
        }
        for &address in &nodes[..2] {
            if let Some(node) = model.nodes.get_mut(address) {
                node.child_addr = (shared, 0);
                node.children = 1;
            }
        }
        true
    }),
    damage(22, "a chain too long", |model, rng| lengthen(model, rng, false)),
    damage(22, "two chains too long", |model, rng| {
        lengthen(model, rng, false) && lengthen(model, rng, true)
    }),
];

fn children_of(model: &Model, address: Addr) -> u16 {
    model.nodes.get(address).map_or(0, |node| node.children)
}

/// Hangs a long chain of its own segment below a childless reachable node.
fn lengthen(model: &mut Model, rng: &mut Rng, more: bool) -> bool {
    let Some(hook) = childless(model, more) else {
        return false;
    };
    let name = model.nodes.segments[0].used[0].name;
    let length = rng.between(64, 67) as u16;
    let number = model.nodes.segments.len() as u16;
    let mut segment = crate::model::Segment::default();
    for i in 0..length {
        segment.used.push(Node {
            name,
            children: (i + 1 < length) as u16,
            child_addr: (number, i + 1),
            ..Node::default()
        });
    }
    model.nodes.segments.push(segment);
    model.nodes.get_mut(hook).is_some_and(|node| {
        node.children = 1;
        node.child_addr = (number, 0);
        true
    })
}

/// A reachable live node without children: the first or the last by levels.
fn childless(model: &Model, last: bool) -> Option<Addr> {
    let mut level = vec![(0, 0)];
    let mut found = None;
    for _ in 0..64 {
        let mut next = Vec::new();
        for address in level {
            let node = model.nodes.get(address)?;
            if node.name != 0 && node.children == 0 {
                found = Some(address);
                if !last {
                    return found;
                }
            }
            if node.name != 0 {
                let (segment, first) = node.child_addr;
                next.extend((0..node.children).map(|i| (segment, first.wrapping_add(i))));
            }
        }
        if next.len() > 10_000 {
            return found;
        }
        level = next;
    }
    found
}
