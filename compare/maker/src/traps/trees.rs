//! Wide and deep trees, for paths and outlines.

use super::parts::{left, names, tree, Parts, FULL, NODE};
use super::{Ask, Class, Trap, MB};
use crate::model::{Node, Region, Segment};
use crate::text::to_bytes;

pub fn classes() -> Vec<Class> {
    vec![
        Class::new("wide-path", MB, |bytes| wide(bytes).path(2)),
        Class::new("wide-nameless-path", MB, |bytes| wide_nameless(bytes).path(2)),
        Class::new("chains-path", MB, |bytes| chains(bytes).path(DEEPEST)),
        Class::new("wide-outline", MB, |bytes| wide(bytes).outline()),
        Class::new("chains-outline", MB, |bytes| chains(bytes).outline()),
    ]
}

/// Nodes of a chain below the root, at most.
const DEEPEST: usize = 63;

/// A tree whose live nodes all have the first name.
struct Tall(Region<Node>);

impl Tall {
    fn parts(self) -> Parts {
        Parts { nodes: self.0, ..Parts::new(names(1)) }
    }

    /// A path of so many names, which are all the same.
    fn path(self, length: usize) -> Trap {
        let parts = self.parts();
        let mut name = to_bytes(&parts.names[0]);
        name.extend([0, 0]);
        parts.trap(Ask::Path(name.repeat(length)), 0)
    }

    /// A line has two spaces a level, a name of one character and a newline.
    fn outline(self) -> Trap {
        let parts = self.parts();
        let nodes: usize = parts.nodes.segments.iter().map(|segment| segment.used.len()).sum();
        parts.trap(Ask::Outline(nodes * (2 * DEEPEST + 12)), 0)
    }
}

fn named() -> Node {
    Node { name: 1, ..Node::default() }
}

/// Below the root, nodes with 65,535 children each.
fn wide(bytes: usize) -> Tall {
    Tall(tree(vec![named(); left(bytes) / NODE]))
}

/// The same, but only the last child has a name.
fn wide_nameless(bytes: usize) -> Tall {
    let mut nodes = wide(bytes).0;
    for segment in &mut nodes.segments[1..] {
        let last = segment.used.len() - 1;
        segment.used[..last].iter_mut().for_each(|node| node.name = 0);
    }
    Tall(nodes)
}

/// Chains as long as can be. The nodes of a level stand together.
fn chains(bytes: usize) -> Tall {
    let count = (left(bytes) / NODE / DEEPEST).clamp(1, FULL - 1);
    let (children, child_addr) = (count as u16, (0, 1));
    let mut first = vec![Node { children, child_addr, ..Node::default() }];
    let level = |level: usize| -> Vec<Node> {
        let below = |i| Node { children: 1, child_addr: (level as u16, i as u16), ..named() };
        (0..count).map(|i| if level < DEEPEST { below(i) } else { named() }).collect()
    };
    first.extend(level(1));
    let levels = std::iter::once(first).chain((2..=DEEPEST).map(level));
    let segment = |used| Segment { used, ..Segment::default() };
    Tall(Region { segments: levels.map(segment).collect(), count_is: None })
}
