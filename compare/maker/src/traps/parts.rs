//! What traps are put together from.

use super::{Ask, Trap};
use crate::collide::hash;
use crate::model::{Addr, Attr, Model, Node, Region, Segment, Table};
use crate::rng::Rng;
use crate::shapes::smallest;
use crate::table::{string_table, table, Placed, Style, TIDY};
use crate::text::{text, Text};

/// Elements of a segment, at most.
pub const FULL: usize = 65_535;
/// Bytes of the smallest file.
pub const LEAST: usize = 6_332;
pub const NODE: usize = 24;
pub const ATTRIBUTE: usize = 12;
/// An entry and its place in the list.
pub const ENTRY: usize = 20;
/// A name as `names` makes them: its entry and at most five characters.
pub const NAME: usize = ENTRY + 10;

/// The bytes that a file of this size has beyond the smallest.
pub fn left(bytes: usize) -> usize {
    bytes.saturating_sub(LEAST).max(2_000)
}

/// Short names, all different.
pub fn names(count: usize) -> Vec<Text> {
    (0..count).map(|i| text(&format!("{i:x}"))).collect()
}

/// A file with these names and then the special ones. The root stands at 0:0 of
/// the nodes and gets its name here.
pub struct Parts {
    pub names: Vec<Text>,
    pub attributes: Region<Attr>,
    pub nodes: Region<Node>,
    pub values: Table,
}

impl Parts {
    pub fn new(names: Vec<Text>) -> Parts {
        let values = string_table(Region::default(), Vec::new(), 1024);
        Parts { names, attributes: Region::default(), nodes: tree(Vec::new()), values }
    }

    pub fn model(self) -> Model {
        let mut names = self.names;
        names.extend([text("__root__"), text("__value__")]);
        let mut nodes = self.nodes;
        nodes.segments[0].used[0].name = names.len() as u16 - 1;
        let style = Style { in_order: true, ..TIDY };
        let names = table(&mut Rng::new(1), &names, 512, style);
        let (attributes, values) = (self.attributes, self.values);
        Model { attributes, nodes, values, names, ..smallest().model }
    }

    pub fn trap(self, ask: Ask, refusal: u32) -> Trap {
        Trap { model: self.model(), ask, refusal }
    }

    pub fn accepted(self) -> Trap {
        self.trap(Ask::Accept, 0)
    }
}

/// Attributes in ranges of so many, one after the other in as few segments as can
/// be. No range goes across two.
pub fn whole_ranges(attributes: Vec<Attr>, each: usize) -> Region<Attr> {
    let segment = |part: &[Attr]| Segment { used: part.to_vec(), ..Segment::default() };
    let segments = attributes.chunks(FULL / each * each).map(segment).collect();
    Region { segments, count_is: None }
}

/// The root, with nodes below it that have these as their children, in ranges of
/// up to a whole segment. All are called by the first name.
pub fn tree(leaves: Vec<Node>) -> Region<Node> {
    let blocks: Vec<Vec<Node>> = leaves.chunks(FULL).map(<[Node]>::to_vec).collect();
    let mut first =
        vec![Node { children: blocks.len() as u16, child_addr: (0, 1), ..Node::default() }];
    for (i, block) in blocks.iter().enumerate() {
        let (children, child_addr) = (block.len() as u16, (i as u16 + 1, 0));
        first.push(Node { name: 1, children, child_addr, ..Node::default() });
    }
    let segment = |used| Segment { used, ..Segment::default() };
    let segments = std::iter::once(first).chain(blocks).map(segment).collect();
    Region { segments, count_is: None }
}

/// Characters, text after text; none goes across two segments.
#[derive(Default)]
pub struct Characters {
    pub region: Region<u16>,
}

impl Characters {
    /// A text and its stored 0.
    pub fn put(&mut self, text: &[u16]) -> Addr {
        let room = |segment: &Segment<u16>| segment.used.len() + text.len() < FULL;
        if !self.region.segments.last().is_some_and(room) {
            self.region.segments.push(Segment::default());
        }
        let number = self.region.segments.len() - 1;
        let used = &mut self.region.segments[number].used;
        let address = (number as u16, used.len() as u16);
        used.extend_from_slice(text);
        used.push(0);
        address
    }

    /// The same for a text that gets an entry.
    pub fn placed(&mut self, text: &[u16]) -> Placed {
        Placed { hash: hash(text), characters: text.len(), address: self.put(text) }
    }
}

pub fn placed(characters: &mut Characters, texts: &[Text]) -> Vec<Placed> {
    texts.iter().map(|text| characters.placed(text)).collect()
}

/// The values table of these texts, one after the other.
pub fn table_of(texts: &[Text]) -> Table {
    let mut characters = Characters::default();
    let placed = placed(&mut characters, texts);
    string_table(characters.region, placed, 1024)
}

/// Nodes with the attributes of one range after the other, each of so many.
pub fn nodes_of_ranges(attributes: &Region<Attr>, each: usize) -> Vec<Node> {
    let mut nodes = Vec::new();
    for (s, segment) in attributes.segments.iter().enumerate() {
        for e in (0..segment.used.len() / each * each).step_by(each) {
            let attr_addr = (s as u16, e as u16);
            nodes.push(Node { name: 1, attrs: each as u16, attr_addr, ..Node::default() });
        }
    }
    nodes
}
