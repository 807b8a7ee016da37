//! Files of one exact shape: the smallest, chains, wide nodes and limits.

use crate::attributes::{Runs, Stock};
use crate::dropped::drop_all;
use crate::model::{Model, Node, Region, Segment, Table};
use crate::rich::{index_of, with_special, Made};
use crate::rng::Rng;
use crate::table::{table, Style, TIDY};
use crate::text::{text, Text};
use crate::tree::Tree;

/// A tidy file with these names before the special ones, and a tree whose
/// nodes name them. The root's name is set here.
pub fn tidy(rng: &mut Rng, names: Vec<Text>, values: Vec<Text>, mut tree: Tree) -> Made {
    let mut all = names;
    all.extend([text("__root__"), text("__value__")]);
    if tree.sprouts.is_empty() {
        tree.add(Node::default());
    }
    tree.sprouts[0].fields.name = index_of(&all, "__root__");
    tree.sort_children();
    let model = Model {
        version: 6,
        timestamp: 0,
        revision: 1,
        zeros: [0; 4],
        keys: vec![[0; 4]],
        key_count_is: None,
        attributes: Region::default(),
        nodes: tree.place(rng, 65_535, false),
        values: table(rng, &values, 1024, TIDY),
        names: table(rng, &all, 512, TIDY),
        footer: 0,
        tail: Vec::new(),
    };
    Made { model, names: all, values, tree }
}

/// One zero key, no attribute segments, one node, no values, two names, of which the
/// last has no stored 0.
pub fn smallest() -> Made {
    let mut made = smallest_stored();
    drop_all(&mut made.model.names);
    made
}

/// The same with its last 0 stored.
pub fn smallest_stored() -> Made {
    tidy(&mut Rng::new(0), Vec::new(), Vec::new(), Tree::default())
}

/// A tidy file of which some texts have no stored 0.
fn tidy_dropped(rng: &mut Rng, names: Vec<Text>, values: Vec<Text>, tree: Tree) -> Made {
    let mut made = tidy(rng, names, values, tree);
    made.model.drop_some(rng);
    made
}

fn two_names() -> Vec<Text> {
    vec![text("a"), text("b")]
}

fn named(name: u16) -> Node {
    Node { name, ..Node::default() }
}

/// Chains from the root, one for each length given (the root counted), in
/// document order, with short ones hanging off the way. A chain told to be
/// nameless ends in a nameless element that makes it no longer.
pub fn chains(rng: &mut Rng, lengths: &[usize], nameless: bool) -> Made {
    let mut tree = Tree::default();
    tree.add(Node::default());
    for &length in lengths {
        let mut node = 0;
        for depth in 1..length {
            let last = depth + 1 == length;
            let name = if nameless && last { 0 } else { rng.between(1, 2) as u16 };
            if rng.one_in(5) {
                tree.child(node, named(1));
            }
            node = tree.child(node, named(name));
        }
    }
    let mut made = tidy_dropped(rng, two_names(), Vec::new(), tree);
    let segment = rng.between(2, 200);
    made.model.nodes = made.tree.place(rng, segment, true);
    made
}

/// A root with `count` children, some nameless, some with a child.
pub fn wide(rng: &mut Rng, count: usize) -> Made {
    let mut tree = Tree::default();
    tree.add(Node::default());
    for _ in 0..count {
        let child = tree.child(0, named(rng.below(3) as u16));
        if rng.one_in(50) && tree.sprouts[child].fields.name != 0 {
            tree.child(child, named(1));
        }
    }
    tidy_dropped(rng, two_names(), Vec::new(), tree)
}

/// A file with `count` names, all different.
pub fn many_names(rng: &mut Rng, count: usize) -> Made {
    let names = (0..count - 2).map(|i| text(&format!("n{i}"))).collect();
    let mut tree = Tree::default();
    tree.add(Node::default());
    for name in [1, count / 2, count.min(65_535)] {
        tree.child(0, named(name as u16));
    }
    tidy_dropped(rng, names, Vec::new(), tree)
}

/// A file with `count` values, all different.
pub fn many_values(rng: &mut Rng, count: usize) -> Made {
    let values = (0..count).map(|i| text(&format!("v{i}"))).collect();
    tidy_dropped(rng, two_names(), values, Tree::default())
}

/// A file with `count` keys.
pub fn many_keys(count: usize) -> Made {
    let mut made = smallest();
    made.model.keys = vec![[0; 4]; count];
    if let Some(last) = made.model.keys.get_mut(1..).and_then(|keys| keys.last_mut()) {
        last[3] = 1;
    }
    let highest = count.saturating_sub(1).min(4_095) as u16;
    made.model.nodes.segments[0].used[0].key_word = highest << 4 | 1;
    made
}

/// Which of the four regions.
#[derive(Clone, Copy, Debug, PartialEq, Eq)]
pub enum Part {
    Attributes,
    Nodes,
    ValueChars,
    NameChars,
}

pub const PARTS: [Part; 4] = [Part::Attributes, Part::Nodes, Part::ValueChars, Part::NameChars];

fn grow<T: Clone + Default>(region: &mut Region<T>, segments: usize) {
    region.segments.resize_with(segments, Segment::default);
}

fn stretch<T: Clone + Default>(region: &mut Region<T>, full: usize) {
    if region.segments.is_empty() {
        region.segments.push(Segment::default());
    }
    let last = region.segments.last_mut().expect("one was just put there");
    last.slack.resize(full - last.used.len(), T::default());
}

/// The smallest file with `count` segments in a region, all but the first empty.
pub fn many_segments(part: Part, count: usize) -> Made {
    let mut made = smallest();
    let model = &mut made.model;
    match part {
        Part::Attributes => grow(&mut model.attributes, count),
        Part::Nodes => grow(&mut model.nodes, count),
        Part::ValueChars => grow(&mut model.values.chars, count),
        Part::NameChars => grow(&mut model.names.chars, count),
    }
    made
}

/// The smallest file with a full count of `full` in a region's last segment.
pub fn long_segment(part: Part, full: usize) -> Made {
    let mut made = smallest();
    let model = &mut made.model;
    match part {
        Part::Attributes => stretch(&mut model.attributes, full),
        Part::Nodes => stretch(&mut model.nodes, full),
        Part::ValueChars => stretch(&mut model.values.chars, full),
        Part::NameChars => stretch(&mut model.names.chars, full),
    }
    made
}

/// Names spread over many segments, one text each: addresses by far segments.
pub fn one_text_a_segment(rng: &mut Rng, count: usize) -> Made {
    let names: Vec<Text> = (0..count).map(|i| text(&format!("n{i}"))).collect();
    let names = with_special(rng, names);
    let mut tree = Tree::default();
    tree.add(Node::default());
    for name in [1, count] {
        tree.child(0, named(name as u16));
    }
    let mut made = tidy(rng, names[..names.len() - 2].to_vec(), Vec::new(), tree);
    let style = Style { segment: 1, ..TIDY };
    made.model.names = table(rng, &made.names, 512, style);
    made.model.drop_some(rng);
    made
}

/// A values text of `length` characters, alone in its segment, with its stored 0 or
/// without.
pub fn long_text(rng: &mut Rng, length: usize, stored: bool) -> Made {
    let values = vec![vec![0x61; length], text("b")];
    let mut made = tidy(rng, two_names(), values, Tree::default());
    let style = Style { segment: 1, ..TIDY };
    made.model.values = table(rng, &made.values, 1024, style);
    if !stored {
        drop_all(&mut made.model.values);
    }
    made
}

/// Nodes and attributes spread over more segments than a loader is likely to
/// keep a table of: every child alone in its segment, every run too.
pub fn far_nodes(rng: &mut Rng, count: usize) -> Made {
    let stock = Stock { names: 2, value_name: 4, values: &[], addresses: &[] };
    let runs = (0..count).map(|_| stock.run(rng, 2)).collect();
    let placed = Runs::place(rng, runs, 1, true);
    let mut tree = Tree::default();
    tree.add(Node::default());
    for i in 0..count {
        let (attr_addr, length) = placed.places[i];
        let child = tree.child(0, named(1));
        tree.child(child, Node { attrs: length as u16, attr_addr, ..named(2) });
    }
    let mut made = tidy_dropped(rng, two_names(), Vec::new(), tree);
    made.model.nodes = made.tree.place(rng, 1, true);
    made.model.attributes = placed.region;
    made
}

/// A names table of none or one text, which is 14.
pub fn few_names(rng: &mut Rng, names: &[&str]) -> Table {
    let names: Vec<Text> = names.iter().map(|name| text(name)).collect();
    table(rng, &names, 512, TIDY)
}
