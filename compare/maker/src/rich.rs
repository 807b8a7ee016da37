//! Accepted files of rich variety from a seed.

use crate::attributes::{garbage, Runs, Stock};
use crate::collide::{hash_in_bucket, twin, with_hash};
use crate::dropped::drop_some;
use crate::model::{Model, Node, Region, Table};
use crate::rng::Rng;
use crate::shapes::smallest;
use crate::table::{table, Style};
use crate::text::{every_odd, letters, random, text, Text};
use crate::tree::Tree;

/// A made file with what a questioner likes to know of it.
#[derive(Clone)]
pub struct Made {
    pub model: Model,
    pub names: Vec<Text>,
    pub values: Vec<Text>,
    pub tree: Tree,
}

/// Texts, all different: plain, odd, empty, ends of others, twins by hash, and
/// many of one bucket.
pub fn texts(rng: &mut Rng, count: usize, buckets: usize) -> Vec<Text> {
    let mut all: Vec<Text> = Vec::new();
    let crowded = rng.below(buckets);
    while all.len() < count {
        let made = match rng.below(12) {
            0 => Some(Text::new()),
            1 if !all.is_empty() => {
                let other = rng.pick(&all).clone();
                let skipped = rng.between(0, other.len());
                Some(other[skipped..].to_vec())
            }
            2 | 3 if !all.is_empty() => {
                let other = rng.pick(&all).clone();
                twin(rng, &other)
            }
            4 | 5 => {
                let base = letters(rng, 10, 14);
                let wished = hash_in_bucket(rng, crowded, buckets);
                with_hash(rng, &base, wished)
            }
            6 => {
                let base = letters(rng, 10, 14);
                with_hash(rng, &base, 0)
            }
            7 => Some(every_odd()),
            8 => Some(letters(rng, 10, 20)),
            9 => Some(letters(rng, 1, 4)),
            _ => Some(random(rng, 12)),
        };
        match made {
            Some(made) if !all.contains(&made) => all.push(made),
            _ if rng.one_in(4) => all.push(letters(rng, 21, 30)),
            _ => {}
        }
    }
    all
}

/// Names end in the two special ones, either way round.
pub fn with_special(rng: &mut Rng, mut names: Vec<Text>) -> Vec<Text> {
    let special = [text("__root__"), text("__value__")];
    names.retain(|name| !special.contains(name));
    names.extend(special);
    if rng.one_in(2) {
        let last = names.len() - 1;
        names.swap(last, last - 1);
    }
    names
}

/// Where a special name stands, as an index from 1.
pub fn index_of(names: &[Text], wanted: &str) -> u16 {
    let wanted = text(wanted);
    names.iter().position(|name| *name == wanted).map_or(0, |i| i as u16 + 1)
}

fn style(rng: &mut Rng) -> Style {
    Style {
        segment: rng.between(8, 120),
        untidy: !rng.one_in(4),
        share: rng.one_in(2),
        in_order: false,
    }
}

const TIMESTAMPS: [u64; 8] = [
    0,
    0x7ff0_0000_0000_0000,
    0xfff0_0000_0000_0000,
    0x7ff8_0000_0000_0000,
    0x7ff0_0000_0000_0001,
    0xffff_ffff_ffff_ffff,
    0x41d9_5555_5540_0000,
    0x8000_0000_0000_0000,
];

/// A table of texts, some of which may have no stored 0.
fn strings(rng: &mut Rng, texts: &[Text], buckets: usize) -> Table {
    let style = style(rng);
    let mut made = table(rng, texts, buckets, style);
    if !rng.one_in(4) {
        drop_some(rng, &mut made);
    }
    made
}

/// A file of up to `most` nodes.
pub fn rich(rng: &mut Rng, most: usize) -> Made {
    let (name_count, value_count) = (rng.between(0, 24), rng.between(0, 24));
    let plain_names = texts(rng, name_count, 512);
    let names = with_special(rng, plain_names);
    let values = texts(rng, value_count, 1024);
    let (name_table, value_table) = (strings(rng, &names, 512), strings(rng, &values, 1024));
    let value_name = index_of(&names, "__value__");
    let keys = keys(rng, names.len() as u16, value_name);
    let stock = Stock {
        names: names.len() as u16,
        value_name,
        values: &values,
        addresses: &value_table.list,
    };
    let untidy = !rng.one_in(4);
    let run_list = (0..rng.below(20)).map(|_| stock.run(rng, 8)).collect();
    let run_segment = rng.between(8, 60);
    let mut runs = Runs::place(rng, run_list, run_segment, untidy);
    let mut fields = |rng: &mut Rng| node_fields(rng, names.len(), keys.len(), &runs);
    let tree = tree(rng, index_of(&names, "__root__"), most, &mut fields);
    let node_segment = rng.between(4, 100);
    let mut nodes = tree.place(rng, node_segment, untidy);
    if untidy {
        slacken(rng, &mut nodes, fields);
        slacken(rng, &mut runs.region, garbage);
    }
    let timestamp = if rng.one_in(2) { *rng.pick(&TIMESTAMPS) } else { rng.draw() };
    let model = Model {
        timestamp,
        revision: rng.word(),
        keys,
        attributes: runs.region,
        nodes,
        values: value_table,
        names: name_table,
        ..smallest().model
    };
    Made { model, names, values, tree }
}

fn keys(rng: &mut Rng, names: u16, value_name: u16) -> Vec<[u16; 4]> {
    let mut keys = vec![[0; 4]];
    for _ in 0..rng.below(4) {
        keys.push([0; 4].map(|_: u16| {
            let name = rng.between(0, names as usize) as u16;
            if name == value_name {
                0
            } else {
                name
            }
        }));
    }
    keys
}

/// A node with everything but its children; sometimes a nameless one, whose
/// other fields mean nothing.
fn node_fields(rng: &mut Rng, names: usize, keys: usize, runs: &Runs) -> Node {
    let mut node = Node {
        name: rng.half(),
        key_word: rng.half(),
        attrs: rng.half(),
        children: rng.half(),
        attr_addr: (rng.half(), rng.half()),
        ignored: [rng.word(), rng.word()],
        child_addr: (rng.half(), rng.half()),
    };
    if rng.one_in(8) {
        node.name = 0;
        return node;
    }
    // Few names, so that siblings and levels repeat them.
    let few = rng.between(0, 5);
    node.name = rng.between(names.saturating_sub(few).max(1), names) as u16;
    if rng.one_in(3) {
        node.name = rng.between(1, names) as u16;
    }
    node.key_word = (rng.below(keys) << 4 | rng.below(2)) as u16;
    let (address, count) = runs.window(rng);
    node.attr_addr = address;
    node.attrs = count;
    node.children = 0;
    node
}

/// Puts elements behind the used parts.
fn slacken<T>(rng: &mut Rng, region: &mut Region<T>, mut element: impl FnMut(&mut Rng) -> T) {
    for segment in &mut region.segments {
        segment.slack = (0..rng.below(4)).map(|_| element(rng)).collect();
    }
}

/// A tree below a root of this name.
fn tree(rng: &mut Rng, root: u16, most: usize, fields: &mut impl FnMut(&mut Rng) -> Node) -> Tree {
    let mut tree = Tree::default();
    tree.add(Node {
        name: root,
        attr_addr: (rng.half(), rng.half()),
        child_addr: (rng.half(), rng.half()),
        ..Node::default()
    });
    grow(rng, &mut tree, most, fields);
    tree.sort_children();
    tree
}

/// Grows a tree of one shape or another, and orphans beside it.
fn grow(rng: &mut Rng, tree: &mut Tree, most: usize, fields: &mut impl FnMut(&mut Rng) -> Node) {
    let count = rng.between(0, most);
    let shape = rng.below(4);
    let mut open = vec![(0, 1)];
    for _ in 0..count {
        let number = match shape {
            0 => open.len() - 1,
            1 => rng.below(open.len().min(3)),
            _ => rng.below(open.len()),
        };
        let (parent, depth) = open[number];
        let node = fields(rng);
        let live = node.name != 0;
        let child = tree.child(parent, node);
        if live && depth < 63 {
            open.push((child, depth + 1));
        }
    }
    for _ in 0..rng.below(6) {
        let mut live = |rng: &mut Rng| loop {
            let node = fields(rng);
            if node.name != 0 {
                return node;
            }
        };
        let (a, b) = (live(rng), live(rng));
        let first = tree.add(a);
        match rng.below(4) {
            // Alone, with a child, in its own range, two naming each other.
            0 => {}
            1 => {
                tree.child(first, b);
            }
            2 => tree.sprouts[first].children.push(first),
            _ => {
                let second = tree.child(first, b);
                tree.sprouts[second].children.push(first);
            }
        }
    }
}
