//! Large realistic files for speed.
//!
//! At 64 MB about 490,000 nodes, 2.2 million attributes and 350,000 values in
//! full segments of 65,535; other sizes in proportion.
//!
//! A builder that goes over the tree once adds each text where it is first
//! used, so that texts stand in that order. Shuffled files, whose texts stand
//! anywhere, show what is lost where one does not. In files with dropped 0s texts
//! stand as in the first ones, but the last of each segment has no stored 0.

use crate::attributes::text_attribute;
use crate::dropped::drop_all;
use crate::model::{Addr, Attr, Model, Node, Region, Segment};
use crate::rich::index_of;
use crate::rng::Rng;
use crate::shapes::smallest;
use crate::table::{table, Style};
use crate::text::{text, Text};

/// A large file and what lookups and paths can ask of it.
pub struct Large {
    pub bytes: Vec<u8>,
    pub names: Vec<Text>,
    pub values: Vec<Text>,
    pub nodes: usize,
    pub attributes: usize,
}

/// Elements of a full segment.
const FULL: usize = 65_535;
const NAMES: usize = 2_000;
/// Names a node of one level can have: so many, from this one on.
const LEVELS: [(usize, usize); 4] = [(1, 120), (200, 300), (600, 300), (1_000, 200)];

/// Where texts stand.
#[derive(Clone, Copy, Debug, PartialEq, Eq)]
pub enum Order {
    AsUsed,
    Shuffled,
    /// As they are used, and the last of each segment without its stored 0.
    Dropped,
}

/// About how many elements go into a segment of each region.
#[derive(Clone, Copy)]
pub struct Lengths {
    pub attributes: usize,
    pub nodes: usize,
    pub characters: usize,
}

pub const FULL_SEGMENTS: Lengths = Lengths { attributes: FULL, nodes: FULL, characters: FULL };

/// A large file that is still a model.
pub struct Built {
    pub model: Model,
    pub names: Vec<Text>,
    pub values: Vec<Text>,
    pub nodes: usize,
    pub attributes: usize,
}

pub fn large(megabytes: usize, order: Order) -> Large {
    let mut built = build(megabytes, order, FULL_SEGMENTS);
    // Whoever reads past the used part to find a 0 finds none at once.
    let behind = if order == Order::Dropped { 0x2e } else { 0 };
    fill_up(&mut built.model.values.chars, behind);
    fill_up(&mut built.model.names.chars, behind);
    fill_up(&mut built.model.nodes, Node::default());
    fill_up(&mut built.model.attributes, Attr::default());
    let Built { model, names, values, nodes, attributes } = built;
    Large { bytes: model.bytes(), names, values, nodes, attributes }
}

/// The same before its segments are filled up, in segments of other lengths.
pub fn build(megabytes: usize, order: Order, lengths: Lengths) -> Built {
    let mut rng = Rng::new(megabytes as u64);
    let parts = megabytes.max(1);
    let (node_goal, value_goal) = (490_000 * parts / 64, 350_000 * parts / 64);
    let mut names: Vec<Text> = (0..NAMES).map(|i| text(&name_words(&mut rng, i))).collect();
    names.extend([text("__root__"), text("__value__")]);
    let mut values: Vec<Text> = (0..value_goal).map(|i| text(&value_words(&mut rng, i))).collect();
    let mut attributes = Packed::new(lengths.attributes);
    let mut nodes = Packed::new(lengths.nodes);
    grow(&mut rng, node_goal, index_of(&names, "__root__"), &mut nodes, |rng| {
        let run = run(rng, value_goal);
        let count = run.len() as u16;
        (attributes.block(run), count)
    });
    let in_order = order != Order::Shuffled;
    if in_order {
        by_first_use(&mut values, &mut attributes.region);
    }
    let style = Style { segment: lengths.characters, untidy: false, share: false, in_order };
    let mut value_table = table(&mut rng, &values, 1024, style);
    let mut name_table = table(&mut rng, &names, 512, style);
    if order == Order::Dropped {
        drop_all(&mut value_table);
        drop_all(&mut name_table);
    }
    for attribute in text_attributes(&mut attributes.region) {
        let value = attribute.word as usize;
        *attribute = text_attribute(attribute.name, &values[value], value_table.list[value]);
    }
    let (node_count, attribute_count) = (nodes.count, attributes.count);
    let model = Model {
        attributes: attributes.region,
        nodes: nodes.region,
        values: value_table,
        names: name_table,
        ..smallest().model
    };
    Built { model, names, values, nodes: node_count, attributes: attribute_count }
}

fn name_words(rng: &mut Rng, number: usize) -> String {
    let words = ["item", "Quest", "price", "Skill", "level", "npc", "Zone", "effect", "Data"];
    format!("{}{}{number}", rng.pick(&words), rng.pick(&words))
}

/// About 25 characters, as item texts and resource names are.
fn value_words(rng: &mut Rng, number: usize) -> String {
    let words = ["S1UI", "icon", "Sword", "of", "the", "Northern", "Forest", "elite", "Mesh", "0"];
    let mut made = format!("{number}");
    for _ in 0..rng.between(2, 6) {
        made += *rng.pick(&["_", ".", " "]);
        made += *rng.pick(&words);
    }
    made
}

/// The attributes of a node.
fn run(rng: &mut Rng, values: usize) -> Vec<Attr> {
    let count = rng.between(2, 7);
    let first = rng.between(1, NAMES - 120);
    let name = |i: usize, rng: &mut Rng| (first + i * 15 + rng.below(15)) as u16;
    (0..count)
        .map(|i| {
            let name = name(i, rng);
            attribute(rng, name, values)
        })
        .collect()
}

/// Two in five are texts; some are used much more often than others, as in real
/// files. A text is told by its number until the table is made.
fn attribute(rng: &mut Rng, name: u16, values: usize) -> Attr {
    let (type_word, word) = match rng.below(10) {
        0..=3 => {
            let often = rng.one_in(2);
            (3, rng.below(if often { values / 50 + 1 } else { values }) as u32)
        }
        4..=6 => (1, rng.word() >> rng.below(32)),
        7 => (5, rng.word() & 1),
        _ => (2, (rng.word() as f32 / 65_536.0).to_bits()),
    };
    Attr { name, type_word, word, ignored: 0 }
}

fn text_attributes(region: &mut Region<Attr>) -> impl Iterator<Item = &mut Attr> {
    let used = region.segments.iter_mut().flat_map(|segment| &mut segment.used);
    used.filter(|attribute| attribute.type_word & 3 == 3)
}

/// Puts values in the order in which attributes first use them; those that none
/// does come last.
fn by_first_use(values: &mut Vec<Text>, region: &mut Region<Attr>) {
    let mut number: Vec<Option<u32>> = vec![None; values.len()];
    let mut order = Vec::with_capacity(values.len());
    let mut numbered = |value: usize| {
        *number[value].get_or_insert_with(|| {
            order.push(value);
            order.len() as u32 - 1
        })
    };
    for attribute in text_attributes(region) {
        attribute.word = numbered(attribute.word as usize);
    }
    (0..values.len()).for_each(|value| {
        numbered(value);
    });
    *values = order.into_iter().map(|value| std::mem::take(&mut values[value])).collect();
}

/// Elements packed into segments of one length, blocks never across two.
struct Packed<T> {
    region: Region<T>,
    length: usize,
    count: usize,
}

impl<T: Clone + Default> Packed<T> {
    fn new(length: usize) -> Packed<T> {
        Packed { region: Region::default(), length, count: 0 }
    }

    fn block(&mut self, items: Vec<T>) -> Addr {
        let room = |segment: &Segment<T>| segment.used.len() + items.len() <= self.length;
        if !self.region.segments.last().is_some_and(room) {
            self.region.segments.push(Segment::default());
        }
        let number = self.region.segments.len() - 1;
        let used = &mut self.region.segments[number].used;
        let address = (number as u16, used.len() as u16);
        self.count += items.len();
        used.extend(items);
        address
    }
}

/// A full segment keeps what no block fitted into; the last is no longer than
/// what is used, so that files of all sizes are equally full.
fn fill_up<T: Clone>(region: &mut Region<T>, with: T) {
    if let Some((_, full)) = region.segments.split_last_mut() {
        for segment in full {
            segment.slack.resize(FULL - segment.used.len(), with.clone());
        }
    }
}

/// A tree level by level: many sheets below the root, then four levels whose
/// width falls off.
fn grow(
    rng: &mut Rng,
    goal: usize,
    root_name: u16,
    nodes: &mut Packed<Node>,
    mut attributes: impl FnMut(&mut Rng) -> (Addr, u16),
) {
    nodes.block(vec![Node { name: root_name, ..Node::default() }]);
    let mut open: Vec<Addr> = vec![(0, 0)];
    let widths = [goal / 2_000 + 20, 40, 8, 6];
    for (level, width) in widths.into_iter().enumerate() {
        let mut next = Vec::new();
        for parent in open {
            if nodes.count >= goal {
                break;
            }
            let count = if level == 0 { width } else { rng.between(width / 2, width * 3 / 2) };
            let (first_name, kinds) = LEVELS[level];
            let mut names: Vec<usize> = (0..count).map(|_| first_name + rng.below(kinds)).collect();
            names.sort_unstable();
            let children = names.into_iter().map(|name| {
                let (attr_addr, attrs) = attributes(rng);
                Node { name: name as u16, attrs, attr_addr, ..Node::default() }
            });
            let children: Vec<Node> = children.collect();
            let address = nodes.block(children);
            if let Some(node) = nodes.region.get_mut(parent) {
                node.children = count as u16;
                node.child_addr = address;
            }
            next.extend((0..count as u16).map(|i| (address.0, address.1 + i)));
        }
        open = next;
    }
}

#[cfg(test)]
mod tests {
    use super::*;
    use second::{Loader, Marked, Plain, Right};

    #[test]
    fn large_files_are_accepted() {
        for order in [Order::AsUsed, Order::Shuffled, Order::Dropped] {
            let made = large(2, order);
            let mut workspace = vec![0; made.nodes];
            let plain: Loader<Right, Plain> = Loader::new(Right);
            let marked: Loader<Right, Marked> = Loader::new(Right);
            assert_eq!(plain.accept(&made.bytes, &mut workspace).refusal, 0);
            assert_eq!(marked.accept(&made.bytes, &mut workspace).refusal, 0);
        }
    }

    #[test]
    fn dropped_files_store_no_last_0() {
        let model = build(2, Order::Dropped, FULL_SEGMENTS).model;
        let segments = model.values.chars.segments.iter().chain(&model.names.chars.segments);
        assert!(segments.clone().count() > 4);
        assert!(segments.into_iter().all(|segment| segment.used.last().is_some_and(|&c| c != 0)));
    }
}
