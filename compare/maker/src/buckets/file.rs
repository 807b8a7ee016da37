//! A file with a crowded bucket of names and one of values, and what questions about it
//! have to answer.
//!
//! The crowd's names are those of chains from the root, so that one path asks for many of
//! them. Each node of a chain has an attribute with a text of the crowd's values.

use second::Which;

use super::strings::{strings, Crowd, Strings};
use crate::attributes::text_attribute;
use crate::known::{Known, Lookup};
use crate::matches::number;
use crate::model::{Addr, Model, Node, Region, Segment, Table};
use crate::rich::index_of;
use crate::rng::Rng;
use crate::shapes::smallest;
use crate::text::Text;
use crate::tree::Tree;

/// Nodes of a chain below the root.
const CHAIN: usize = 63;
const SPECIAL: [&str; 2] = ["__root__", "__value__"];

pub struct Crowded {
    pub model: Model,
    pub names: Strings,
    pub values: Strings,
    known_names: Known,
    known_values: Known,
    /// Bytes of the file.
    length: usize,
}

impl Crowded {
    /// Both crowds have as many entries.
    pub fn new(rng: &mut Rng, names: Crowd, values: Crowd) -> Crowded {
        let (name_table, names) = strings(rng, names, 512, &SPECIAL);
        let (value_table, values) = strings(rng, values, 1024, &[]);
        let owned = values.crowd.iter().chain([&0]);
        let attributes =
            owned.map(|&i| text_attribute(1, &values.texts[i], values.addresses[i])).collect();
        let model = Model {
            attributes: Region {
                segments: vec![Segment { used: attributes, ..Segment::default() }],
                count_is: None,
            },
            nodes: tree(&names).place(rng, 60_000, false),
            values: value_table,
            names: name_table,
            ..smallest().model
        };
        let length = model.bytes().len();
        let known_names = Known::new(names.texts.iter().zip(1..));
        let addresses = values.addresses.iter().map(|&address| number(address));
        let known_values = Known::new(values.texts.iter().zip(addresses));
        Crowded { model, names, values, known_names, known_values, length }
    }

    /// The crowd's names from one chain after the other.
    pub fn chains(&self) -> impl Iterator<Item = Vec<Text>> + '_ {
        let text = |&place: &usize| self.names.texts[place].clone();
        self.names.crowd.chunks(CHAIN).map(move |chain| chain.iter().map(text).collect())
    }

    /// What a look-up has to answer.
    pub fn look_up(&self, which: Which, text: &[u16]) -> Lookup {
        match which {
            Which::Names => self.known_names.look_up(text),
            Which::Values => self.known_values.look_up(text),
        }
    }

    /// The nodes that a path leads to, in document order.
    pub fn matches(&self, path: &[Text]) -> Vec<u32> {
        let names: Option<Vec<u32>> =
            path.iter().map(|name| self.known_names.number(name)).collect();
        names.map_or(Vec::new(), |names| self.model.matches(&names))
    }

    /// The file with an address more in a list, at a position from 0 on, and where 13 is
    /// then given.
    pub fn uncarried(&self, of_names: bool, address: Addr, position: usize) -> (Model, u64) {
        let mut model = self.model.clone();
        let table = if of_names { &mut model.names } else { &mut model.values };
        table.list.insert(position, address);
        let entries = table.buckets.iter_mut().flat_map(|bucket| &mut bucket.entries);
        for entry in entries.filter(|entry| entry.index as usize > position) {
            entry.index += 1;
        }
        // Behind the position come the rest of the list, the names and the footer.
        let behind = 4 * (table.list.len() - position) + 4;
        let later = if of_names { 0 } else { length(&model.names) };
        (model, (self.length + 4 - behind - later) as u64)
    }

    /// The file in which the attribute of this number has another text, and where 19 is
    /// given if that has no entry. The last attribute is an orphan's, which comes last.
    pub fn referring(&self, number: usize, text: &[u16], address: Addr) -> (Model, u64) {
        let mut model = self.model.clone();
        model.attributes.segments[0].used[number] = text_attribute(1, text, address);
        // Header, key count and keys; the segment count, and the segment's two counts.
        let first = 32 + 4 + 8 * model.keys.len() + 4 + 8;
        (model, (first + 12 * number) as u64)
    }

    pub fn attributes(&self) -> usize {
        self.model.attributes.segments[0].used.len()
    }
}

/// Bytes of a table.
fn length(table: &Table) -> usize {
    let segments = table.chars.segments.iter();
    let characters: usize = segments.map(|s| 8 + 2 * (s.used.len() + s.slack.len())).sum();
    let buckets: usize = table.buckets.iter().map(|bucket| 4 + 16 * bucket.entries.len()).sum();
    4 + characters + buckets + 4 + 4 * table.list.len()
}

/// Chains of the crowd's names; and an orphan, which stands behind them in the file.
fn tree(names: &Strings) -> Tree {
    let mut tree = Tree::default();
    tree.add(Node { name: index_of(&names.texts, "__root__"), ..Node::default() });
    let mut above = 0;
    for (i, &place) in names.crowd.iter().enumerate() {
        let parent = if i % CHAIN == 0 { 0 } else { above };
        above = tree.child(parent, owner(place as u16 + 1, i));
    }
    tree.add(owner(1, names.crowd.len()));
    tree.sort_children();
    tree
}

/// A node with the attribute of a number.
fn owner(name: u16, number: usize) -> Node {
    Node { name, attrs: 1, attr_addr: (0, number as u16), ..Node::default() }
}
