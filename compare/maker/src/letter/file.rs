//! Files whose text attributes have value hashes by either rule: on nodes that a chain
//! reaches, on nodes that none reaches, on nameless nodes, and on none.

use super::alike::is_alike;
use super::rule::{Rule, LETTER};
use super::runs::{Run, Runs};
use crate::collide::hash;
use crate::dropped::drop_all;
use crate::model::{Addr, Model, Node, Region, Segment, Table};
use crate::rich::{index_of, Made};
use crate::rng::Rng;
use crate::shapes::smallest;
use crate::table::{string_table, table, Placed, TIDY};
use crate::text::{letters, text, Text};
use crate::tree::Tree;

/// Who has an attribute.
#[derive(Clone, Copy, Debug, PartialEq, Eq)]
pub enum Owner {
    /// A node that a chain reaches, so many levels below the root.
    Chain(usize),
    /// A live node in no child range.
    Orphan,
    /// One of two live nodes, each of which is the other's child.
    Circle,
    /// A node at the first level and an orphan, which share the range.
    Both,
    Nameless,
    /// No node: the attribute is used, and in no range.
    Nobody,
    /// No node: the attribute stands behind the used part.
    Behind,
}

/// How a file is laid out.
#[derive(Clone, Copy, Debug)]
pub struct Shape {
    /// Characters before each text in its segment.
    pub before: usize,
    /// Whether texts have their stored 0.
    pub stored: bool,
    /// Attributes of later nodes stand before those of earlier ones.
    pub backwards: bool,
}

/// What a file is to hold. Texts may repeat.
#[derive(Clone)]
pub struct Content {
    pub texts: Vec<(Text, Owner)>,
    pub shape: Shape,
    /// Names besides the usual ones.
    pub names: Vec<Text>,
}

/// A file, and where the attribute of each text stands.
pub struct Lettered {
    pub made: Made,
    pub attributes: Vec<Addr>,
    /// Whether each attribute's value hash is not that of the fold.
    wrong: Vec<bool>,
}

/// Names that nodes, attributes and a key bear.
const NAMES: [&str; 8] = ["erdő", "erdŐ", "ERDŐ", "őr", "Őr", "mező", "ő", "Ő"];

impl Content {
    /// The file whose texts have value hashes by these rules.
    pub fn file(&self, rules: &[Rule]) -> Lettered {
        let mut rng = Rng::new(self.texts.len() as u64);
        let (names, values) = (self.all_names(), self.values());
        let value_table = self.value_table(&mut rng, &values);
        let mut name_table = table(&mut rng, &names, 512, TIDY);
        if !self.shape.stored {
            drop_all(&mut name_table);
        }
        let runs = Runs::new(self, rules, &value_table, names.len() as u16);
        let tree = tree(&runs, &names);
        let model = Model {
            keys: vec![[0; 4], [1, 4, 6, 7]],
            attributes: runs.region,
            nodes: tree.place(&mut rng, 60_000, false),
            values: value_table,
            names: name_table,
            ..smallest().model
        };
        let texts = self.texts.iter().map(|(text, _)| text);
        let wrong = texts.zip(rules).map(|(text, &rule)| rule == Rule::Before && !is_alike(text));
        let wrong = wrong.collect();
        let made = Made { model, names, values, tree };
        Lettered { made, attributes: runs.attributes, wrong }
    }

    /// As many as there are attributes at least, and the special ones.
    fn all_names(&self) -> Vec<Text> {
        let mut names: Vec<Text> = NAMES.iter().map(|name| text(name)).collect();
        names.extend_from_slice(&self.names);
        for i in names.len()..self.texts.len() {
            names.push(text(&format!("név{i}")));
        }
        names.extend([text("__root__"), text("__value__")]);
        names
    }

    fn values(&self) -> Vec<Text> {
        let mut all: Vec<Text> = Vec::new();
        for (text, _) in &self.texts {
            if !all.contains(text) {
                all.push(text.clone());
            }
        }
        all
    }

    /// A segment for each text.
    fn value_table(&self, rng: &mut Rng, values: &[Text]) -> Table {
        let Shape { before, stored, .. } = self.shape;
        let mut segments = Vec::new();
        for (i, text) in values.iter().enumerate() {
            let mut used = Text::new();
            if before > 0 {
                used.extend(letters(rng, before - 1, before - 1));
                used.push(0);
            }
            used.extend(text);
            if stored {
                used.push(0);
            }
            // Behind the used part, a letter belongs to no text.
            let slack = [vec![], vec![LETTER], vec![0], vec![LETTER, 0]][i % 4].clone();
            segments.push(Segment { used, slack, ..Segment::default() });
        }
        let placed = values.iter().enumerate().map(|(i, text)| {
            let address = (i as u16, before as u16);
            Placed { hash: hash(text), characters: text.len(), address }
        });
        string_table(Region { segments, count_is: None }, placed.collect(), 1024)
    }
}

/// Names of nodes, as indices.
const WOOD: u16 = 1;
const GUARD: u16 = 4;
const FIELD: u16 = 6;
const STEP: u16 = 7;

fn named(name: u16) -> Node {
    Node { name, ..Node::default() }
}

/// A child of the root for each of the usual names, each with a child of its own, and
/// the nodes that have attributes.
fn tree(runs: &Runs, names: &[Text]) -> Tree {
    let mut tree = Tree::default();
    tree.add(named(index_of(names, "__root__")));
    for name in 1..=NAMES.len() as u16 {
        let child = tree.child(0, named(name));
        tree.child(child, named(STEP));
    }
    runs.all.iter().for_each(|run| add_owner(&mut tree, run));
    tree.sort_children();
    tree
}

fn add_owner(tree: &mut Tree, run: &Run) {
    let key_word = if run.owner == Owner::Nameless { 0 } else { 0x11 };
    let node =
        |name: u16| Node { attrs: run.count(), attr_addr: run.start, key_word, ..named(name) };
    match run.owner {
        Owner::Chain(levels) => {
            let above = (1..levels).fold(0, |above, _| tree.child(above, named(STEP)));
            tree.child(above, node(WOOD));
        }
        Owner::Orphan => {
            tree.add(node(GUARD));
        }
        Owner::Circle => {
            let one = tree.add(node(FIELD));
            let other = tree.child(one, named(WOOD));
            tree.sprouts[other].children.push(one);
        }
        Owner::Both => {
            tree.child(0, node(FIELD));
            tree.add(node(GUARD));
        }
        Owner::Nameless => {
            tree.child(0, node(0));
        }
        Owner::Nobody | Owner::Behind => {}
    }
}

impl Lettered {
    /// Offset of the attribute of a text.
    pub fn attribute_at(&self, number: usize) -> u64 {
        let model = &self.made.model;
        // Header, key count and keys; the segment count, and the segment's two counts.
        let first = 32 + 4 + 8 * model.keys.len() + 4 + 8;
        (first + 12 * self.attributes[number].1 as usize) as u64
    }

    /// Where 19 is given by the words of request T-10: at the first attribute, node by
    /// node, that a live node has and whose value hash is not that of the fold.
    pub fn refused_at(&self) -> Option<u64> {
        let model = &self.made.model;
        for node in model.live().into_iter().filter_map(|address| model.nodes.get(address)) {
            for i in 0..node.attrs {
                let address = (node.attr_addr.0, node.attr_addr.1 + i);
                let number = self.attributes.iter().position(|&other| other == address)?;
                if self.wrong[number] {
                    return Some(self.attribute_at(number));
                }
            }
        }
        None
    }
}
