//! Another fault beside a value hash by the rule of before: one that comes first in the
//! order of the checks, or one that comes after it.

use super::file::{Content, Lettered, Owner, Shape};
use super::rule::Rule;
use crate::model::{Addr, Attr, Model, Node};
use crate::text::text;

/// Texts of a node that a chain reaches, the second with the letter, and of an orphan,
/// which is checked later.
const TEXTS: [(&str, Owner); 4] = [
    ("kard", Owner::Chain(1)),
    ("Tűzerdő", Owner::Chain(1)),
    ("pajzs", Owner::Chain(1)),
    ("íj", Owner::Orphan),
];
const CHOSEN: usize = 1;

/// A file with the letter, to be edited.
pub struct Scene {
    pub file: Lettered,
    /// The node that a chain reaches, and the orphan.
    reached: Addr,
    orphan: Addr,
}

pub struct Edit {
    pub aim: u32,
    pub words: &'static str,
    /// Whether it comes before the value hash in the order of the checks.
    pub first: bool,
    apply: fn(&mut Scene),
}

impl Scene {
    pub fn new(rule: Rule) -> Scene {
        let texts = TEXTS.map(|(word, owner)| (text(word), owner)).to_vec();
        let shape = Shape { before: 0, stored: true, backwards: false };
        let mut rules = [Rule::Now; TEXTS.len()];
        rules[CHOSEN] = rule;
        let file = Content { texts, shape, names: Vec::new() }.file(&rules);
        let nodes = &file.made.model.nodes;
        let shown: Vec<Addr> = nodes
            .addresses()
            .into_iter()
            .filter(|&address| nodes.get(address).is_some_and(|node| node.attrs > 0))
            .collect();
        Scene { reached: shown[0], orphan: shown[1], file }
    }

    /// Offset of the attribute with the letter.
    pub fn letter_at(&self) -> u64 {
        self.file.attribute_at(CHOSEN)
    }

    pub fn edit(&mut self, edit: &Edit) {
        (edit.apply)(self);
    }

    pub fn model(&mut self) -> &mut Model {
        &mut self.file.made.model
    }

    fn attribute(&mut self, number: usize) -> &mut Attr {
        let address = self.file.attributes[number];
        self.model().attributes.get_mut(address).expect("every text has an attribute")
    }

    fn node(&mut self, address: Addr) -> &mut Node {
        self.model().nodes.get_mut(address).expect("the node is there")
    }

    fn reached(&mut self) -> &mut Node {
        self.node(self.reached)
    }

    fn orphan(&mut self) -> &mut Node {
        self.node(self.orphan)
    }
}

const fn first(aim: u32, words: &'static str, apply: fn(&mut Scene)) -> Edit {
    Edit { aim, words, first: true, apply }
}

const fn after(aim: u32, words: &'static str, apply: fn(&mut Scene)) -> Edit {
    Edit { aim, words, first: false, apply }
}

/// An address that no segment has.
const NOWHERE: u32 = 0xffff_ffff;

pub const EDITS: [Edit; 26] = [
    first(3, "version", |scene| scene.model().version = 5),
    first(4, "a zero word", |scene| scene.model().zeros[3] = 1),
    first(5, "no keys", |scene| scene.model().keys.clear()),
    first(6, "footer", |scene| scene.model().footer = 1),
    first(8, "a value's length", |scene| {
        let (b, e) = scene.model().values.entries()[0];
        scene.model().values.buckets[b].entries[e].length += 1;
    }),
    first(9, "a name's hash", |scene| {
        let (b, e) = scene.model().names.entries()[0];
        scene.model().names.buckets[b].entries[e].hash ^= 1;
    }),
    first(13, "a value of the list without an entry", |scene| {
        scene.model().values.list.push((0, 0));
    }),
    first(15, "key 0", |scene| scene.model().keys[0][2] = 1),
    first(16, "the root's attributes", |scene| scene.node((0, 0)).attrs = 1),
    first(23, "the root's children", |scene| scene.node((0, 0)).children = 900),
    first(16, "flags of the node", |scene| scene.reached().key_word |= 2),
    first(17, "the node's range", |scene| scene.reached().attrs = 900),
    first(18, "the attribute before, its name", |scene| scene.attribute(0).name = 0),
    first(18, "the attribute before, its type", |scene| scene.attribute(0).type_word = 0),
    first(19, "the attribute before, its address", |scene| scene.attribute(0).word = NOWHERE),
    first(18, "the attribute itself, its name", |scene| {
        scene.attribute(CHOSEN).name = scene.attribute(0).name;
    }),
    after(18, "the attribute after, its name", |scene| {
        scene.attribute(2).name = scene.attribute(CHOSEN).name;
    }),
    after(18, "the attribute after, its type", |scene| scene.attribute(2).type_word = 0),
    after(19, "the attribute after, its address", |scene| scene.attribute(2).word = NOWHERE),
    after(23, "the node's children", |scene| scene.reached().children = 900),
    after(16, "flags of the orphan", |scene| scene.orphan().key_word |= 2),
    after(17, "the orphan's range", |scene| scene.orphan().attrs = 900),
    after(18, "the orphan's attribute", |scene| scene.attribute(3).name = 0),
    after(19, "the orphan's attribute, its value hash", |scene| {
        scene.attribute(3).type_word ^= 4;
    }),
    after(23, "the orphan's children", |scene| scene.orphan().children = 900),
    after(21, "the root among the orphan's children", |scene| scene.orphan().children = 1),
];

#[cfg(test)]
mod tests {
    use super::*;
    use second::{Answer, Loader, Plain, Right};

    fn accept(rule: Rule, edit: &Edit) -> Answer {
        let mut scene = Scene::new(rule);
        scene.edit(edit);
        let mut workspace = vec![0; scene.model().used_nodes()];
        Loader::<Right, Plain>::new(Right).accept(&scene.model().bytes(), &mut workspace)
    }

    #[test]
    fn the_first_fault_is_told() {
        let letter = Scene::new(Rule::Now).letter_at();
        for edit in &EDITS {
            let [now, before] = [Rule::Now, Rule::Before].map(|rule| accept(rule, edit));
            assert_eq!(now.refusal, edit.aim, "{}", edit.words);
            let told = Answer { refusal: 19, kind: 0, value: letter };
            assert_eq!(before, if edit.first { now } else { told }, "{}", edit.words);
            assert_ne!(now, told, "{}", edit.words);
        }
    }
}
