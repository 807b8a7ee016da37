//! Files with a text that ends with the used part of its segment, without a stored 0:
//! of every length up to 20 and of some larger ones, from every place on, in each of
//! three segments of values and of names.

use crate::attributes::{text_attribute, Runs};
use crate::dropped::{drop_some, Behind, BEHIND};
use crate::model::{Addr, Model, Node, Region, Segment, Table};
use crate::rich::{index_of, Made};
use crate::rng::Rng;
use crate::shapes::smallest;
use crate::table::{string_table, Placed};
use crate::text::{letters, of_length, text, Text};
use crate::tree::Tree;

/// What a file is to be like, its values and its names.
#[derive(Clone, Copy, Debug)]
pub struct Spec {
    /// Characters of the text. The empty text has its stored 0.
    pub length: usize,
    /// Characters before it in its segment.
    pub before: usize,
    /// The number of its segment, of three.
    pub segment: usize,
    pub behind: Behind,
    /// The text among the names, where it is not one of the length.
    pub name: Option<&'static str>,
}

/// A file, and where the text stands among values and among names.
pub struct Ends {
    pub made: Made,
    pub value: Addr,
    pub name: Addr,
}

/// On both sides of lengths where a program may change its way.
const LONG: [usize; 22] = [
    31, 32, 33, 63, 64, 65, 66, 67, 127, 128, 129, 130, 255, 256, 1_023, 1_024, 1_025, 2_049,
    4_095, 4_096, 4_097, 4_102,
];
/// Characters of a group that a program may read at once.
const GROUP: usize = 4;
pub const SEGMENTS: usize = 3;

/// Every length up to 20 at every place of a group; the larger ones at one place each;
/// and the special names.
pub fn specs() -> Vec<Spec> {
    let mut all = Vec::new();
    for segment in 0..SEGMENTS {
        for behind in BEHIND {
            let short = (0..=20).flat_map(|length| (0..GROUP).map(move |before| (length, before)));
            let long = LONG.into_iter().enumerate().map(|(i, length)| (length, i % GROUP));
            let spec = |(length, before)| Spec { length, before, segment, behind, name: None };
            all.extend(short.chain(long).map(spec));
            all.extend(["__root__", "__value__"].map(|name| {
                let before = segment + 1;
                Spec { length: 9, before, segment, behind, name: Some(name) }
            }));
        }
    }
    all
}

/// The texts of a table, in the order of their indices, the chosen one among them.
struct Strings {
    texts: Vec<Text>,
    chosen: Text,
}

impl Strings {
    /// The chosen text, some of its ends, it with a character more and less, the empty
    /// text, and others.
    fn new(rng: &mut Rng, chosen: Text) -> Strings {
        let length = chosen.len();
        let starts = [0, 1, length / 2, length.saturating_sub(1)];
        let ends = starts.into_iter().filter(|&start| start <= length);
        let mut wanted: Vec<Text> = ends.map(|start| chosen[start..].to_vec()).collect();
        wanted.push([&chosen[..], &[0x78]].concat());
        wanted.push(chosen[..length.saturating_sub(1)].to_vec());
        wanted.extend([Text::new(), letters(rng, 5, 9), letters(rng, 10, 12)]);
        let mut texts: Vec<Text> = Vec::new();
        for text in wanted {
            if !texts.contains(&text) {
                texts.push(text);
            }
        }
        Strings { texts, chosen }
    }

    /// The special names come last.
    fn with_special(mut self) -> Strings {
        let special = [text("__root__"), text("__value__")];
        self.texts.retain(|text| !special.contains(text));
        self.texts.extend(special);
        self
    }

    /// The ends of the chosen text stand where it does; the others stand in the other
    /// segments.
    fn place(&self, rng: &mut Rng, spec: Spec, buckets: usize) -> (Table, Addr) {
        let mut segments = vec![Segment::<u16>::default(); SEGMENTS];
        let own = &mut segments[spec.segment];
        if spec.before > 0 {
            own.used.extend(letters(rng, spec.before - 1, spec.before - 1));
            own.used.push(0);
        }
        own.used.extend(&self.chosen);
        if self.chosen.is_empty() {
            own.used.push(0);
        }
        own.slack = spec.behind.characters(rng);
        let start = (spec.segment as u16, spec.before as u16);
        let placed = self.texts.iter().enumerate().map(|(i, text)| {
            let is_end =
                self.chosen.ends_with(text) && (!text.is_empty() || self.chosen.is_empty());
            let address = if is_end {
                (start.0, start.1 + (self.chosen.len() - text.len()) as u16)
            } else {
                let number = (spec.segment + 1 + i % 2) % SEGMENTS;
                let used = &mut segments[number].used;
                used.extend(text);
                used.push(0);
                (number as u16, (used.len() - text.len() - 1) as u16)
            };
            Placed { hash: crate::collide::hash(text), characters: text.len(), address }
        });
        let placed = placed.collect();
        let mut made = string_table(Region { segments, count_is: None }, placed, buckets);
        drop_some(rng, &mut made);
        (made, start)
    }
}

/// The file: nodes that bear the names, a node with all values, and a key.
pub fn ends(rng: &mut Rng, spec: Spec) -> Ends {
    let (own_name, own_value) = (of_length(rng, spec.length), of_length(rng, spec.length));
    let own_name = spec.name.map_or(own_name, text);
    let names = Strings::new(rng, own_name).with_special();
    let values = Strings::new(rng, own_value);
    let (name_table, name) = names.place(rng, spec, 512);
    let (value_table, value) = values.place(rng, spec, 1024);
    let (names, values) = (names, values.texts);
    let attribute = |i: usize| {
        let chosen = i % values.len();
        text_attribute(i as u16 + 1, &values[chosen], value_table.list[chosen])
    };
    let run = (0..names.texts.len()).map(attribute).collect();
    let runs = Runs::place(rng, vec![run], 60_000, false);
    let chosen = 1 + names.texts.iter().position(|text| *text == names.chosen).unwrap_or(0);
    let (tree, keys) = (tree(&names.texts, chosen as u16, &runs), [chosen as u16, 1, 0, 0]);
    let value_name = index_of(&names.texts, "__value__");
    let model = Model {
        keys: vec![[0; 4], keys.map(|name| if name == value_name { 0 } else { name })],
        attributes: runs.region,
        nodes: tree.place(rng, 60_000, false),
        values: value_table,
        names: name_table,
        ..smallest().model
    };
    Ends { made: Made { model, names: names.texts, values, tree }, value, name }
}

/// A child of the root for each name, and one of the chosen name below each.
fn tree(names: &[Text], chosen: u16, runs: &Runs) -> Tree {
    let mut tree = Tree::default();
    tree.add(Node { name: index_of(names, "__root__"), ..Node::default() });
    let (attr_addr, length) = runs.places[0];
    for name in 1..=names.len() as u16 {
        let attrs = if name == chosen { length as u16 } else { 0 };
        let key_word = (name == chosen) as u16 * 0x11;
        let child = tree.child(0, Node { name, key_word, attrs, attr_addr, ..Node::default() });
        tree.child(child, Node { name: chosen, ..Node::default() });
    }
    tree.sort_children();
    tree
}

#[cfg(test)]
mod tests {
    use super::*;
    use crate::damage;
    use second::{Careful, Index, Literal, Loader, Marked, Plain, Reading, Right};

    fn refusal<R: Reading + Default, I: Index>(model: &Model) -> u32 {
        let mut workspace = vec![0; model.used_nodes()];
        Loader::<R, I>::new(R::default()).accept(&model.bytes(), &mut workspace).refusal
    }

    fn by_all(model: &Model) -> u32 {
        let refusal_of = refusal::<Right, Plain>(model);
        assert_eq!(refusal_of, refusal::<Right, Careful>(model));
        assert_eq!(refusal_of, refusal::<Right, Marked>(model));
        assert_eq!(refusal_of, refusal::<Literal, Marked>(model));
        refusal_of
    }

    #[test]
    fn ends_are_what_they_say() {
        for (seed, spec) in specs().into_iter().enumerate() {
            let Ends { made, value, name } = ends(&mut Rng::new(seed as u64), spec);
            for (table, at) in [(&made.model.values, value), (&made.model.names, name)] {
                let segment = &table.chars.segments[at.0 as usize];
                let length = table.text(at).len();
                let stored = (length == 0) as usize;
                assert_eq!(segment.used.len(), spec.before + length + stored, "{spec:?}");
                assert!(length == spec.length || spec.name.is_some(), "{spec:?}");
            }
            assert_eq!(by_all(&made.model), 0, "{spec:?}");
        }
    }

    /// Every edit of the text's entry gives its refusal.
    #[test]
    fn edits_meet_their_aims() {
        for (seed, spec) in specs().into_iter().enumerate().filter(|(seed, _)| seed % 7 == 0) {
            for damage in damage::of_ends().filter(|damage| damage.is_of_unended()) {
                for of_names in [false, true] {
                    let mut rng = Rng::new(seed as u64);
                    let Ends { mut made, value, name } = ends(&mut rng, spec);
                    let at = if of_names { name } else { value };
                    let model = &mut made.model;
                    let table = if of_names { &mut model.names } else { &mut model.values };
                    let place = table.entry_of(at);
                    if table.text(at).is_empty() || !damage.apply_to(table, place, &mut rng) {
                        continue;
                    }
                    let refusal = by_all(model);
                    // The text's last character has an entry too, which may come first.
                    let earlier = damage.words.ends_with("earlier") && refusal == 7;
                    assert!(refusal == damage.aim || earlier, "{spec:?}: {}", damage.words);
                }
            }
        }
    }
}
