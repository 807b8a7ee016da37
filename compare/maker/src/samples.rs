//! Sample files for reading along: the smallest, the same with its last 0 stored, a
//! small shop, the shop damaged, one whose outline is too long for the program, and
//! Hungarian items whose value hashes go by the fold and by the one of before.

use crate::attributes::{text_attribute, Runs};
use crate::collide::{hash, twin};
use crate::letter::rule::Rule;
use crate::letter::sample::hungarian;
use crate::model::{Addr, Attr, Model, Node, Segment};
use crate::rich::index_of;
use crate::rng::Rng;
use crate::shapes::{smallest, smallest_stored, tidy};
use crate::table::{table, Style};
use crate::text::{text, Text};
use crate::tree::Tree;

pub struct Sample {
    pub name: &'static str,
    pub bytes: Vec<u8>,
}

pub fn all() -> Vec<Sample> {
    let shop = shop();
    vec![
        Sample { name: "smallest.dc", bytes: smallest().model.bytes() },
        Sample { name: "smallest-stored.dc", bytes: smallest_stored().model.bytes() },
        Sample { name: "shop.dc", bytes: shop.bytes() },
        Sample { name: "shop-damaged.dc", bytes: damaged(shop).bytes() },
        Sample { name: "long-outline.dc", bytes: long_outline().bytes() },
        Sample { name: "hungarian.dc", bytes: hungarian(Rule::Now).bytes() },
        Sample { name: "hungarian-before.dc", bytes: hungarian(Rule::Before).bytes() },
    ]
}

/// An attribute to be: its name and what it holds.
enum Held<'a> {
    Whole(i32),
    Truth(bool),
    Float(f32),
    Text(&'a str),
}

/// Items, quests and prices, with every kind of attribute, several segments in
/// every region, and two names with one hash.
fn shop() -> Model {
    let mut rng = Rng::new(2_024);
    let plain = ["Item", "Quest", "Price", "id", "title", "weight", "sold", "reward", "cost"];
    let mut names: Vec<Text> = plain.iter().map(|name| text(name)).collect();
    let (sword, other) = names_of_one_hash(&mut rng);
    names.extend([sword, other]);
    names.extend([text("__root__"), text("__value__")]);
    let words = [
        "Iron sword",
        "Oak shield",
        "Healing draught",
        "A lost ring",
        "The miller's daughter",
        "Ring",
        "",
        "\u{e9}t\u{e9} = \"summer\"",
    ];
    let values: Vec<Text> = words.iter().map(|word| text(word)).collect();
    let style = Style { segment: 40, untidy: false, share: true, in_order: false };
    let mut value_table = table(&mut rng, &values, 1024, style);
    let mut name_table = table(&mut rng, &names, 512, style);
    for segment in value_table.chars.segments.iter_mut().chain(&mut name_table.chars.segments) {
        segment.slack = vec![0x2e; 6];
    }
    let index = |name: &str| index_of(&names, name);
    let attribute = |name: &str, held: Held| match held {
        Held::Whole(number) => plain_attribute(index(name), 1, number as u32),
        Held::Truth(truth) => plain_attribute(index(name), 5, truth as u32),
        Held::Float(float) => plain_attribute(index(name), 2, float.to_bits()),
        Held::Text(word) => {
            let place = values.iter().position(|value| *value == text(word)).unwrap_or(0);
            text_attribute(index(name), &values[place], value_table.list[place])
        }
    };
    let mut runs = Vec::new();
    let items = ["Iron sword", "Oak shield", "Healing draught"];
    for (i, title) in items.into_iter().enumerate() {
        runs.push(vec![
            attribute("id", Held::Whole(1_000 + i as i32)),
            attribute("title", Held::Text(title)),
            attribute("weight", Held::Float(0.5 + i as f32)),
            attribute("sold", Held::Truth(i != 1)),
        ]);
    }
    for (i, title) in ["A lost ring", "The miller's daughter"].into_iter().enumerate() {
        runs.push(vec![
            attribute("title", Held::Text(title)),
            attribute("reward", Held::Whole(-5 * i as i32)),
            attribute("__value__", Held::Text("\u{e9}t\u{e9} = \"summer\"")),
        ]);
    }
    runs.push(vec![attribute("cost", Held::Whole(i32::MIN))]);
    runs.push(vec![attribute("cost", Held::Float(f32::from_bits(0x7fc0_0001)))]);
    let placed = Runs::place(&mut rng, runs, 6, false);
    let mut tree = Tree::default();
    tree.add(Node { name: index("__root__"), ..Node::default() });
    let node = |name: u16, key: u16, run: Option<usize>| {
        let (attr_addr, attrs): (Addr, usize) = run.map_or(((0, 0), 0), |run| placed.places[run]);
        Node { name, key_word: key << 4, attrs: attrs as u16, attr_addr, ..Node::default() }
    };
    for i in 0..3 {
        let item = tree.child(0, node(index("Item"), 1, Some(i)));
        tree.child(item, node(index("Price"), 0, Some(5 + i % 2)));
        tree.child(item, Node::default());
        tree.child(item, node(plain.len() as u16 + 1, 0, None));
        tree.child(item, node(plain.len() as u16 + 2, 0, None));
    }
    for i in 3..5 {
        tree.child(0, node(index("Quest"), 0, Some(i)));
    }
    tree.sort_children();
    let mut nodes = tree.place(&mut rng, 8, false);
    for segment in &mut nodes.segments {
        segment.slack = vec![Node { name: 0xffff, ..Node::default() }; 2];
    }
    let mut attributes = placed.region;
    attributes.segments.push(Segment::default());
    Model {
        version: 6,
        timestamp: 1_700_000_000f64.to_bits(),
        revision: 386_000,
        keys: vec![[0; 4], [index("id"), index("title"), 0, 0]],
        attributes,
        nodes,
        values: value_table,
        names: name_table,
        ..smallest().model
    }
}

fn plain_attribute(name: u16, type_word: u16, word: u32) -> Attr {
    Attr { name, type_word, word, ignored: 0 }
}

/// Two different names with one 32-bit hash.
fn names_of_one_hash(rng: &mut Rng) -> (Text, Text) {
    let base = text("LegendarySword");
    loop {
        if let Some(other) = twin(rng, &base) {
            let plain = |&c: &u16| (0x30..0x7b).contains(&c) && c != 0x3d && c != 0x5c;
            if other.iter().all(plain) && hash(&other) == hash(&base) {
                return (base, other);
            }
        }
    }
}

/// The shop with a child list that points into another node's children: 21.
fn damaged(mut shop: Model) -> Model {
    let parents: Vec<Addr> = shop
        .live()
        .into_iter()
        .filter(|&address| {
            address != (0, 0) && shop.nodes.get(address).is_some_and(|node| node.children > 0)
        })
        .collect();
    let first = shop.nodes.get(parents[0]).map(|node| node.child_addr);
    if let (Some(target), Some(last)) = (first, shop.nodes.get_mut(parents[parents.len() - 1])) {
        last.child_addr = target;
    }
    shop
}

/// Few bytes, a long outline: many nodes show one attribute range with a long
/// text of escaped characters.
fn long_outline() -> Model {
    let mut rng = Rng::new(7);
    let values = vec![vec![0x20; 60]];
    let mut tree = Tree::default();
    tree.add(Node::default());
    for _ in 0..300 {
        tree.child(0, Node { name: 1, attrs: 1, ..Node::default() });
    }
    let mut model = tidy(&mut rng, vec![text("line")], values.clone(), tree).model;
    let mut segment = Segment::default();
    segment.used.push(text_attribute(1, &values[0], model.values.list[0]));
    model.attributes.segments.push(segment);
    model
}

#[cfg(test)]
mod tests {
    use super::*;
    use second::program::{dump, to_frames};

    #[test]
    fn samples_are_what_they_say() {
        let outputs: Vec<(usize, Vec<u8>)> = all()
            .iter()
            .map(|sample| (sample.bytes.len(), dump(&to_frames(&sample.bytes))))
            .collect();
        let starts = |i: usize, words: &str| outputs[i].1.starts_with(words.as_bytes());
        assert_eq!((outputs[0].0, outputs[1].0), (6332, 6334));
        assert!(starts(0, "accepted 6332\n__root__\n"));
        assert!(starts(1, "accepted 6334\n__root__\n"));
        assert!(starts(2, "accepted "));
        assert!(starts(3, "refused 21 at "));
        assert!(starts(4, "refused 26 at "));
        assert!(starts(5, "accepted 6662\n__root__\n  Item id=i:501 title=s:Erd\\0151-"));
        assert!(starts(6, "refused 19 at 92\n"));
        assert!(outputs.iter().all(|output| output.0 <= 32_768));
        let shop = String::from_utf8_lossy(&outputs[2].1);
        for shown in ["=i:-2147483648", "=b:true", "=b:false", "=f:7fc00001", "=s:Iron\\0020sword"]
        {
            assert!(shop.contains(shown), "{shown}");
        }
    }
}
