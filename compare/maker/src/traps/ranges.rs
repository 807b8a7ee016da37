//! Ranges that many nodes share, and texts that many attributes share.

use super::parts::{
    left, names, nodes_of_ranges, tree, whole_ranges, Characters, Parts, ATTRIBUTE, ENTRY, FULL,
    NAME, NODE,
};
use super::{Ask, Class, Trap, KB, MB};
use crate::attributes::text_attribute;
use crate::collide::hash;
use crate::model::{Addr, Attr, Node};
use crate::rng::Rng;
use crate::table::{string_table, Placed};
use crate::text::{letters, Text};

pub fn classes() -> Vec<Class> {
    let shared = |stray, suffixes| move |bytes| shared_range(bytes, stray, suffixes).accepted();
    vec![
        Class::new("shared-range-stray", 25 * KB, shared(true, false)),
        Class::new("shared-range", 25 * KB, shared(false, false)),
        Class::new("shared-range-suffixes", 50 * KB, shared(true, true)),
        Class::new("shared-range-outline-length", 25 * KB, |bytes| {
            shared_range(bytes, false, false).trap(Ask::OutlineLength, 26)
        }),
        Class::new("one-long-text", MB, one_long_text),
        Class::new("many-long-texts", MB, many_long_texts),
        Class::new("overlapping-numbers", MB, overlapping_numbers),
        Class::new("many-shared-ranges", 4 * MB, many_shared_ranges),
        Class::new("overlapping-children", MB, overlapping_children),
        Class::new("long-name-outline-length", 250 * KB, long_name),
    ]
}

/// A value of so many characters.
fn long_text(characters: usize) -> Text {
    letters(&mut Rng::new(11), characters, characters)
}

/// Every node has the same text attributes: as much of the file as there are
/// nodes goes into the attributes with their names, and as much into one text.
/// The attributes are that text, or else its many ends, which are values too.
/// One attribute more, which no node has, may be wrong.
fn shared_range(bytes: usize, stray: bool, suffixes: bool) -> Parts {
    let part = left(bytes) / 3;
    let each = NAME + ATTRIBUTE + if suffixes { ENTRY } else { 0 };
    let count = (part / each).min(FULL - 10);
    let long = long_text((part / 2).clamp(2 * count, FULL - 1));
    let mut characters = Characters::default();
    let (segment, first) = characters.put(&long);
    let ends = if suffixes { count } else { 1 };
    let end = |i: usize| Placed {
        hash: hash(&long[i..]),
        characters: long.len() - i,
        address: (segment, first + i as u16),
    };
    let placed: Vec<Placed> = (0..ends).map(end).collect();
    let value = |i: usize| text_attribute(0, &long[i..], placed[i].address);
    let values: Vec<Attr> = (0..ends).map(value).collect();
    let attribute = |i: usize| Attr { name: i as u16 + 1, ..values[i % ends].clone() };
    let mut attributes: Vec<Attr> = (0..count).map(attribute).collect();
    if stray {
        attributes.push(Attr { type_word: attributes[0].type_word ^ 4, ..attributes[0].clone() });
    }
    let node = Node { name: 1, attrs: count as u16, ..Node::default() };
    Parts {
        attributes: whole_ranges(attributes, 1),
        nodes: tree(vec![node; part / NODE]),
        values: string_table(characters.region, placed, 1024),
        ..Parts::new(names(count))
    }
}

/// Attributes of nodes of their own, all with one text as long as can be.
fn one_long_text(bytes: usize) -> Trap {
    const EACH: usize = 8;
    let characters = (left(bytes) / 4).min(FULL - 1);
    let long = long_text(characters);
    let mut chars = Characters::default();
    let placed = chars.placed(&long);
    let address = placed.address;
    let nodes = left(bytes).saturating_sub(2 * characters) / (NODE + EACH * ATTRIBUTE);
    let attribute = text_attribute(1, &long, address);
    let named = |i| Attr { name: (i % EACH) as u16 + 1, ..attribute.clone() };
    let attributes = whole_ranges((0..nodes * EACH).map(named).collect(), EACH);
    Parts {
        nodes: tree(nodes_of_ranges(&attributes, EACH)),
        attributes,
        values: string_table(chars.region, vec![placed], 1024),
        ..Parts::new(names(EACH))
    }
    .accepted()
}

/// Attributes of nodes of their own, each with one of the texts of 4,000 characters
/// that half of the file is made of.
fn many_long_texts(bytes: usize) -> Trap {
    const EACH: usize = 8;
    const LENGTH: usize = 4_000;
    let mut rng = Rng::new(18);
    let part = left(bytes) / 2;
    let texts: Vec<Text> =
        (0..part.div_ceil(2 * LENGTH)).map(|_| letters(&mut rng, LENGTH, LENGTH)).collect();
    let mut chars = Characters::default();
    let placed: Vec<Placed> = texts.iter().map(|text| chars.placed(text)).collect();
    let attribute = |text: &Text, placed: &Placed| text_attribute(1, text, placed.address);
    let each: Vec<Attr> = texts.iter().zip(&placed).map(|(t, p)| attribute(t, p)).collect();
    let named = |i| Attr { name: (i % EACH) as u16 + 1, ..rng.pick(&each).clone() };
    let nodes = part / (NODE + EACH * ATTRIBUTE);
    let attributes = whole_ranges((0..nodes * EACH).map(named).collect(), EACH);
    Parts {
        nodes: tree(nodes_of_ranges(&attributes, EACH)),
        attributes,
        values: string_table(chars.region, placed, 1024),
        ..Parts::new(names(EACH))
    }
    .accepted()
}

fn number(name: usize) -> Attr {
    Attr { name: name as u16, type_word: 1, word: name as u32, ignored: 0 }
}

/// One run of numbers with rising names, and nodes that each have half of it,
/// from another place on.
fn overlapping_numbers(bytes: usize) -> Trap {
    let count = (left(bytes) / 3 / (NAME + ATTRIBUTE)).min(FULL - 10);
    let half = count / 2;
    let nodes = (left(bytes) - count * (NAME + ATTRIBUTE)) / NODE;
    // By turns further up and further down than the ranges before.
    let start = |i: usize| match i % 2 {
        0 => half / 2 - i / 2 % (half / 2),
        _ => i % half,
    };
    let node = |i: usize| Node {
        name: 1,
        attrs: half as u16,
        attr_addr: (0, start(i) as u16),
        ..Node::default()
    };
    Parts {
        attributes: whole_ranges((1..=count).map(number).collect(), count),
        nodes: tree((0..nodes).map(node).collect()),
        ..Parts::new(names(count))
    }
    .accepted()
}

/// Up to 3,000 runs of numbers, each of them shared by many nodes: more than a
/// small table of ranges can hold.
fn many_shared_ranges(bytes: usize) -> Trap {
    let part = left(bytes) / 2;
    let count = (part / ATTRIBUTE / 4).min(3_000);
    let each = (part / count / ATTRIBUTE).min(2_000);
    let attributes = (0..count * each).map(|i| number(i % each + 1)).collect();
    let attributes = whole_ranges(attributes, each);
    let shared = nodes_of_ranges(&attributes, each);
    let mut rng = Rng::new(12);
    let nodes = (0..part / NODE).map(|_| rng.pick(&shared).clone()).collect();
    Parts { attributes, nodes: tree(nodes), ..Parts::new(names(each)) }.accepted()
}

/// Nodes whose child ranges are half of their segment, each from another place
/// on. Refused with 21 at the second; before that every range has been checked
/// for the order of its names.
fn overlapping_children(bytes: usize) -> Trap {
    let mut nodes = tree(vec![Node { name: 1, ..Node::default() }; left(bytes) / NODE]);
    for (s, segment) in nodes.segments.iter_mut().enumerate().skip(1) {
        let half = segment.used.len() / 2;
        for (i, node) in segment.used.iter_mut().enumerate() {
            let start: Addr = (s as u16, (half - i % (half + 1)) as u16);
            (node.children, node.child_addr) = (half as u16, start);
        }
    }
    nodes.segments[0].used.truncate(1);
    nodes.segments[0].used[0].children = 0;
    Parts { nodes, ..Parts::new(names(1)) }.trap(Ask::Accept, 21)
}

/// Nodes that all have one name as long as can be.
fn long_name(bytes: usize) -> Trap {
    let characters = (left(bytes) / 4).min(FULL - 1);
    let nodes = (left(bytes) - 2 * characters) / NODE;
    let node = Node { name: 1, ..Node::default() };
    Parts { nodes: tree(vec![node; nodes]), ..Parts::new(vec![long_text(characters)]) }
        .trap(Ask::OutlineLength, 26)
}
