//! Ordinary large files with one fault, as late as its check comes.

use super::{Ask, Class, Trap, MB};
use crate::collide::hash;
use crate::large::{build, Built, Order, FULL_SEGMENTS};
use crate::model::{Addr, Bucket, Entry, Model, Node, Segment, Table};
use crate::text::{text, Text};

/// A refusal, the words that tell it from others of its number, and the edit.
type Fault = (u32, &'static str, fn(&mut Model));

const FAULTS: [Fault; 19] = [
    (7, "", |model| last_entry(&mut model.names).address.0 = 0xffff),
    (8, "", |model| last_entry(&mut model.names).length += 1),
    (9, "", |model| last_entry(&mut model.names).hash ^= 1 << 31),
    (10, "", |model| {
        let entries = &mut last_bucket(&mut model.names, 2).entries;
        let last = entries.len() - 1;
        entries.swap(last, last - 1);
    }),
    (11, "", |model| last_entry(&mut model.names).index = 0),
    (12, "", |model| {
        let entries = &mut last_bucket(&mut model.names, 1).entries;
        entries.extend(entries.last().cloned());
    }),
    (13, "", |model| model.names.list.push((0, 0))),
    (13, "-values", |model| model.values.list.push((0, 0))),
    (14, "", |model| misspell_root(&mut model.names)),
    (15, "", |model| {
        model.keys.resize(4_096, [0; 4]);
        model.keys[4_095][3] = 0xffff;
    }),
    (16, "", |model| last_node(model).key_word = 2),
    (17, "", |model| last_node(model).attr_addr = (0xffff, 0)),
    (18, "", |model| last_attribute(model, |_| true).type_word = 0),
    (19, "", |model| last_attribute(model, |type_word| type_word & 3 == 3).type_word ^= 4),
    (20, "", |_| {}),
    (21, "", |model| {
        let node = last_node(model);
        (node.children, node.child_addr) = (1, (0, 0));
    }),
    (21, "-same-range", |model| {
        let range = model.nodes.segments[0].used[0].clone();
        let node = last_node(model);
        (node.children, node.child_addr) = (range.children, range.child_addr);
    }),
    (22, "", deepen),
    (23, "", |model| {
        let node = last_node(model);
        (node.children, node.child_addr) = (1, (0xffff, 0));
    }),
];

pub fn classes() -> Vec<Class> {
    let class = |(refusal, words, edit): Fault| {
        Class::new(&format!("late-{refusal}{words}"), MB, move |bytes| late(bytes, refusal, edit))
    };
    FAULTS.into_iter().map(class).collect()
}

fn late(bytes: usize, refusal: u32, edit: fn(&mut Model)) -> Trap {
    let Built { mut model, .. } = build(bytes.div_ceil(MB), Order::AsUsed, FULL_SEGMENTS);
    edit(&mut model);
    let ask = if refusal == 20 { Ask::AcceptShort } else { Ask::Accept };
    Trap { model, ask, refusal }
}

/// The last bucket with at least so many entries.
fn last_bucket(table: &mut Table, least: usize) -> &mut Bucket {
    let found = table.buckets.iter_mut().rfind(|bucket| bucket.entries.len() >= least);
    found.expect("a large file has full buckets")
}

fn last_entry(table: &mut Table) -> &mut Entry {
    last_bucket(table, 1).entries.last_mut().expect("the bucket has an entry")
}

fn last_address(model: &Model) -> Addr {
    let number = model.nodes.segments.len() - 1;
    (number as u16, model.nodes.segments[number].used.len() as u16 - 1)
}

fn last_node(model: &mut Model) -> &mut Node {
    let address = last_address(model);
    model.nodes.get_mut(address).expect("a large file has nodes")
}

/// The last attribute of the last node that has such a one.
fn last_attribute(model: &mut Model, wanted: impl Fn(u16) -> bool) -> &mut crate::model::Attr {
    for address in model.live().into_iter().rev() {
        let node = model.nodes.get(address).cloned().unwrap_or_default();
        let (segment, first) = node.attr_addr;
        for element in (first..first + node.attrs).rev() {
            if model.attributes.get((segment, element)).is_some_and(|a| wanted(a.type_word)) {
                return model.attributes.get_mut((segment, element)).expect("it was just read");
            }
        }
    }
    panic!("a large file has attributes of every kind")
}

/// Another spelling where `__root__` stands, with its entry in the right bucket.
fn misspell_root(names: &mut Table) {
    let (right, wrong): (Text, Text) = (text("__root__"), text("__r00t__"));
    let bucket = |hash: u32| (hash ^ (hash >> 16)) as usize % 512;
    let entries = &mut names.buckets[bucket(hash(&right))].entries;
    let place = entries.iter().position(|entry| entry.hash == hash(&right));
    let mut entry = entries.remove(place.expect("a file has the name"));
    let (segment, first) = (entry.address.0 as usize, entry.address.1 as usize);
    names.chars.segments[segment].used[first..first + wrong.len()].copy_from_slice(&wrong);
    entry.hash = hash(&wrong);
    let entries = &mut names.buckets[bucket(entry.hash)].entries;
    entries.push(entry);
    entries.sort_by_key(|entry| entry.hash);
}

/// A chain of 65 nodes that comes last in document order: it goes on from the
/// last child of the last child, and so on.
fn deepen(model: &mut Model) {
    let mut address = (0, 0);
    let mut depth = 1;
    while let Some(node) = model.nodes.get(address).filter(|node| node.children > 0) {
        address = (node.child_addr.0, node.child_addr.1 + node.children - 1);
        depth += 1;
    }
    let number = model.nodes.segments.len() as u16;
    let name = model.nodes.get(address).map_or(1, |node| node.name);
    let more = 65 - depth;
    let chain = (1..=more).map(|i| Node {
        name,
        children: (i < more) as u16,
        child_addr: (number, i),
        ..Node::default()
    });
    model.nodes.segments.push(Segment { used: chain.collect(), ..Segment::default() });
    if let Some(node) = model.nodes.get_mut(address) {
        (node.children, node.child_addr) = (1, (number, 0));
    }
}
