//! Damage to nodes and attributes: refusals 16 to 19 and 23.

use second::hashes::string_hash;

use super::{damage, Damage};
use crate::attributes::text_attribute;
use crate::letter::rule::Rule;
use crate::model::{Addr, Attr, Model, Node, Region};
use crate::rng::Rng;
use crate::text::to_bytes;

pub const ALL: &[Damage] = &[
    damage(16, "no nodes", |model, _| {
        model.nodes.segments.clear();
        true
    }),
    damage(16, "first node segment empty", |model, _| {
        model.nodes.segments.insert(0, Default::default());
        true
    }),
    damage(16, "root's name", |model, rng| {
        let name = rng.between(0, model.names.list.len()) as u16;
        let root = &mut model.nodes.segments[0].used[0];
        let before = root.name;
        root.name = name;
        name != before
    }),
    damage(16, "root with attributes", |model, rng| {
        model.nodes.segments[0].used[0].attrs = *rng.pick(&[1, 0xffff]);
        true
    }),
    damage(16, "a name above the names", |model, rng| {
        let above = model.names.list.len() as u16 + 1;
        let name = *rng.pick(&[above, above, 0xffff]);
        live(model, rng, |node| node.name = name)
    }),
    damage(16, "flags", |model, rng| {
        let flags = *rng.pick(&[2, 3, 4, 8, 15]);
        live(model, rng, |node| node.key_word = node.key_word & !15 | flags)
    }),
    damage(16, "key index", |model, rng| {
        let keys = model.keys.len() as u16;
        let index = *rng.pick(&[keys, keys, keys + 1, 0xfff]);
        live(model, rng, |node| node.key_word = index << 4 | node.key_word & 15)
    }),
    damage(17, "attribute range one too long", |model, rng| {
        with_attributes(model, rng, |node, used, rng| {
            node.attrs = (used - node.attr_addr.1 as usize) as u16 + *rng.pick(&[1, 1, 2, 900]);
        })
    }),
    damage(17, "attribute segment", |model, rng| {
        let segment = model.attributes.segments.len() as u16 + *rng.pick(&[0, 0, 1, 0x7fff]);
        with_attributes(model, rng, |node, _, _| node.attr_addr.0 = segment)
    }),
    damage(17, "attribute range that would wrap", |model, rng| {
        with_attributes(model, rng, |node, _, _| {
            node.attrs = 0xffff;
            node.attr_addr.1 = 0xffff;
        })
    }),
    damage(18, "attribute name 0 or above the names", |model, rng| {
        let above = model.names.list.len() as u16 + 1;
        let name = *rng.pick(&[0, 0, above, above, 0xffff]);
        shown(model, rng, |attribute, _| attribute.name = name)
    }),
    damage(18, "attribute name not rising", |model, rng| {
        let mut nodes = model.live();
        nodes.retain(|&address| model.nodes.get(address).is_some_and(|node| node.attrs > 1));
        if nodes.is_empty() {
            return false;
        }
        let Some(node) = model.nodes.get(*rng.pick(&nodes)).cloned() else {
            return false;
        };
        let at = (node.attr_addr.0, node.attr_addr.1 + rng.below(node.attrs as usize - 1) as u16);
        let Some(name) = model.attributes.get(at).map(|attribute| attribute.name) else {
            return false;
        };
        let lower = rng.below(2) as u16;
        model.attributes.get_mut((at.0, at.1 + 1)).is_some_and(|attribute| {
            attribute.name = name - lower.min(name - 1);
            true
        })
    }),
    damage(18, "type 0", |model, rng| shown(model, rng, |attribute, _| attribute.type_word &= !3)),
    damage(18, "extended code of a number", |model, rng| {
        shown(model, rng, |attribute, rng| {
            attribute.type_word = *rng.pick(&[6, 9, 13, 0x8001, 0xfffd, 0x8002, 0x4002, 10]);
        })
    }),
    damage(18, "truth word", |model, rng| {
        shown(model, rng, |attribute, rng| {
            attribute.type_word = 5;
            attribute.word = *rng.pick(&[2, 0x100, 0x101, 0x1_0000, 0x0100_0001, 0xffff_ffff]);
        })
    }),
    damage(18, "`__value__` not a text", |model, rng| {
        let (count, kind) = (model.names.list.len() as u16, *rng.pick(&[1, 2]));
        let mut last = model.live();
        last.retain(|&address| model.nodes.get(address).is_some_and(|node| node.attrs > 0));
        if last.is_empty() {
            return false;
        }
        // One of the two highest names is `__value__`; the range's last
        // attribute can take either.
        let chosen = model.nodes.get(*rng.pick(&last)).cloned().unwrap_or_default();
        let at = (chosen.attr_addr.0, chosen.attr_addr.1 + chosen.attrs - 1);
        let name = value_name(model).unwrap_or(count);
        model.attributes.get_mut(at).is_some_and(|attribute| {
            *attribute = Attr { name, type_word: kind, word: 0, ignored: 0 };
            true
        })
    }),
    damage(19, "text address that is no entry's", |model, rng| {
        let segments = model.values.chars.segments.len() as u32;
        text_shown(model, rng, |attribute, rng| {
            attribute.word = match rng.below(4) {
                0 => attribute.word.wrapping_add(0x1_0000),
                1 => attribute.word | 0xffff_0000,
                2 => attribute.word & 0xffff_0000 | segments,
                _ => attribute.word.rotate_left(16) ^ 0x0300_0000,
            };
        })
    }),
    damage(19, "extended code of a text", |model, rng| {
        text_shown(model, rng, |attribute, rng| attribute.type_word ^= 4 << rng.below(14))
    }),
    damage(19, "value hash without the fold", |model, rng| {
        let chars = model.values.chars.clone();
        text_shown(model, rng, |attribute, _| {
            let address = (attribute.word as u16, (attribute.word >> 16) as u16);
            let text = text_at(&chars, address).unwrap_or(&[]);
            let plain = string_hash(&to_bytes(text)) as u16 & 0x3fff;
            attribute.type_word = plain << 2 | 3;
        })
    }),
    damage(19, "value hash by the fold of before", |model, rng| {
        let chars = model.values.chars.clone();
        let told = |attribute: &Attr| {
            let address = (attribute.word as u16, (attribute.word >> 16) as u16);
            let before = Rule::Before.value_hash(text_at(&chars, address).unwrap_or(&[]));
            (attribute.type_word & 3 == 3).then_some(before << 2 | 3)
        };
        let differs =
            |attribute: &Attr| told(attribute).is_some_and(|it| it != attribute.type_word);
        edit_attribute(model, rng, differs, |attribute, _| {
            attribute.type_word = told(attribute).unwrap_or_default();
        })
    }),
    damage(19, "address inside a text, with that end's value hash", |model, rng| {
        let chars = model.values.chars.clone();
        text_shown(model, rng, |attribute, _| {
            let address = (attribute.word as u16, (attribute.word >> 16) as u16 + 1);
            if let Some(end) = text_at(&chars, address) {
                *attribute = text_attribute(attribute.name, end, address);
            }
        })
    }),
    damage(23, "child range one too long", |model, rng| {
        let used: Vec<usize> = model.nodes.segments.iter().map(|s| s.used.len()).collect();
        let more = *rng.pick(&[1, 1, 2, 500]);
        parent(model, rng, |node| {
            let (segment, element) = node.child_addr;
            node.children = (used[segment as usize] - element as usize) as u16 + more;
        })
    }),
    damage(23, "child range in the slack", |model, rng| {
        let number = rng.below(model.nodes.segments.len());
        let segment = &mut model.nodes.segments[number];
        let child_addr = (number as u16, segment.used.len() as u16);
        segment.slack.insert(0, Node { name: rng.below(2) as u16, ..Node::default() });
        live(model, rng, |node| {
            node.child_addr = child_addr;
            node.children = 1;
        })
    }),
    damage(23, "child segment", |model, rng| {
        let segment = model.nodes.segments.len() as u16 + *rng.pick(&[0, 0, 1, 0x7fff]);
        parent(model, rng, |node| node.child_addr.0 = segment)
    }),
    damage(23, "child range that would wrap", |model, rng| {
        parent(model, rng, |node| {
            node.children = 0xffff;
            node.child_addr.1 = 0xffff;
        })
    }),
    damage(23, "children's names fall", |model, rng| {
        let mut parents = model.live();
        rng.shuffle(&mut parents);
        for address in parents {
            let Some(node) = model.nodes.get(address).cloned() else {
                continue;
            };
            let (segment, first) = (node.child_addr.0 as usize, node.child_addr.1 as usize);
            if node.children < 2 {
                continue;
            }
            let children =
                &mut model.nodes.segments[segment].used[first..first + node.children as usize];
            let fall =
                children.windows(2).position(|two| two[0].name != 0 && two[0].name < two[1].name);
            if let Some(place) = fall {
                let (one, other) = (children[place].name, children[place + 1].name);
                children[place].name = other;
                children[place + 1].name = one;
                return true;
            }
        }
        false
    }),
];

/// The text at an address of the value characters, if it resolves.
fn text_at(chars: &Region<u16>, address: Addr) -> Option<&[u16]> {
    let used = chars.segments.get(address.0 as usize)?.used.get(address.1 as usize..)?;
    let zero = used.iter().position(|&character| character == 0);
    (!used.is_empty()).then(|| &used[..zero.unwrap_or(used.len())])
}

fn value_name(model: &Model) -> Option<u16> {
    let count = model.names.list.len() as u16;
    (count.max(2) - 1..=count).find(|&index| {
        let (segment, element) = model.names.list[index as usize - 1];
        let used = &model.names.chars.segments[segment as usize].used;
        used.get(element as usize + 2) == Some(&0x76)
    })
}

/// Edits some live node other than the root, if there is one.
fn live(model: &mut Model, rng: &mut Rng, edit: impl Fn(&mut Node)) -> bool {
    edit_node(model, rng, |_, address| address != (0, 0), |node, _| edit(node))
}

fn parent(model: &mut Model, rng: &mut Rng, edit: impl Fn(&mut Node)) -> bool {
    edit_node(model, rng, |node, _| node.children > 0, |node, _| edit(node))
}

fn with_attributes(
    model: &mut Model,
    rng: &mut Rng,
    edit: impl Fn(&mut Node, usize, &mut Rng),
) -> bool {
    let used: Vec<usize> = model.attributes.segments.iter().map(|s| s.used.len()).collect();
    edit_node(
        model,
        rng,
        |node, _| node.attrs > 0,
        |node, rng| edit(node, used[node.attr_addr.0 as usize], rng),
    )
}

fn edit_node(
    model: &mut Model,
    rng: &mut Rng,
    fits: impl Fn(&Node, Addr) -> bool,
    edit: impl Fn(&mut Node, &mut Rng),
) -> bool {
    let mut all = model.live();
    all.retain(|&address| model.nodes.get(address).is_some_and(|node| fits(node, address)));
    if all.is_empty() {
        return false;
    }
    let chosen = *rng.pick(&all);
    model.nodes.get_mut(chosen).is_some_and(|node| {
        edit(node, rng);
        true
    })
}

/// Edits some attribute that a live node shows.
fn shown(model: &mut Model, rng: &mut Rng, edit: impl Fn(&mut Attr, &mut Rng)) -> bool {
    edit_attribute(model, rng, |_| true, edit)
}

pub fn text_shown(model: &mut Model, rng: &mut Rng, edit: impl Fn(&mut Attr, &mut Rng)) -> bool {
    edit_attribute(model, rng, |attribute| attribute.type_word & 3 == 3, edit)
}

fn edit_attribute(
    model: &mut Model,
    rng: &mut Rng,
    fits: impl Fn(&Attr) -> bool,
    edit: impl Fn(&mut Attr, &mut Rng),
) -> bool {
    let mut all: Vec<Addr> = Vec::new();
    for node in model.live().into_iter().filter_map(|address| model.nodes.get(address)) {
        let range = (0..node.attrs).map(|i| (node.attr_addr.0, node.attr_addr.1.wrapping_add(i)));
        all.extend(range.filter(|&address| model.attributes.get(address).is_some_and(&fits)));
    }
    if all.is_empty() {
        return false;
    }
    let chosen = *rng.pick(&all);
    model.attributes.get_mut(chosen).is_some_and(|attribute| {
        edit(attribute, rng);
        true
    })
}
