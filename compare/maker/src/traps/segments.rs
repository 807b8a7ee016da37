//! One ordinary content in few segments and in as many as can be.

use super::{Ask, Class, Trap, KB, MB};
use crate::large::{build, Lengths, Order, FULL_SEGMENTS};
use crate::model::Segment;
use crate::rng::Rng;
use crate::shapes::many_values;

/// Segments of a region, at most.
const MOST: usize = 65_535;

pub fn classes() -> Vec<Class> {
    let few = FULL_SEGMENTS;
    let cases = [
        ("segments-few", few),
        ("segments-attributes", Lengths { attributes: 1, ..few }),
        ("segments-nodes", Lengths { nodes: 1, ..few }),
        ("segments-characters", Lengths { characters: 1, ..few }),
        ("segments-all", Lengths { attributes: 1, nodes: 1, characters: 1 }),
    ];
    let mut classes: Vec<Class> = cases
        .into_iter()
        .map(|(name, least)| Class::new(name, 16 * MB, move |bytes| segmented(bytes, least)))
        .collect();
    classes.push(Class::new("segments-last-used", 800 * KB, last_used));
    classes
}

/// A large file in segments at least so long, and no longer than they have to be.
fn segmented(bytes: usize, least: Lengths) -> Trap {
    let megabytes = bytes.div_ceil(MB);
    let mut lengths = least;
    loop {
        let model = build(megabytes, Order::AsUsed, lengths).model;
        let fits = |segments: usize, length: &mut usize| {
            let more = segments.div_ceil(MOST);
            *length = if more > 1 { (*length * more).max(*length + 3) } else { *length };
            more <= 1
        };
        let all = [
            fits(model.attributes.segments.len(), &mut lengths.attributes),
            fits(model.nodes.segments.len(), &mut lengths.nodes),
            fits(model.values.chars.segments.len(), &mut lengths.characters),
        ];
        if all == [true; 3] {
            return Trap { model, ask: Ask::Accept, refusal: 0 };
        }
    }
}

/// Values that all stand in the last segments; those before are empty.
fn last_used(bytes: usize) -> Trap {
    let mut model = many_values(&mut Rng::new(17), bytes / 2 / 40).model;
    let chars = &mut model.values.chars;
    let before = (bytes / 2 / 8).min(MOST - chars.segments.len());
    chars.segments.splice(0..0, vec![Segment::default(); before]);
    for address in &mut model.values.list {
        address.0 += before as u16;
    }
    for bucket in &mut model.values.buckets {
        bucket.entries.iter_mut().for_each(|entry| entry.address.0 += before as u16);
    }
    Trap { model, ask: Ask::Accept, refusal: 0 }
}
