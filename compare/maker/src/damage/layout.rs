//! Damage to the header, counts and footer: refusals 2 to 6.

use super::{damage, Damage};
use crate::model::{Model, Region, Segment};
use crate::rng::Rng;

pub const ALL: &[Damage] = &[
    damage(3, "version", |model, rng| {
        model.version = *rng.pick(&[0, 5, 7, 0x0600_0000, 0x0106, 0x8000_0006]);
        true
    }),
    damage(4, "zero word", |model, rng| {
        let some = rng.word() | 1;
        *pick_mut(rng, &mut model.zeros) = some;
        true
    }),
    damage(4, "zero word, top bit", |model, rng| {
        *pick_mut(rng, &mut model.zeros) = 0x8000_0000;
        true
    }),
    damage(5, "key count", |model, rng| {
        let counts = [0, 4_097, 0x1_0001, 0x2000_0001, 0xffff_ffff];
        model.key_count_is = Some(*rng.pick(&counts));
        true
    }),
    damage(5, "segment count", |model, rng| {
        let count = *rng.pick(&[65_536, 0x1_0001, 0x8000_0000, 0xffff_ffff]);
        match rng.below(4) {
            0 => model.attributes.count_is = Some(count),
            1 => model.nodes.count_is = Some(count),
            2 => model.values.chars.count_is = Some(count),
            _ => model.names.chars.count_is = Some(count),
        }
        true
    }),
    damage(5, "full count", |model, rng| {
        let count = *rng.pick(&[65_536, 0x1_0000, 0x8000_0000, 0xffff_ffff]);
        any_segment(model, rng, |full, _, _| *full = Some(count))
    }),
    damage(5, "used above full", |model, rng| {
        let more = *rng.pick(&[1, 1, 2, 0x1_0000, 0xffff_0000]);
        any_segment(model, rng, |_, used, length| *used = Some(length + more))
    }),
    damage(5, "full below used", |model, rng| {
        any_segment(model, rng, |full, used, length| {
            *used = Some(length.max(1));
            *full = Some(length.max(1) - 1);
        })
    }),
    damage(5, "address count", |model, rng| {
        if rng.one_in(2) {
            model.values.count_is = Some(0);
        } else {
            model.names.count_is = Some(*rng.pick(&[0, 65_537, 0x8000_0000, 0xffff_ffff]));
        }
        true
    }),
    damage(2, "bucket count too large", |model, rng| {
        let counts = [0x1000_0000, 0x1000_0001, 0xffff_ffff, 0x0fff_ffff, 0x8000_0000, 1_000];
        let count = Some(*rng.pick(&counts));
        let table = if rng.one_in(2) { &mut model.values } else { &mut model.names };
        pick_mut(rng, &mut table.buckets).count_is = count;
        true
    }),
    damage(2, "values address count too large", |model, rng| {
        let counts = [0x4000_0001, 0x4000_0002, 0x8000_0001, 0xffff_ffff, 65_537, 65_538];
        model.values.count_is = Some(*rng.pick(&counts));
        true
    }),
    damage(2, "full count past the end", |model, rng| {
        any_segment(model, rng, |full, _, _| *full = Some(65_535))
    }),
    damage(2, "key count past the end", |model, rng| {
        model.key_count_is = Some(*rng.pick(&[4_095, 4_096]));
        true
    }),
    damage(6, "footer", |model, rng| {
        model.footer = *rng.pick(&[1, 0x0100, 0x8000_0000, 0x0100_0000, 0xffff_ffff]);
        true
    }),
    damage(6, "bytes after the footer", |model, rng| {
        model.tail = vec![rng.half() as u8 & 1; rng.between(1, 5)];
        true
    }),
    damage(6, "footer, and bytes after it", |model, _| {
        model.footer = 7;
        model.tail = vec![0; 3];
        true
    }),
];

fn pick_mut<'a, T>(rng: &mut Rng, from: &'a mut [T]) -> &'a mut T {
    let number = rng.below(from.len());
    &mut from[number]
}

/// Lets the counts of some segment of some region be told anew.
fn any_segment(
    model: &mut Model,
    rng: &mut Rng,
    tell: impl Fn(&mut Option<u32>, &mut Option<u32>, u32),
) -> bool {
    match rng.below(4) {
        0 => in_region(&mut model.attributes, rng, tell),
        1 => in_region(&mut model.nodes, rng, tell),
        2 => in_region(&mut model.values.chars, rng, tell),
        _ => in_region(&mut model.names.chars, rng, tell),
    }
}

fn in_region<T>(
    region: &mut Region<T>,
    rng: &mut Rng,
    tell: impl Fn(&mut Option<u32>, &mut Option<u32>, u32),
) -> bool {
    if region.segments.is_empty() {
        return false;
    }
    let segment: &mut Segment<T> = pick_mut(rng, &mut region.segments);
    let length = (segment.used.len() + segment.slack.len()) as u32;
    tell(&mut segment.full_is, &mut segment.used_is, length);
    true
}
