//! Damage to single entries: refusals 7 to 11.

use super::{damage, Damage};
use crate::model::{Entry, Model, Table};
use crate::rng::Rng;

pub const ALL: &[Damage] = &[
    damage(7, "entry's segment past the last", |model, rng| {
        entry(model, rng, |table, entry, rng| {
            entry.address.0 = table.chars.segments.len() as u16 + *rng.pick(&[0, 1, 0x7fff]);
            true
        })
    }),
    damage(7, "entry's element at the used count", |model, rng| {
        entry(model, rng, |table, entry, rng| {
            let used = table.chars.segments[entry.address.0 as usize].used.len();
            entry.address.1 = used as u16 + *rng.pick(&[0, 0, 1, 100]);
            true
        })
    }),
    damage(7, "entry in an empty segment", |model, rng| {
        entry(model, rng, |table, entry, _| {
            let empty = table.chars.segments.iter().position(|segment| segment.used.is_empty());
            entry.address = (empty.unwrap_or(0xffff) as u16, 0);
            true
        })
    }),
    damage(8, "entry's length", |model, rng| {
        entry(model, rng, |_, entry, rng| {
            let more = *rng.pick(&[1, 1, 0xffff_ffff, 0xffff_ffff, 2, 0x1_0000, 0x8000_0000]);
            entry.length = entry.length.wrapping_add(more);
            true
        })
    }),
    damage(8, "entry's length 0 or as large as can be", |model, rng| {
        entry(model, rng, |_, entry, rng| {
            entry.length = *rng.pick(&[0, 0xffff_ffff]);
            true
        })
    }),
    damage(7, "the used part ends where a text starts", |model, rng| {
        let table = if rng.one_in(2) { &mut model.values } else { &mut model.names };
        let Some((b, e)) = any_entry(table, rng) else {
            return false;
        };
        let (number, first) = table.buckets[b].entries[e].address;
        let segment = &mut table.chars.segments[number as usize];
        let mut cut = segment.used.split_off(first as usize);
        cut.append(&mut segment.slack);
        segment.slack = cut;
        true
    }),
    damage(8, "a 0 inside the text", |model, rng| {
        let table = if rng.one_in(2) { &mut model.values } else { &mut model.names };
        let Some((b, e)) = any_entry(table, rng) else {
            return false;
        };
        let chosen = &table.buckets[b].entries[e];
        if chosen.length < 2 {
            return false;
        }
        let place = chosen.address.1 as usize + rng.below(chosen.length as usize - 1);
        table.chars.segments[chosen.address.0 as usize].used[place] = 0;
        true
    }),
    damage(9, "entry's hash", |model, rng| {
        entry(model, rng, |_, entry, rng| {
            entry.hash ^= 1 << rng.below(32);
            true
        })
    }),
    damage(9, "a character of the text", |model, rng| {
        entry(model, rng, |table, entry, rng| {
            if entry.length < 2 {
                return false;
            }
            let place = entry.address.1 as usize + rng.below(entry.length as usize - 1);
            let character = &mut table.chars.segments[entry.address.0 as usize].used[place];
            let bit = 1 << rng.below(16);
            if *character == bit {
                return false;
            }
            *character ^= bit;
            true
        })
    }),
    damage(9, "hash that keeps its bucket", |model, rng| {
        entry(model, rng, |_, entry, rng| {
            let bit = rng.below(6) as u32;
            entry.hash ^= 0x1_0001 << (10 + bit);
            entry.hash ^= 1 << (10 + bit);
            true
        })
    }),
    damage(11, "entry's index outside the list", |model, rng| {
        entry(model, rng, |table, entry, rng| {
            let count = table.list.len() as u32 + 1;
            entry.index = *rng.pick(&[0, 0, count, count, count + 1, 0xffff_ffff, 0x8000_0001]);
            true
        })
    }),
    damage(11, "entry's index of another", |model, rng| {
        entry(model, rng, |table, entry, rng| {
            let before = entry.index;
            entry.index = rng.between(1, table.list.len()) as u32;
            entry.index != before
        })
    }),
    damage(11, "list address of another", |model, rng| {
        let table = if rng.one_in(2) { &mut model.values } else { &mut model.names };
        if table.list.is_empty() {
            return false;
        }
        let place = rng.below(table.list.len());
        let address = &mut table.list[place];
        *address = if rng.one_in(2) { (address.0, address.1 + 1) } else { (address.1, address.0) };
        true
    }),
    damage(11, "index that would wrap", |model, rng| {
        entry(model, rng, |_, entry, _| {
            entry.index |= 0x4000_0000;
            true
        })
    }),
];

pub fn any_entry(table: &Table, rng: &mut Rng) -> Option<(usize, usize)> {
    let all = table.entries();
    (!all.is_empty()).then(|| *rng.pick(&all))
}

/// Edits some entry of some table.
fn entry(
    model: &mut Model,
    rng: &mut Rng,
    edit: impl Fn(&mut Table, &mut Entry, &mut Rng) -> bool,
) -> bool {
    let table = if rng.one_in(2) { &mut model.values } else { &mut model.names };
    let Some((b, e)) = any_entry(table, rng) else {
        return false;
    };
    let mut chosen = table.buckets[b].entries[e].clone();
    let done = edit(table, &mut chosen, rng);
    table.buckets[b].entries[e] = chosen;
    done
}
