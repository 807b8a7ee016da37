//! Damage to texts without a stored 0: lengths, hashes and addresses that another end
//! than that of the used part would give.

use super::nodes::text_shown;
use super::tables::text_of;
use super::{damage, replace, unended, Damage};
use crate::attributes::text_attribute;
use crate::collide::hash;
use crate::dropped::drop_all;
use crate::model::{Addr, Entry, Model, Segment, Table};
use crate::rng::Rng;
use crate::table::bucket_of;
use crate::text::text;

type Place = (usize, usize);

pub const ALL: &[Damage] = &[
    unended(8, "length without the dropped 0", |table, place, _| {
        set_length(table, place, |length| length - 1)
    }),
    unended(8, "length with a 0 too many", |table, place, _| {
        set_length(table, place, |length| length + 1)
    }),
    unended(8, "length 0 of a text without a stored 0", |table, place, _| {
        set_length(table, place, |_| 0)
    }),
    unended(8, "length as large as can be of a text without a stored 0", |table, place, _| {
        set_length(table, place, |_| u32::MAX)
    }),
    unended(7, "the empty text on a dropped 0", empty_on_dropped),
    unended(9, "hash over the dropped 0", |table, place, _| {
        let entry = entry_at(table, place);
        let mut text = text_of(table, &entry);
        text.push(0);
        replace(table, place, Entry { hash: hash(&text), ..entry });
        true
    }),
    unended(12, "a text with and without its stored 0", |table, place, rng| {
        repeat(table, place, rng, true)
    }),
    unended(12, "a text twice without its stored 0", |table, place, rng| {
        repeat(table, place, rng, false)
    }),
    unended(8, "length and hash up to the end of full", |table, place, rng| {
        let entry = entry_at(table, place);
        let segment = segment_of(table, &entry);
        if segment.slack.first().is_none_or(|&character| character == 0) {
            segment.slack = vec![0x61 + rng.below(26) as u16, 0x62, 0];
        }
        let more: Vec<u16> = segment.slack.iter().copied().take_while(|&c| c != 0).collect();
        lengthen(table, place, &more)
    }),
    unended(8, "length and hash on into the next segment", |table, place, _| {
        let next = entry_at(table, place).address.0 + 1;
        if next as usize == table.chars.segments.len() {
            table.chars.segments.push(Segment { used: text("next"), ..Segment::default() });
        }
        let more = table.text((next, 0));
        !more.is_empty() && lengthen(table, place, &more)
    }),
    unended(8, "the used part ends a character earlier", |table, place, _| {
        let entry = entry_at(table, place);
        if entry.length < 3 {
            return false;
        }
        let segment = segment_of(table, &entry);
        segment.slack.splice(0..0, segment.used.pop());
        true
    }),
    unended(8, "the used part ends a character later", |table, place, rng| {
        let entry = entry_at(table, place);
        segment_of(table, &entry).used.push(rng.between(1, 0xffff) as u16);
        true
    }),
    unended(8, "a 0 in the place of the last character", |table, place, _| {
        let entry = entry_at(table, place);
        segment_of(table, &entry).used.last_mut().is_some_and(|character| {
            *character = 0;
            true
        })
    }),
    damage(14, "a special name whose last character is behind the used part", |model, rng| {
        let special = if rng.one_in(2) { "__root__" } else { "__value__" };
        cut_name(&mut model.names, &text(special))
    }),
    damage(19, "text address on a dropped 0", |model, rng| {
        let Some(entry) = unended_value(model, rng) else {
            return false;
        };
        let behind = behind(&entry);
        text_shown(model, rng, |attribute, _| {
            *attribute = text_attribute(attribute.name, &[], behind)
        })
    }),
    damage(19, "value hash over a dropped 0", |model, rng| {
        let Some(entry) = unended_value(model, rng) else {
            return false;
        };
        let mut text = text_of(&model.values, &entry);
        text.push(0);
        text_shown(model, rng, |attribute, _| {
            *attribute = text_attribute(attribute.name, &text, entry.address);
        })
    }),
];

fn entry_at(table: &Table, (b, e): Place) -> Entry {
    table.buckets[b].entries[e].clone()
}

/// Where the entry's 0 would stand.
fn behind(entry: &Entry) -> Addr {
    let (segment, element) = entry.address;
    (segment, (element as usize + entry.length as usize - 1) as u16)
}

fn segment_of<'a>(table: &'a mut Table, entry: &Entry) -> &'a mut Segment<u16> {
    &mut table.chars.segments[entry.address.0 as usize]
}

/// The entries whose text ends with the used part. The empty text is never one.
fn all_unended(table: &Table) -> Vec<Place> {
    let mut all = table.entries();
    all.retain(|&place| {
        let Entry { length, address, .. } = entry_at(table, place);
        let used = table.chars.segments.get(address.0 as usize).map_or(0, |s| s.used.len());
        length > 1 && address.1 as usize + length as usize - 1 == used
    });
    all
}

/// One of them; where there is none, the last 0 of segments is left off.
pub fn any_unended(table: &mut Table, rng: &mut Rng) -> Option<Place> {
    let mut all = all_unended(table);
    if all.is_empty() && drop_all(table) > 0 {
        all = all_unended(table);
    }
    (!all.is_empty()).then(|| *rng.pick(&all))
}

fn unended_value(model: &mut Model, rng: &mut Rng) -> Option<Entry> {
    let place = any_unended(&mut model.values, rng)?;
    Some(entry_at(&model.values, place))
}

fn set_length(table: &mut Table, (b, e): Place, length: impl Fn(u32) -> u32) -> bool {
    let entry = &mut table.buckets[b].entries[e];
    entry.length = length(entry.length);
    true
}

/// Length and hash as if these characters belonged to the text.
fn lengthen(table: &mut Table, place: Place, more: &[u16]) -> bool {
    let entry = entry_at(table, place);
    let text = [text_of(table, &entry), more.to_vec()].concat();
    let length = text.len() as u32 + 1;
    replace(table, place, Entry { hash: hash(&text), length, ..entry });
    true
}

/// The empty text's own entry is moved there, or a new one is made.
fn empty_on_dropped(table: &mut Table, place: Place, rng: &mut Rng) -> bool {
    let address = behind(&entry_at(table, place));
    let mut entries = table.buckets.iter_mut().flat_map(|bucket| &mut bucket.entries);
    match entries.find(|entry| entry.length == 1) {
        Some(empty) if rng.one_in(2) => {
            empty.address = address;
            table.list[empty.index as usize - 1] = address;
        }
        _ => {
            table.list.push(address);
            let index = table.list.len() as u32;
            let bucket = bucket_of(0, table.buckets.len());
            table.buckets[bucket].entries.insert(0, Entry { hash: 0, length: 1, index, address });
        }
    }
    true
}

/// The same text again, in a segment of its own, just before or behind its entry.
fn repeat(table: &mut Table, (b, e): Place, rng: &mut Rng, stored: bool) -> bool {
    let entry = entry_at(table, (b, e));
    let mut used = text_of(table, &entry);
    if stored {
        used.push(0);
    }
    table.chars.segments.push(Segment { used, ..Segment::default() });
    let address = (table.chars.segments.len() as u16 - 1, 0);
    table.list.push(address);
    let index = table.list.len() as u32;
    let entries = &mut table.buckets[b].entries;
    entries.insert(e + rng.below(2), Entry { index, address, ..entry });
    true
}

/// The name is written again in a segment of its own, whose used part ends before its
/// last character. Its entry is right for what is left of it.
fn cut_name(names: &mut Table, right: &[u16]) -> bool {
    let found = names.entries().into_iter().find(|&(b, e)| {
        let entry = &names.buckets[b].entries[e];
        text_of(names, entry) == right
    });
    let Some(place) = found else {
        return false;
    };
    let (left, last) = right.split_at(right.len() - 1);
    let segment =
        Segment { used: left.to_vec(), slack: [last, &[0]].concat(), ..Segment::default() };
    names.chars.segments.push(segment);
    let address = (names.chars.segments.len() as u16 - 1, 0);
    let entry = entry_at(names, place);
    names.list[entry.index as usize - 1] = address;
    let length = left.len() as u32 + 1;
    replace(names, place, Entry { hash: hash(left), length, address, ..entry });
    true
}
