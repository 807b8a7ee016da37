//! Damage among entries, lists, names and keys: refusals 10 and 12 to 15.

use super::strings::any_entry;
use super::{damage, replace, Damage};
use crate::collide::hash;
use crate::model::{Entry, Model, Table};
use crate::rng::Rng;
use crate::shapes::few_names;
use crate::text::text;

pub const ALL: &[Damage] = &[
    damage(10, "entry in another bucket", |model, rng| {
        let table = some_table(model, rng);
        let Some((b, e)) = any_entry(table, rng) else {
            return false;
        };
        let moved = table.buckets[b].entries.remove(e);
        let buckets = table.buckets.len();
        let to = (b + *rng.pick(&[1, buckets / 2, buckets - 1])) % buckets;
        let place = rng.between(0, table.buckets[to].entries.len());
        table.buckets[to].entries.insert(place, moved);
        true
    }),
    damage(10, "two entries of a bucket exchanged", |model, rng| {
        let table = some_table(model, rng);
        for bucket in &mut table.buckets {
            let fall = bucket.entries.windows(2).position(|two| two[0].hash < two[1].hash);
            if let Some(place) = fall {
                bucket.entries.swap(place, place + 1);
                return true;
            }
        }
        false
    }),
    damage(12, "an entry twice", |model, rng| {
        let table = some_table(model, rng);
        let Some((b, e)) = any_entry(table, rng) else {
            return false;
        };
        let entries = &mut table.buckets[b].entries;
        let twice = entries[e].clone();
        // Anywhere among the entries of its hash: A A, A B A, B A A.
        let first = entries.iter().position(|other| other.hash == twice.hash).unwrap_or(e);
        let run = entries.iter().filter(|other| other.hash == twice.hash).count();
        entries.insert(first + rng.between(0, run), twice);
        true
    }),
    damage(12, "an entry twice about one with its hash", |model, rng| {
        let table = some_table(model, rng);
        for bucket in &mut table.buckets {
            let entries = &mut bucket.entries;
            let twins = entries.windows(2).position(|two| two[0].hash == two[1].hash);
            if let Some(place) = twins {
                let twice = entries[place].clone();
                entries.insert(place + 2, twice);
                return true;
            }
        }
        false
    }),
    damage(12, "a text twice, at two places", |model, rng| {
        let values = &mut model.values;
        let Some((b, e)) = any_entry(values, rng) else {
            return false;
        };
        let chosen = values.buckets[b].entries[e].clone();
        let address = values.append(&text_of(values, &chosen));
        values.list.push(address);
        let index = values.list.len() as u32;
        let entries = &mut values.buckets[b].entries;
        entries.insert(e + rng.below(2), Entry { index, address, ..chosen });
        true
    }),
    damage(13, "a list position more", |model, rng| {
        let table = some_table(model, rng);
        let more = if table.list.is_empty() || rng.one_in(2) {
            (rng.half(), rng.half())
        } else {
            *rng.pick(&table.list)
        };
        table.list.push(more);
        true
    }),
    damage(13, "an entry less", |model, rng| {
        let table = some_table(model, rng);
        let Some((b, e)) = any_entry(table, rng) else {
            return false;
        };
        table.buckets[b].entries.remove(e);
        true
    }),
    damage(13, "two entries less", |model, rng| {
        for _ in 0..2 {
            let table = &mut model.names;
            let Some((b, e)) = any_entry(table, rng) else {
                return false;
            };
            table.buckets[b].entries.remove(e);
        }
        true
    }),
    damage(14, "a special name among the others", |model, rng| {
        let names = &mut model.names;
        let count = names.list.len();
        if count < 3 {
            return false;
        }
        let (low, high) = (rng.below(count - 2), count - 1 - rng.below(2));
        exchange_indices(names, low, high);
        true
    }),
    damage(14, "a special name misspelt", |model, rng| {
        let right = [text("__root__"), text("__value__")];
        let wrong = [text("__rooT__"), text("__valuf__")];
        let which = rng.below(2);
        respell(&mut model.names, &right[which], &wrong[which])
    }),
    damage(14, "too few names", |model, rng| {
        let sets: [&[&str]; 4] = [&[], &["__root__"], &["__value__"], &["a", "b"]];
        let chosen = *rng.pick(&sets);
        model.names = few_names(rng, chosen);
        true
    }),
    damage(15, "key 0", |model, rng| {
        model.keys[0][rng.below(4)] = 1;
        true
    }),
    damage(15, "a key's name above the names", |model, rng| {
        let above = model.names.list.len() as u16 + 1;
        let name = *rng.pick(&[above, 0xffff]);
        let place = rng.below(4);
        model.keys.push([0; 4]);
        model.keys.last_mut().is_some_and(|key| {
            key[place] = name;
            true
        })
    }),
    damage(15, "a key names `__value__`", |model, rng| {
        let wanted = text("__value__");
        let names = &model.names;
        let Some(index) = names.list.iter().position(|&address| names.text(address) == wanted)
        else {
            return false;
        };
        let mut key = [0; 4];
        key[rng.below(4)] = index as u16 + 1;
        model.keys.push(key);
        true
    }),
];

fn some_table<'a>(model: &'a mut Model, rng: &mut Rng) -> &'a mut Table {
    if rng.one_in(2) {
        &mut model.values
    } else {
        &mut model.names
    }
}

pub fn text_of(table: &Table, entry: &Entry) -> Vec<u16> {
    let used = &table.chars.segments[entry.address.0 as usize].used;
    let first = entry.address.1 as usize;
    used[first..first + entry.length as usize - 1].to_vec()
}

/// Two list positions change places, and their entries' indices with them.
fn exchange_indices(table: &mut Table, a: usize, b: usize) {
    table.list.swap(a, b);
    let (a, b) = (a as u32 + 1, b as u32 + 1);
    for entry in table.buckets.iter_mut().flat_map(|bucket| &mut bucket.entries) {
        entry.index = match entry.index {
            index if index == a => b,
            index if index == b => a,
            index => index,
        };
    }
}

/// Writes another text of the same length where a text stands, and moves its
/// entry to the bucket it then belongs to.
fn respell(table: &mut Table, right: &[u16], wrong: &[u16]) -> bool {
    let entries = table.entries();
    let found =
        entries.into_iter().find(|&(b, e)| text_of(table, &table.buckets[b].entries[e]) == right);
    let Some((b, e)) = found else {
        return false;
    };
    let entry = Entry { hash: hash(wrong), ..table.buckets[b].entries[e].clone() };
    let first = entry.address.1 as usize;
    let used = &mut table.chars.segments[entry.address.0 as usize].used;
    used[first..first + wrong.len()].copy_from_slice(wrong);
    replace(table, (b, e), entry);
    true
}
