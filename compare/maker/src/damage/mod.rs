//! Damage: edits of a model, each aimed at one refusal.

mod ends;
mod layout;
mod nodes;
mod strings;
mod tables;
mod tree;

use crate::model::{Entry, Model, Table};
use crate::rng::Rng;
use crate::table::bucket_of;

/// An edit. It says whether this model had what it wanted to break.
type OfModel = fn(&mut Model, &mut Rng) -> bool;

/// The same for an entry whose text has no stored 0, told by its bucket and number.
type OfUnended = fn(&mut Table, (usize, usize), &mut Rng) -> bool;

enum Edit {
    Model(OfModel),
    Unended(OfUnended),
}

pub struct Damage {
    /// The refusal it is meant for when nothing else is broken.
    pub aim: u32,
    pub words: &'static str,
    edit: Edit,
}

const fn damage(aim: u32, words: &'static str, edit: OfModel) -> Damage {
    Damage { aim, words, edit: Edit::Model(edit) }
}

const fn unended(aim: u32, words: &'static str, edit: OfUnended) -> Damage {
    Damage { aim, words, edit: Edit::Unended(edit) }
}

impl Damage {
    /// Says whether this model had what it wanted to break.
    pub fn apply(&self, model: &mut Model, rng: &mut Rng) -> bool {
        match self.edit {
            Edit::Model(edit) => edit(model, rng),
            Edit::Unended(edit) => {
                let table = if rng.one_in(2) { &mut model.values } else { &mut model.names };
                match ends::any_unended(table, rng) {
                    Some(place) => edit(table, place, rng),
                    None => false,
                }
            }
        }
    }

    /// Whether it is an edit of an entry whose text has no stored 0.
    pub fn is_of_unended(&self) -> bool {
        matches!(self.edit, Edit::Unended(_))
    }

    /// The same edit of a certain entry.
    pub fn apply_to(&self, table: &mut Table, place: (usize, usize), rng: &mut Rng) -> bool {
        match self.edit {
            Edit::Model(_) => false,
            Edit::Unended(edit) => edit(table, place, rng),
        }
    }
}

/// All of them, by the groups of document 01.
pub fn all() -> impl Iterator<Item = &'static Damage> {
    let groups = [layout::ALL, tables::ALL, strings::ALL, ends::ALL, nodes::ALL, tree::ALL];
    groups.into_iter().flatten()
}

/// Those that deal with texts without a stored 0.
pub fn of_ends() -> impl Iterator<Item = &'static Damage> {
    ends::ALL.iter()
}

/// Puts another entry in the place of one, in the bucket that it belongs to.
fn replace(table: &mut Table, (b, e): (usize, usize), entry: Entry) {
    table.buckets[b].entries.remove(e);
    let to = bucket_of(entry.hash, table.buckets.len());
    let entries = &mut table.buckets[to].entries;
    let place = entries.iter().filter(|other| other.hash <= entry.hash).count();
    entries.insert(place, entry);
}

#[cfg(test)]
mod tests {
    use super::*;
    use crate::rich::rich;
    use second::{Loader, Marked, Right};

    /// Every edit gives its own refusal most of the time: now and then a file
    /// offers nothing to break, or the edit is harmless there.
    #[test]
    fn aims_are_met() {
        let loader: Loader<Right, Marked> = Loader::new(Right);
        for damage in all() {
            let (mut edited, mut met) = (0, 0);
            for seed in 0..150 {
                let mut rng = Rng::new(seed);
                let mut model = rich(&mut rng, 60).model;
                if !damage.apply(&mut model, &mut rng) {
                    continue;
                }
                let mut workspace = vec![0; 4096];
                let answer = loader.accept(&model.bytes(), &mut workspace);
                edited += 1;
                met += (answer.refusal == damage.aim) as u32;
            }
            assert!(edited >= 10, "{}: edited {edited}", damage.words);
            assert!(met * 2 > edited, "{}: met {met} of {edited}", damage.words);
        }
    }
}
