//! Files with texts that end with the used part of their segments, and what the papers
//! say of the smallest file.

use maker::damage;
use maker::ends::{ends, specs, Ends, Spec};
use maker::rng::Rng;
use maker::shapes::{smallest, smallest_stored};
use maker::text::Text;

use crate::case::{can_take, Case};
use crate::told::Told;

/// Lengths whose files are edited. Those up to 20 have files at every place of a group of
/// four, of which one is edited.
const EDITED: [usize; 9] = [1, 2, 3, 4, 5, 8, 20, 65, 4_097];

/// The files as they are, their edits, and files with damage of any other sort.
pub fn cases(seed: u64) -> impl Iterator<Item = Case> {
    let numbered = specs().into_iter().enumerate();
    numbered.flat_map(move |(number, spec)| {
        let mut rng = Rng::new(seed.wrapping_add(number as u64));
        let mut all = vec![whole(&mut rng, spec)];
        let one_place = spec.length > 20 || spec.before == spec.length % 4;
        let edited = EDITED.contains(&spec.length) && one_place;
        if edited || spec.name.is_some() {
            all.extend(edits(&mut rng, spec));
        }
        all.extend(damaged(&mut rng, spec));
        all
    })
}

fn whole(rng: &mut Rng, spec: Spec) -> Case {
    let Ends { made, .. } = ends(rng, spec);
    let mut case = Case::of(&made, rng, format!("{spec:?}"));
    case.paths = paths(&made.names, &made.tree.random_path(rng, 1));
    case
}

/// Every name, alone and followed by the name that nodes at the second level bear.
fn paths(names: &[Text], chain: &[u16]) -> Vec<Vec<Text>> {
    let below = chain.last().map_or(Text::new(), |&index| names[index as usize - 1].clone());
    let two = |name: &Text| [vec![name.clone()], vec![name.clone(), below.clone()]];
    names.iter().flat_map(two).collect()
}

/// Each edit of an entry, among values and among names, and those of other things.
fn edits(rng: &mut Rng, spec: Spec) -> Vec<Case> {
    let mut all = Vec::new();
    for damage in damage::of_ends() {
        for of_names in [false, true] {
            let Ends { mut made, value, name } = ends(rng, spec);
            let case = Case::of(&made, rng, String::new());
            let model = &mut made.model;
            let done = if damage.is_of_unended() {
                let (table, at) = match of_names {
                    true => (&mut model.names, name),
                    false => (&mut model.values, value),
                };
                let place = table.entry_of(at);
                damage.apply_to(table, place, rng)
            } else {
                damage.apply(model, rng)
            };
            if done {
                let part = if of_names { "names" } else { "values" };
                let words = format!("{spec:?}, {part}: {} ({})", damage.words, damage.aim);
                all.push(case.with(made.model.bytes(), words));
            }
        }
    }
    all
}

/// One edit of any sort behind the layout's.
fn damaged(rng: &mut Rng, spec: Spec) -> Option<Case> {
    let Ends { mut made, .. } = ends(rng, spec);
    let case = Case::of(&made, rng, String::new());
    let all: Vec<_> = damage::all().filter(|damage| damage.aim > 6).collect();
    let damage = *rng.pick(&all);
    let done = can_take(&made.model) && damage.apply(&mut made.model, rng);
    let words = format!("{spec:?}: {} ({})", damage.words, damage.aim);
    done.then(|| case.with(made.model.bytes(), words))
}

/// The smallest file, with its last 0 and without, a byte less and a byte more: what
/// acceptance has to answer.
pub fn fixed() -> Vec<(Case, Told)> {
    let told = |refusal, value| Told { refusal, value: Some(value), workspace: 1 };
    let mut all = Vec::new();
    for (made, length) in [(smallest(), 6_332), (smallest_stored(), 6_334)] {
        let case = Case::of(&made, &mut Rng::new(0), format!("smallest of {length} bytes"));
        let mut resized = |bytes: usize, told: Told| {
            let mut file = case.bytes.clone();
            file.resize(bytes, 0);
            all.push((case.with(file, format!("{}, now {bytes}", case.words)), told));
        };
        resized(length, told(0, 1));
        resized(length - 1, told(2, length as u64 - 4));
        resized(length + 1, told(6, length as u64));
        resized(0, told(2, 0));
    }
    all
}

#[cfg(test)]
mod tests {
    use super::*;

    #[test]
    fn smallest_files_have_their_lengths() {
        let lengths: Vec<usize> = fixed().iter().map(|(case, _)| case.bytes.len()).collect();
        assert_eq!(lengths, [6_332, 6_331, 6_333, 0, 6_334, 6_333, 6_335, 0]);
        assert_eq!(smallest().model.bytes().len(), 6_332);
        assert_eq!(smallest_stored().model.bytes().len(), 6_334);
    }

    #[test]
    fn there_are_files_of_every_sort() {
        let words: Vec<String> = cases(1).map(|case| case.words).collect();
        assert!(words.len() > 2_000, "{}", words.len());
        for damage in damage::of_ends() {
            let count = words.iter().filter(|words| words.contains(damage.words)).count();
            assert!(count > 50, "{}: {count}", damage.words);
        }
        for length in EDITED {
            let start = format!("Spec {{ length: {length}, ");
            let edited = |words: &&String| {
                words.starts_with(&start) && words.contains("with and without its stored 0")
            };
            assert!(words.iter().filter(edited).count() >= 24, "{length}");
        }
    }
}
