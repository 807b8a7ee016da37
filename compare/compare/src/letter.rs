//! Files with the letter 0151, built by the rule of request T-10 and by the one of
//! before, and what acceptance has to answer.

use maker::damage;
use maker::letter::file::{Content, Lettered, Owner, Shape};
use maker::letter::order::{Scene, EDITS};
use maker::letter::plans::{plans, Plan};
use maker::letter::rule::{exchanged, Rule};
use maker::rich::Made;
use maker::rng::Rng;
use maker::text::{text, Text};

use crate::asks::{asks, every};
use crate::case::{can_take, Case};
use crate::question::Question;
use crate::told::Told;

/// A file, and what acceptance has to answer where that is known beforehand.
pub type Letter = (Case, Option<Told>);

const RULES: [Rule; 2] = [Rule::Now, Rule::Before];

/// Questions about a file that is refused, as each is answered by the refusal, and about
/// one whose texts are looked up in others.
const FEW: usize = 2;
const SOME: usize = 8;

/// Files with another fault before or after the value hash in order, files by either rule
/// without one, and files with damage of any sort.
pub fn cases(seed: u64) -> impl Iterator<Item = Letter> {
    let damaged = (0..2).flat_map(move |more| damaged(seed.wrapping_add(more)));
    edited().chain(deep()).chain(short()).chain(plans().flat_map(files)).chain(damaged)
}

fn edited() -> impl Iterator<Item = Letter> {
    EDITS.iter().flat_map(|edit| {
        RULES.map(|rule| {
            let mut scene = Scene::new(rule);
            let told = match rule {
                Rule::Before if !edit.first => (19, Some(scene.letter_at())),
                _ => (edit.aim, None),
            };
            scene.edit(edit);
            of(scene.file, told, format!("{rule:?}: {} ({})", edit.words, edit.aim))
        })
    })
}

/// The files of a plan. The first goes by the rule of now, and is accepted.
fn files(plan: Plan) -> impl Iterator<Item = Letter> {
    plan.rules().into_iter().map(move |rules| {
        let file = plan.content.file(&rules);
        let nodes = file.made.model.used_nodes() as u64;
        let told = file.refused_at().map_or((0, Some(nodes)), |at| (19, Some(at)));
        let before = (0..rules.len()).filter(|&i| rules[i] == Rule::Before);
        let words = format!("{}, before: {:?}", plan.words, before.collect::<Vec<_>>());
        let (mut case, told) = of(file, told, words);
        if plan.common {
            case.weight = case.weight.min(SOME);
        }
        (case, told)
    })
}

/// All questions about a file that is worth them.
pub fn questions(rng: &mut Rng, case: &Case) -> Vec<Question> {
    match case.weight <= SOME {
        true => asks(rng, case),
        false => every(rng, case),
    }
}

fn of(file: Lettered, (refusal, value): (u32, Option<u64>), words: String) -> Letter {
    let made = file.made;
    let mut case = asked(&made, words);
    if refusal != 0 {
        case.weight = FEW;
    }
    (case, Some(Told { refusal, value, workspace: made.model.used_nodes() }))
}

/// The file's texts, and those with 0150 for 0151 and the reverse, as names, values and
/// paths.
fn asked(made: &Made, words: String) -> Case {
    let mut case = Case::of(made, &mut Rng::new(1), words);
    // The other names are called for their number.
    case.names.retain(|name| exchanged(name) != *name);
    for texts in [&mut case.names, &mut case.values] {
        for other in texts.iter().map(|text| exchanged(text)).collect::<Vec<_>>() {
            if !texts.contains(&other) {
                texts.push(other);
            }
        }
    }
    let below = |name: &Text| [vec![name.clone()], vec![name.clone(), text("ő")]];
    case.paths = case.names.iter().flat_map(below).collect();
    case.paths.push(vec![text("erdő"), text("Ő")]);
    case
}

/// A chain of 65 nodes, whose last has the text: 22 comes after 19.
fn deep() -> impl Iterator<Item = Letter> {
    RULES.into_iter().map(|rule| {
        let texts = vec![(text("erdő"), Owner::Chain(64))];
        let shape = Shape { before: 0, stored: true, backwards: false };
        let file = Content { texts, shape, names: Vec::new() }.file(&[rule]);
        let told = file.refused_at().map_or((22, None), |at| (19, Some(at)));
        of(file, told, format!("{rule:?}: a chain of 65"))
    })
}

/// A workspace that is a byte too short: 20 comes after 19.
fn short() -> impl Iterator<Item = Letter> {
    RULES.into_iter().map(|rule| {
        let file = Scene::new(rule).file;
        let nodes = file.made.model.used_nodes();
        let told = file.refused_at().map_or((20, Some(nodes as u64)), |at| (19, Some(at)));
        let (case, known) = of(file, told, format!("{rule:?}: a short workspace"));
        (case, known.map(|known| Told { workspace: nodes - 1, ..known }))
    })
}

/// Each damage, done alike to a file of each rule.
fn damaged(seed: u64) -> impl Iterator<Item = Letter> {
    damage::all().enumerate().flat_map(move |(number, damage)| {
        RULES.into_iter().filter_map(move |rule| {
            let mut rng = Rng::new(seed.wrapping_mul(1_009).wrapping_add(number as u64));
            let mut made = Scene::new(rule).file.made;
            let mut case = asked(&made, format!("{rule:?}: {} ({})", damage.words, damage.aim));
            let done = can_take(&made.model) && damage.apply(&mut made.model, &mut rng);
            (case.bytes, case.weight) = (made.model.bytes(), FEW);
            done.then_some((case, None))
        })
    })
}

#[cfg(test)]
mod tests {
    use super::*;

    #[test]
    fn there_are_files_of_every_sort() {
        let all: Vec<Letter> = cases(1).collect();
        let told = |refusal| {
            let is_it = |known: &Option<Told>| known.is_some_and(|told| told.refusal == refusal);
            all.iter().filter(|(_, known)| is_it(known)).count()
        };
        assert!(told(0) > 500 && told(19) > 2_000, "{} {}", told(0), told(19));
        assert_eq!(told(20), 1);
        assert_eq!(told(22), 1);
        for edit in &EDITS {
            let words = format!(": {} ({})", edit.words, edit.aim);
            let edited = |case: &Case| case.words.ends_with(&words);
            assert_eq!(all.iter().filter(|(case, told)| edited(case) && told.is_some()).count(), 2);
        }
        // The file has nothing to break for a few sorts of damage.
        let done = |words: &str| {
            all.iter().any(|(case, told)| told.is_none() && case.words.contains(words))
        };
        let missing = damage::all().filter(|damage| !done(damage.words)).count();
        assert!(missing < 5, "{missing}");
    }
}
