//! Files with crowded buckets, and what each question about them has to answer: the maker
//! knows which text has which index and address.

use maker::buckets::file::Crowded;
use maker::buckets::plans::{plans, Plan};
use maker::model::Model;
use maker::rng::Rng;
use second::Answer;

use crate::case::Case;
use crate::crowds::{questions, MIDDLING};
use crate::due::Due;
use crate::question::Ask;

/// A file, and questions about it with their answers.
pub type Told = (Case, Vec<Due>);

/// Every plan's file, and the same with a fault of 13 or of 19.
pub fn cases(seed: u64) -> impl Iterator<Item = Told> {
    plans().enumerate().flat_map(move |(number, plan)| {
        let mut rng = Rng::new(seed.wrapping_mul(7_919).wrapping_add(number as u64));
        let file = Crowded::new(&mut rng, plan.names, plan.values);
        let questions = questions(&mut rng, plan.names.shape, &file);
        let mut all = vec![(case(&file.model, format!("{plan:?}")), questions)];
        all.extend(uncarried(&mut rng, &plan, &file, number));
        all.extend(misplaced(&mut rng, &plan, &file, number));
        all
    })
}

fn case(model: &Model, words: String) -> Case {
    let (names, values, paths) = (Vec::new(), Vec::new(), Vec::new());
    Case { bytes: model.bytes(), words, names, values, paths, weight: 0 }
}

/// The acceptance of a file that is refused.
fn refused(rng: &mut Rng, (model, place): (Model, u64), number: u32, words: String) -> Told {
    let workspace = model.used_nodes();
    let answer = Answer { refusal: number, kind: 0, value: place };
    let due = Due::new(rng, workspace, Ask::Accept, answer, Vec::new());
    (case(&model, words), vec![due])
}

/// Three of some things, other ones for the next number; two where the file is large.
fn chosen<T>(all: &[T], count: usize, number: usize) -> impl Iterator<Item = &T> {
    let wished = if count > MIDDLING { 2 } else { 3 };
    let places = [number, number + all.len() / 2, number + 1].into_iter().take(wished);
    places.map(|place| &all[place % all.len()])
}

/// 13: a list position more than there are entries. It stands last, so that every other
/// one is looked for before it, or anywhere.
fn uncarried(rng: &mut Rng, plan: &Plan, file: &Crowded, number: usize) -> Vec<Told> {
    let mut all = Vec::new();
    for (of_names, strings) in [(false, &file.values), (true, &file.names)] {
        let strays = chosen(&strings.strays, plan.names.count, number);
        let strays = strays.map(|stray| (stray.words, stray.address));
        let own = strings.crowd.first().map(|&i| ("an entry's address", strings.addresses[i]));
        for (i, (words, address)) in strays.chain(own).enumerate() {
            let last = strings.texts.len();
            let position = if i == 1 { rng.below(last + 1) } else { last };
            let words = format!("{plan:?}, names: {of_names}, at {position}: {words} (13)");
            all.push(refused(rng, file.uncarried(of_names, address, position), 13, words));
        }
    }
    all
}

/// 19: a text attribute with the address of a text that has no entry. It is checked last,
/// behind all others, or is anyone's.
fn misplaced(rng: &mut Rng, plan: &Plan, file: &Crowded, number: usize) -> Vec<Told> {
    let mut all = Vec::new();
    for (i, stray) in chosen(&file.values.strays, plan.values.count, number).enumerate() {
        let last = file.attributes() - 1;
        let attribute = if i == 1 { rng.below(last + 1) } else { last };
        let words = format!("{plan:?}, attribute {attribute}: {} (19)", stray.words);
        let made = file.referring(attribute, &stray.text, stray.address);
        all.push(refused(rng, made, 19, words));
    }
    all
}

#[cfg(test)]
mod tests {
    use super::*;

    #[test]
    fn there_are_files_of_every_sort() {
        let all: Vec<(String, u32, usize)> =
            cases(1).map(|(case, due)| (case.words, due[0].answer.refusal, due.len())).collect();
        let refused = |number| all.iter().filter(|(_, refusal, _)| *refusal == number).count();
        assert_eq!(refused(0), plans().count());
        assert!(refused(13) > 5_000 && refused(19) > 2_000, "{} {}", refused(13), refused(19));
        let tried = [
            "the first hash",
            "the last hash",
            "a hash below the first",
            "a hash above the last",
            "a hash between two",
            "the hash of several",
            "a hash of an empty bucket",
            "a text that has an entry",
            "an end of a text",
            "no text",
        ];
        for words in tried {
            for number in [13, 19] {
                let end = format!(": {words} ({number})");
                assert!(all.iter().any(|(words, ..)| words.ends_with(&end)), "{end}");
            }
        }
        let questions: usize = all.iter().map(|(_, _, questions)| questions).sum();
        assert!(questions > 40_000, "{questions}");
    }
}
