//! Files that are made to be slow, and the question that is slow on each.
//!
//! All of them keep to the format's limits. Most are accepted; a class that is
//! refused says so. Each class can be made in any size, so that one sees how the
//! time grows with it.

mod late;
pub(crate) mod parts;
mod ranges;
mod segments;
mod texts;
mod trees;

use crate::model::Model;

/// The question whose time is measured.
#[derive(Clone, Debug, PartialEq, Eq)]
pub enum Ask {
    Accept,
    /// Acceptance with a workspace that is a byte too short.
    AcceptShort,
    /// The values that these texts are, all in one question.
    Batch(Vec<u8>),
    /// The same, a question for each text.
    Singles(Vec<u8>),
    /// A path, with room for every node.
    Path(Vec<u8>),
    /// The outline, with room for so many bytes.
    Outline(usize),
    /// The outline's length alone: no room is lent.
    OutlineLength,
}

/// A file, the question, and the refusal it gets, 0 for none.
pub struct Trap {
    pub model: Model,
    pub ask: Ask,
    pub refusal: u32,
}

/// Files of one sort.
pub struct Class {
    pub name: String,
    /// Bytes of the smallest file that is measured; the others have 4 and 16
    /// times as many.
    pub smallest: usize,
    make: Box<dyn Fn(usize) -> Trap>,
}

impl Class {
    fn new(name: &str, smallest: usize, make: impl Fn(usize) -> Trap + 'static) -> Class {
        Class { name: name.to_string(), smallest, make: Box::new(make) }
    }

    /// A file of about so many bytes. The smallest file has 6,332, and a large
    /// ordinary one about a million.
    pub fn make(&self, bytes: usize) -> Trap {
        (self.make)(bytes)
    }
}

const KB: usize = 1_000;
const MB: usize = 1_000_000;

/// The classes that can be made small.
pub fn of_any_size() -> Vec<Class> {
    let mut all = ranges::classes();
    all.extend(texts::classes());
    all.extend(trees::classes());
    all
}

pub fn all() -> Vec<Class> {
    let mut all = of_any_size();
    all.extend(segments::classes());
    all.extend(late::classes());
    all
}

#[cfg(test)]
mod tests {
    use super::*;
    use crate::damage;
    use crate::rng::Rng;
    use second::{Answer, Careful, Index, Loader, Marked, Plain, Right, Which};

    fn ask<I: Index>(trap: &Trap, file: &[u8]) -> Answer {
        let loader: Loader<Right, I> = Loader::new(Right);
        let nodes = trap.model.used_nodes();
        let mut ws = vec![0; nodes];
        match &trap.ask {
            Ask::Accept => loader.accept(file, &mut ws),
            Ask::AcceptShort => loader.accept(file, &mut ws[1..]),
            Ask::Batch(texts) => {
                let mut answers = vec![1; 4 * texts.len()];
                let answer = loader.batch(Which::Values, file, &mut ws, texts, &mut answers);
                let mut answered = answers.chunks_exact(8).take(answer.value as usize);
                assert!(answered.all(|place| place[..4] != [1, 0, 0, 0]), "a text is absent");
                answer
            }
            Ask::Singles(texts) => {
                let length = texts.chunks_exact(2).position(|pair| pair == [0, 0]);
                let first = &texts[..2 * length.expect("texts end in a 0")];
                let answer = loader.single(Which::Values, file, &mut ws, first);
                assert_ne!(answer.kind, 1, "a text is absent");
                answer
            }
            Ask::Path(path) => {
                let answer = loader.path(file, &mut ws, path, &mut vec![0; 4 * nodes]);
                assert!(answer.value > 0, "a path matches nothing");
                answer
            }
            Ask::Outline(room) => loader.outline(file, &mut ws, &mut vec![0; *room]),
            Ask::OutlineLength => loader.outline(file, &mut ws, &mut []),
        }
    }

    /// The indexed form is never careful, and another always is.
    fn ask_all(trap: &Trap, words: &str) -> Answer {
        let file = trap.model.bytes();
        let answer = ask::<Plain>(trap, &file);
        assert_eq!(answer, ask::<Marked>(trap, &file), "{words}");
        assert_eq!(answer, ask::<Careful>(trap, &file), "{words}");
        answer
    }

    #[test]
    fn traps_are_what_they_say() {
        for class in all() {
            let trap = class.make(class.smallest.min(100 * KB));
            let answer = ask_all(&trap, &class.name);
            assert_eq!(answer.refusal, trap.refusal, "{}: {answer:?}", class.name);
        }
    }

    /// Each text of these classes collides with all values.
    #[test]
    fn collided_texts_tell_all_values() {
        let loader: Loader<Right, Plain> = Loader::new(Right);
        for class in of_any_size().iter().filter(|class| class.name.starts_with("collided")) {
            let trap = class.make(100 * KB);
            let (Ask::Batch(texts) | Ask::Singles(texts)) = &trap.ask else {
                panic!("{} asks for no texts", class.name);
            };
            let (file, mut answers) = (trap.model.bytes(), vec![1; 4 * texts.len()]);
            let ws = &mut vec![0; trap.model.used_nodes()];
            let answer = loader.batch(Which::Values, &file, ws, texts, &mut answers);
            let all = [2, trap.model.values.list.len() as u32].map(u32::to_le_bytes).concat();
            let mut answered = answers.chunks_exact(8).take(answer.value as usize);
            assert!(answer.value > 0 && answered.all(|place| place == all), "{}", class.name);
        }
    }

    /// Texts stay what they are, and where they are, so answers do too.
    #[test]
    fn dropped_zeros_change_no_answer() {
        let mut rng = Rng::new(22);
        for class in of_any_size() {
            let mut trap = class.make(60 * KB);
            let stored = ask_all(&trap, &class.name);
            trap.model.drop_some(&mut rng);
            let dropped = ask_all(&trap, &class.name);
            assert_eq!(stored.refusal, dropped.refusal, "{}", class.name);
            assert!(stored == dropped || stored.refusal != 0, "{}", class.name);
        }
    }

    #[test]
    fn damaged_traps_are_refused_alike() {
        let mut rng = Rng::new(21);
        let damages: Vec<_> = damage::all().filter(|damage| damage.aim > 6).collect();
        let mut refused = 0;
        for class in of_any_size() {
            let mut trap = class.make(150 * KB);
            trap.ask = Ask::Accept;
            for _ in 0..3 {
                let damage = *rng.pick(&damages);
                let whole = trap.model.clone();
                damage.apply(&mut trap.model, &mut rng);
                refused += (ask_all(&trap, &class.name).refusal != 0) as u32;
                trap.model = whole;
            }
        }
        assert!(refused > 40, "{refused}");
    }

    /// Crowds of more entries than the second loader's table of texts holds.
    #[test]
    fn repeats_are_found_wherever_they_stand() {
        let places = [(0, 1), (0, 14_999), (7, 13_000), (12_287, 12_288), (13_000, 14_000)];
        for (first, second) in places {
            for trap in texts::with_repeats(15_000, &[(first, second), (first, 14_999)]) {
                let words = format!("{first} and {second}");
                assert_eq!(ask_all(&trap, &words).refusal, 12, "{words}");
            }
        }
    }

    #[test]
    fn sizes_are_about_right() {
        for class in of_any_size() {
            for size in [12 * KB, 100 * KB] {
                let bytes = class.make(size).model.bytes().len();
                assert!((size / 2..2 * size).contains(&bytes), "{}: {bytes}", class.name);
            }
        }
    }

    #[test]
    fn names_differ() {
        let mut names: Vec<String> = all().into_iter().map(|class| class.name).collect();
        let count = names.len();
        names.sort();
        names.dedup();
        assert_eq!(names.len(), count);
    }
}
