//! Files in which texts have the hash of others, and what each question about them has to
//! answer: the maker knows which texts a table has, and how many have each hash.

use maker::collided::file::{Collided, Strings, BELOW};
use maker::collided::plans::{plans, Long, Plan};
use maker::rng::Rng;
use maker::text::{text, to_bytes, Text};
use second::{Answer, Which};

use crate::case::Case;
use crate::due::{list, places, told, Due};
use crate::question::Ask;

/// Every plan's file, and questions about it with their answers.
pub fn cases(seed: u64) -> impl Iterator<Item = (Case, Vec<Due>)> {
    plans().enumerate().map(move |(number, plan)| {
        let mut rng = Rng::new(seed.wrapping_mul(6_007).wrapping_add(number as u64));
        let file = Collided::new(&mut rng, &plan);
        let due = questions(&mut rng, &plan, &file);
        let (names, values, paths) = (Vec::new(), Vec::new(), Vec::new());
        let bytes = file.model.bytes();
        (Case { bytes, words: format!("{plan:?}"), names, values, paths, weight: 0 }, due)
    })
}

/// Texts of a list: fewer than a program may look up at once, as many, and more.
const LISTS: [usize; 8] = [1, 2, 3, 4, 15, 16, 17, 40];
/// The texts of the list that is asked with rooms of many lengths.
const SHORT: usize = 6;
/// Files with more entries of the hash, or with long texts, get so many single questions
/// for each table, as each accepts the file first.
const LARGE: usize = 64;
const ENOUGH: usize = 24;

/// Collects questions.
struct Asker<'a> {
    rng: &'a mut Rng,
    file: &'a Collided,
    workspace: usize,
    all: Vec<Due>,
}

fn questions(rng: &mut Rng, plan: &Plan, file: &Collided) -> Vec<Due> {
    let workspace = file.model.used_nodes();
    let mut asker = Asker { rng, file, workspace, all: Vec::new() };
    asker.ask(Ask::Accept, Answer { refusal: 0, kind: 0, value: workspace as u64 }, Vec::new());
    let large = plan.names.max(plan.values) > LARGE || plan.long == Long::There;
    for which in [Which::Names, Which::Values] {
        asker.singles(which, large);
        asker.lists(which, plan.long);
        asker.rooms(which);
    }
    asker.paths(plan.long);
    asker.all
}

impl Asker<'_> {
    fn ask(&mut self, ask: Ask, answer: Answer, out: Vec<u8>) {
        self.all.push(Due::new(self.rng, self.workspace, ask, answer, out));
    }

    fn strings(&self, which: Which) -> &Strings {
        match which {
            Which::Names => &self.file.names,
            Which::Values => &self.file.values,
        }
    }

    /// Each text by itself, and some with an odd byte behind.
    fn singles(&mut self, which: Which, large: bool) {
        let strings = self.strings(which);
        let each = strings.asked.iter().chain(&strings.with_zero);
        let mut each: Vec<(Vec<u8>, Answer)> =
            each.map(|text| (to_bytes(text), told(strings.known.look_up(text)))).collect();
        if large {
            self.rng.shuffle(&mut each);
            each.truncate(ENOUGH);
        }
        for (mut bytes, answer) in each {
            self.ask(Ask::Single(which, bytes.clone()), answer, Vec::new());
            if self.rng.one_in(8) {
                bytes.push(0);
                let place = bytes.len() as u64;
                let odd = Answer { refusal: 24, kind: 0, value: place };
                self.ask(Ask::Single(which, bytes), odd, Vec::new());
            }
        }
    }

    /// Found, absent and collided texts mixed: all that are asked for with all that are
    /// there, and some of them.
    fn lists(&mut self, which: Which, long: Long) {
        let strings = self.strings(which);
        let mut pool: Vec<Text> = strings.asked.iter().chain(&strings.equal).cloned().collect();
        self.rng.shuffle(&mut pool);
        self.list(which, &pool);
        // Long texts are in the list of all, and need not be in each.
        if long != Long::Nowhere {
            pool.retain(|text| text.len() < 1_000);
        }
        for count in LISTS {
            let texts: Vec<Text> = (0..count).map(|_| self.rng.pick(&pool).clone()).collect();
            self.list(which, &texts);
        }
    }

    fn list(&mut self, which: Which, texts: &[Text]) {
        let known = &self.strings(which).known;
        let out = places(texts.iter().map(|text| known.look_up(text)));
        let answer = Answer { refusal: 0, kind: 0, value: texts.len() as u64 };
        self.ask(Ask::Batch(which, list(texts)), answer, out);
    }

    /// One list with rooms of many lengths. Where it does not fit, nothing is written.
    fn rooms(&mut self, which: Which) {
        let strings = self.strings(which);
        // The empty text, a small word, the stem, and others of the hash.
        let mut texts = strings.equal.iter().take(2).cloned().collect::<Vec<Text>>();
        texts.extend([0, 2, 3, 4, 5, 6].map(|number| strings.asked[number].clone()));
        texts.truncate(SHORT);
        self.rng.shuffle(&mut texts);
        let refused = Answer { refusal: 25, kind: 0, value: SHORT as u64 };
        for room in [0, 7, 8, 9, 8 * SHORT - 8, 8 * SHORT - 1] {
            self.ask(Ask::Batch(which, list(&texts)), refused, Vec::new());
            self.last_room(room);
        }
        for more in [0, 1, 4, 7, 8, 9] {
            self.list(which, &texts);
            self.last_room(8 * SHORT + more);
        }
    }

    /// The room of the question that was put last.
    fn last_room(&mut self, room: usize) {
        if let Some(due) = self.all.last_mut() {
            due.question.out = room;
        }
    }

    /// Names of the hash, and others of it in each place of a path. A node below has a name
    /// of its own, so that a path without its collided name leads to a node too.
    fn paths(&mut self, long: Long) {
        let Strings { equal, asked, .. } = &self.file.names;
        let below = text(BELOW);
        let few = [equal.first(), equal.get(equal.len() / 2), equal.last()];
        let present: Vec<Text> = few.into_iter().flatten().cloned().collect();
        let count = if long == Long::Asked { asked.len() } else { 12 };
        let others: Vec<Text> = asked.iter().take(count).cloned().collect();
        for name in &present {
            self.path(&[name.clone()]);
            self.path(&[name.clone(), below.clone()]);
            let other = self.rng.pick(&others).clone();
            self.path(&[name.clone(), other.clone()]);
            self.path(&[name.clone(), other.clone(), below.clone()]);
            self.path(&[name.clone(), below.clone(), other.clone()]);
            self.path(&[other.clone(), name.clone()]);
        }
        for other in others {
            self.path(&[other.clone()]);
            self.path(&[other, below.clone()]);
        }
    }

    fn path(&mut self, names: &[Text]) {
        let matches = self.file.matches(names);
        let answer = Answer { refusal: 0, kind: 0, value: matches.len() as u64 };
        let out = matches.iter().flat_map(|place| place.to_le_bytes()).collect();
        self.ask(Ask::Path(list(names)), answer, out);
    }
}

#[cfg(test)]
mod tests {
    use super::*;

    /// Answers to single texts of a kind.
    fn of_kind(all: &[Due], kind: u32) -> impl Iterator<Item = (&[u8], u64)> {
        all.iter().filter_map(move |due| match &due.question.ask {
            Ask::Single(_, text) if due.answer.refusal == 0 && due.answer.kind == kind => {
                Some((&text[..], due.answer.value))
            }
            _ => None,
        })
    }

    #[test]
    fn there_are_questions_of_every_sort() {
        let all: Vec<Due> = cases(1).flat_map(|(_, due)| due).collect();
        for kind in [0, 1, 2] {
            let count = of_kind(&all, kind).count();
            assert!(count > 3_000, "kind {kind}: {count}");
        }
        for number in [1, 2, 3, 16, 17, 255, 256, 257, 300, 513] {
            assert!(of_kind(&all, 2).any(|(_, value)| value == number), "{number}");
        }
        let long = |kind, bytes: usize| of_kind(&all, kind).any(|(text, _)| text.len() == bytes);
        for characters in [65_535, 65_536, 131_073] {
            assert!(long(1, 2 * characters) && long(2, 2 * characters), "{characters}");
        }
        assert!(long(0, 2 * 65_535) && long(0, 0) && long(2, 0) && long(1, 0));
        let refused = |number| all.iter().filter(|due| due.answer.refusal == number).count();
        assert!(refused(24) > 500 && refused(25) > 2_000, "{} {}", refused(24), refused(25));
    }
}
