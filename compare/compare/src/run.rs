//! The comparison run: files, questions, and every loader against the second.

use std::path::PathBuf;
use std::time::{Duration, Instant};

use maker::rng::Rng;
use second::hashes::folded;
use second::{Plain, Right};

use crate::asks::asks;
use crate::case::{random, Case};
use crate::guard::Edge;
use crate::hashes::{self, HashAsk, HashQuestion};
use crate::lengths;
use crate::loader::{Loader, Second};
use crate::question::{Ask, Outcome, Pages, Question};
use crate::sparse::Largest;
use crate::sweep::{changed_bytes, changed_words, cut_counts, cuts, limits};
use crate::tally::{describe, describe_hash, Tally};
use crate::texts;

/// Random files of which one comes with texts to be hashed, and how many.
const FILES_A_TEXT: u64 = 16;
const TEXTS: usize = 2;
/// A full run has so many random files, however long the others took: some refusals are
/// rare without them.
const LEAST: u64 = 4_000;
/// Pairs of texts with one value hash.
const PAIRS: usize = 40;

/// Acceptance without a workspace.
pub const PLAIN: Question =
    Question { ask: Ask::Accept, workspace: 0, out: 0, fill: 1, edge: Edge::End, null: false };

#[derive(Clone)]
pub struct Plan {
    pub seed: u64,
    pub budget: Duration,
    /// Random files at most, and questions at most.
    pub files: u64,
    pub questions: u64,
    /// Sweeps and limits too, and every refusal often enough.
    pub full: bool,
    /// Where the file or text of the first difference is put.
    pub found: PathBuf,
}

pub struct Run {
    pub(crate) plan: Plan,
    pub(crate) right: Second<Right, Plain>,
    others: Vec<Box<dyn Loader>>,
    pub(crate) pages: Pages,
    pub tally: Tally,
}

impl Run {
    pub fn new(plan: Plan, others: Vec<Box<dyn Loader>>) -> Run {
        Run {
            plan,
            right: Second::new("second, plain", Right),
            others,
            pages: Pages::default(),
            tally: Tally::default(),
        }
    }

    pub fn go(&mut self) {
        let started = Instant::now();
        let mut rng = Rng::new(self.plan.seed);
        self.texts(&mut rng.clone());
        self.smallest();
        if self.plan.full {
            self.systematic(&mut rng);
        }
        for number in 0..self.plan.files {
            let due = self.plan.full && number < LEAST;
            let spent = started.elapsed() >= self.plan.budget && !due;
            if spent || self.tally.questions >= self.plan.questions {
                break;
            }
            // Each file has a seed of its own, so that one can be had again.
            let mut rng = Rng::new(self.plan.seed.wrapping_mul(1_000_003).wrapping_add(number));
            let case = random(&mut rng);
            self.case(&mut rng, &case);
            if number % FILES_A_TEXT == 0 {
                (0..TEXTS).for_each(|_| {
                    let text = texts::short(&mut rng);
                    self.text(&mut rng, &text);
                });
            }
        }
    }

    /// What only a full run has: directed files, limits and sweeps.
    fn systematic(&mut self, rng: &mut Rng) {
        self.largest();
        self.every_length(rng);
        self.directed(rng);
        self.letters(rng);
        self.buckets();
        self.collisions();
        for make in limits() {
            let case = make(rng);
            self.case(rng, &case);
        }
        for case in cut_counts(rng).chain(cuts(&mut rng.clone())) {
            self.case(rng, &case);
        }
        for case in changed_bytes(rng).chain(changed_words(&mut rng.clone())) {
            self.case(rng, &case);
        }
    }

    fn case(&mut self, rng: &mut Rng, case: &Case) {
        self.questions(case, &asks(rng, case));
    }

    pub(crate) fn questions(&mut self, case: &Case, questions: &[Question]) {
        self.tally.files += 1;
        for edge in [Edge::End, Edge::Start] {
            self.pages.put_file(&case.bytes, edge);
            for question in questions.iter().filter(|question| question.edge == edge) {
                self.question(case, question);
            }
        }
    }

    /// Asks all loaders; what the second one's plain form came to.
    pub(crate) fn question(&mut self, case: &Case, question: &Question) -> Option<Outcome> {
        let right = self.pages.ask_put(&self.right, &case.bytes, question);
        if let Some(outcome) = &right {
            self.tally.count(question, outcome);
        }
        for other in &self.others {
            let outcome = self.pages.ask_put(other.as_ref(), &case.bytes, question);
            if right.is_none() || outcome != right {
                let words = describe(case, question, right.as_ref(), outcome.as_ref());
                let kept = ("difference.dc", &case.bytes[..]);
                differs(&mut self.tally, &self.plan, &other.title(), &words, kept);
            }
        }
        right
    }

    /// Texts that are hashed before any file is.
    fn texts(&mut self, rng: &mut Rng) {
        let mut all = texts::ordinary(rng);
        if self.plan.full {
            all.extend(texts::long(rng));
            all.extend(texts::long_letters(rng));
        }
        for text in &all {
            self.text(rng, text);
        }
        self.letter_texts(rng);
        self.pairs(rng);
    }

    /// A text whole and in parts, and its folded form, which has to have the
    /// same value hash.
    pub(crate) fn text(&mut self, rng: &mut Rng, text: &[u8]) {
        for question in hashes::questions(rng, text) {
            self.hash(text, &question);
        }
        let whole = HashQuestion::new(rng, HashAsk::Value(text.len() / 2 * 2));
        let (plain, folded) = (self.hash(text, &whole), self.hash(&folded(text), &whole));
        if plain != folded {
            let words = describe_hash(text, &whole, plain.as_deref(), folded.as_deref());
            let kept = ("difference.text", text);
            differs(&mut self.tally, &self.plan, "itself on the folded text", &words, kept);
        }
    }

    /// Texts of one value hash, gone on with in the same way: 14 bits do not
    /// tell how the joined texts hash.
    fn pairs(&mut self, rng: &mut Rng) {
        for pair in texts::pairs(rng, PAIRS) {
            let bytes = 2 * rng.between(1, 8);
            let more = texts::random(rng, bytes);
            let [one, two] = pair.map(|text| {
                self.value_hash(rng, &text);
                self.value_hash(rng, &[text, more.clone()].concat())
            });
            self.tally.pairs += 1;
            self.tally.parted += (one != two) as u64;
        }
    }

    fn value_hash(&mut self, rng: &mut Rng, text: &[u8]) -> Option<Vec<u32>> {
        self.hash(text, &HashQuestion::new(rng, HashAsk::Value(text.len())))
    }

    fn hash(&mut self, text: &[u8], question: &HashQuestion) -> Option<Vec<u32>> {
        self.tally.hashes += 1;
        let right = self.pages.ask_hash(&self.right, text, question);
        let joined = right.as_ref().is_some_and(|hashes| question.joined(hashes));
        for other in &self.others {
            let hashes = self.pages.ask_hash(other.as_ref(), text, question);
            if !joined || hashes != right {
                let words = describe_hash(text, question, right.as_deref(), hashes.as_deref());
                let kept = ("difference.text", text);
                differs(&mut self.tally, &self.plan, &other.title(), &words, kept);
            }
        }
        right
    }

    /// Buffers of every length up to what is needed and a little more.
    fn every_length(&mut self, rng: &mut Rng) {
        let case = lengths::shop();
        self.tally.files += 1;
        self.pages.put_file(&case.bytes, Edge::End);
        for question in lengths::questions(rng, &case) {
            self.question(&case, &question);
        }
    }

    /// Exactly the size limit is accepted, one byte more is refusal 1. Both are
    /// asked on memory that is mostly never touched.
    fn largest(&mut self) {
        let mut largest = Largest::new();
        for (more, workspace) in [(0, 1), (0, 0), (1, 1), (1, 0)] {
            let question = Question { workspace, ..PLAIN };
            let file = largest.bytes(more);
            let right = self.pages.ask(&self.right, file, &question);
            self.tally.count(&question, &right);
            for other in &self.others {
                let outcome = self.pages.ask(other.as_ref(), file, &question);
                if outcome != right {
                    self.tally.differences += 1;
                    println!("at the size limit, {more} more: {right:?} and {outcome:?}");
                }
            }
        }
        self.tally.files += 2;
    }
}

/// Counts a difference. The first is told, and its file or text is kept.
pub(crate) fn differs(
    tally: &mut Tally,
    plan: &Plan,
    title: &str,
    words: &str,
    kept: (&str, &[u8]),
) {
    tally.differences += 1;
    if tally.differences > 1 {
        return;
    }
    let (name, bytes) = kept;
    println!("first difference, seed {}, with {title}:\n{words}", plan.seed);
    let path = plan.found.join(name);
    let saved = std::fs::create_dir_all(&plan.found).and_then(|()| std::fs::write(&path, bytes));
    match saved {
        Ok(()) => println!("saved as {}", path.display()),
        Err(error) => println!("not saved: {error}"),
    }
}

#[cfg(test)]
mod tests {
    use super::*;

    #[test]
    fn a_short_run_finds_nothing() {
        let plan = Plan {
            seed: 1,
            budget: Duration::from_secs(60),
            files: 300,
            questions: u64::MAX,
            full: false,
            found: PathBuf::from("found"),
        };
        let mut run = Run::new(plan, crate::others());
        run.go();
        assert_eq!(run.tally.differences, 0);
        assert!(run.tally.questions > 1_000);
        assert!(run.tally.hashes > 10_000);
        assert!(run.tally.parted > 0);
    }
}
