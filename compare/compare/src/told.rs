//! Files of which the papers tell what acceptance has to answer, and texts of which they
//! tell the value hash.

use maker::letter::rule::Rule;
use maker::rng::Rng;
use maker::text::from_bytes;
use second::Answer;

use crate::asks::every;
use crate::buckets;
use crate::case::Case;
use crate::collisions;
use crate::directed;
use crate::due::Due;
use crate::guard::Edge;
use crate::hashes::{HashAsk, HashQuestion};
use crate::letter;
use crate::question::{Question, Reply};
use crate::run::{differs, Run, PLAIN};
use crate::tally::{describe, describe_hash};
use crate::texts;

/// What acceptance has to answer, in a workspace of so many bytes. Where the value is not
/// told, any is right.
#[derive(Clone, Copy, Debug)]
pub struct Told {
    pub refusal: u32,
    pub value: Option<u64>,
    pub workspace: usize,
}

impl Told {
    fn fits(&self, answer: Answer) -> bool {
        let value = self.value.unwrap_or(answer.value);
        answer == Answer { refusal: self.refusal, kind: 0, value }
    }
}

impl Run {
    /// The smallest file.
    pub(crate) fn smallest(&mut self) {
        for (case, told) in directed::fixed() {
            let question = Question { workspace: told.workspace, ..PLAIN };
            self.questions(&case, std::slice::from_ref(&question));
            self.told(&case, told);
        }
    }

    /// Files whose texts end with the used part.
    pub(crate) fn directed(&mut self, rng: &mut Rng) {
        for case in directed::cases(self.plan.seed) {
            let before = self.tally.questions;
            self.questions(&case, &every(rng, &case));
            self.tally.directed += 1;
            self.tally.of_directed += self.tally.questions - before;
        }
    }

    /// Files with the letter 0151.
    pub(crate) fn letters(&mut self, rng: &mut Rng) {
        for (case, told) in letter::cases(self.plan.seed) {
            let before = self.tally.questions;
            self.questions(&case, &letter::questions(rng, &case));
            self.tally.letters += 1;
            self.tally.of_letters += self.tally.questions - before;
            if let Some(told) = told {
                self.told(&case, told);
            }
        }
    }

    /// Files with crowded buckets, of which the maker knows every answer.
    pub(crate) fn buckets(&mut self) {
        for (case, all) in buckets::cases(self.plan.seed) {
            self.tally.buckets += 1;
            self.tally.of_buckets += all.len() as u64;
            self.all_due(&case, &all);
        }
    }

    /// Files in which texts have the hash of others. The maker knows every answer here too.
    pub(crate) fn collisions(&mut self) {
        for (case, all) in collisions::cases(self.plan.seed) {
            self.tally.collisions += 1;
            self.tally.of_collisions += all.len() as u64;
            self.all_due(&case, &all);
        }
    }

    fn all_due(&mut self, case: &Case, all: &[Due]) {
        self.tally.files += 1;
        for edge in [Edge::End, Edge::Start] {
            let own = all.iter().filter(|due| due.question.edge == edge);
            if own.clone().count() > 0 {
                self.pages.put_file(&case.bytes, edge);
            }
            own.for_each(|due| self.due(case, due));
        }
    }

    /// Asks all loaders, and compares the second loader's answer with the maker's.
    fn due(&mut self, case: &Case, due: &Due) {
        let outcome = self.question(case, &due.question);
        if !outcome.as_ref().is_some_and(|outcome| due.fits(outcome)) {
            let words = describe(case, &due.question, outcome.as_ref(), None);
            let words = format!("due: {:?}, then {:02x?}\n{words}", due.answer, due.out);
            let kept = ("difference.dc", &case.bytes[..]);
            differs(&mut self.tally, &self.plan, "the maker", &words, kept);
        }
    }

    /// Texts with the letter 0151, whose value hash is that of the fold as the maker has
    /// it.
    pub(crate) fn letter_texts(&mut self, rng: &mut Rng) {
        for text in texts::letters(rng) {
            self.text(rng, &text);
            let told = Rule::Now.value_hash(&from_bytes(&text)) as u32;
            let whole = HashQuestion::new(rng, HashAsk::Value(text.len()));
            let hash = self.pages.ask_hash(&self.right, &text, &whole);
            if hash.as_deref() != Some(&[told]) {
                let words = describe_hash(&text, &whole, hash.as_deref(), Some(&[told]));
                let kept = ("difference.text", &text[..]);
                differs(&mut self.tally, &self.plan, "the papers", &words, kept);
            }
        }
    }

    /// Compares the second loader's answer with what is told.
    fn told(&mut self, case: &Case, told: Told) {
        let question = Question { workspace: told.workspace, ..PLAIN };
        self.pages.put_file(&case.bytes, question.edge);
        let outcome = self.pages.ask_put(&self.right, &case.bytes, &question);
        let fits = |reply: Reply| matches!(reply, Reply::Answer(answer) if told.fits(answer));
        if !outcome.as_ref().is_some_and(|outcome| fits(outcome.reply)) {
            let words =
                format!("told: {told:?}\n{}", describe(case, &question, outcome.as_ref(), None));
            let kept = ("difference.dc", &case.bytes[..]);
            differs(&mut self.tally, &self.plan, "the papers", &words, kept);
        }
    }
}
