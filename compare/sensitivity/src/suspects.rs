//! The mutants, asked together with the right reading until each is caught.

use std::fmt;
use std::panic::{catch_unwind, AssertUnwindSafe};

use compare::hashes::HashQuestion;
use compare::loader::Second;
use compare::question::{Pages, Question};
use second::{Mutant, Plain, Right, Wrong};

struct Suspect {
    mutant: Mutant,
    loader: Second<Wrong, Plain>,
    /// The number of the question that caught it.
    caught: Option<u64>,
}

pub struct Suspects {
    pub pages: Pages,
    right: Second<Right, Plain>,
    all: Vec<Suspect>,
    questions: u64,
}

impl Suspects {
    pub fn new(mutants: impl Iterator<Item = Mutant>) -> Suspects {
        let all = mutants.map(|mutant| Suspect {
            mutant,
            loader: Second::new(mutant.words(), Wrong(mutant)),
            caught: None,
        });
        Suspects {
            pages: Pages::default(),
            right: Second::new("right", Right),
            all: all.collect(),
            questions: 0,
        }
    }

    pub fn all_caught(&self) -> bool {
        self.all.iter().all(|suspect| suspect.caught.is_some())
    }

    /// Asks about the file that was put into the pages.
    pub fn question(&mut self, bytes: &[u8], question: &Question) {
        let right = self.pages.ask_put(&self.right, bytes, question);
        self.each(right, |pages, loader| pages.ask_put(loader, bytes, question));
    }

    /// Asks about a file that is a slice of its own.
    pub fn question_on(&mut self, file: &[u8], question: &Question) {
        let right = Some(self.pages.ask(&self.right, file, question));
        self.each(right, |pages, loader| Some(pages.ask(loader, file, question)));
    }

    /// Asks for the hashes of a text by itself.
    pub fn hash(&mut self, text: &[u8], question: &HashQuestion) {
        let right = self.pages.ask_hash(&self.right, text, question);
        self.each(right, |pages, loader| pages.ask_hash(loader, text, question));
    }

    fn each<T: PartialEq>(
        &mut self,
        right: Option<T>,
        ask: impl Fn(&mut Pages, &Second<Wrong, Plain>) -> Option<T>,
    ) {
        self.questions += 1;
        for suspect in self.all.iter_mut().filter(|suspect| suspect.caught.is_none()) {
            let (pages, loader) = (&mut self.pages, &suspect.loader);
            let outcome = catch_unwind(AssertUnwindSafe(|| ask(pages, loader)));
            if !matches!(&outcome, Ok(outcome) if *outcome == right) {
                suspect.caught = Some(self.questions);
            }
        }
    }
}

impl fmt::Display for Suspects {
    fn fmt(&self, out: &mut fmt::Formatter) -> fmt::Result {
        for suspect in &self.all {
            let when = match suspect.caught {
                Some(question) => format!("caught by question {question}"),
                None => "SURVIVED".to_string(),
            };
            writeln!(out, "{:?}: {}: {when}", suspect.mutant, suspect.mutant.words())?;
        }
        let caught = self.all.iter().filter(|suspect| suspect.caught.is_some()).count();
        writeln!(out, "{caught} of {} caught, {} questions", self.all.len(), self.questions)
    }
}
