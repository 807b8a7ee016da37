//! Questions whose answers are known beforehand.

use maker::known::Lookup;
use maker::rng::Rng;
use maker::text::{to_bytes, Text};
use second::Answer;

use crate::guard::Edge;
use crate::question::{Ask, Outcome, Question, Reply};

/// A question, its answer, and what its buffer then begins with.
pub struct Due {
    pub question: Question,
    pub answer: Answer,
    pub out: Vec<u8>,
}

impl Due {
    pub fn new(rng: &mut Rng, workspace: usize, ask: Ask, answer: Answer, out: Vec<u8>) -> Due {
        // What lies behind the answer has to stay.
        let more = if rng.one_in(3) { rng.below(9) } else { 0 };
        let question = Question {
            ask,
            workspace,
            out: out.len() + more,
            fill: rng.draw(),
            edge: *rng.pick(&[Edge::End, Edge::End, Edge::Start]),
            null: rng.one_in(2),
        };
        Due { question, answer, out }
    }

    pub fn fits(&self, outcome: &Outcome) -> bool {
        outcome.reply == Reply::Answer(self.answer) && outcome.out.starts_with(&self.out)
    }
}

/// The answer to a single text.
pub fn told(lookup: Lookup) -> Answer {
    Answer { refusal: 0, kind: lookup.kind(), value: lookup.value() as u64 }
}

/// What a list's buffer then begins with.
pub fn places(lookups: impl Iterator<Item = Lookup>) -> Vec<u8> {
    let words = lookups.flat_map(|lookup| [lookup.kind(), lookup.value()]);
    words.flat_map(u32::to_le_bytes).collect()
}

/// Texts each followed by a 0.
pub fn list(texts: &[Text]) -> Vec<u8> {
    texts.iter().flat_map(|text| to_bytes(text).into_iter().chain([0, 0])).collect()
}
