//! Comparing outcomes and counting what was asked.

use std::fmt;

use second::Answer;

use crate::case::Case;
use crate::hashes::HashQuestion;
use crate::question::{Ask, Outcome, Question, Reply};

/// What was asked and what came of it.
#[derive(Default)]
pub struct Tally {
    pub files: u64,
    pub questions: u64,
    /// Files with texts that end with the used part, and questions about them.
    pub directed: u64,
    pub of_directed: u64,
    /// Files with the letter 0151, and questions about them.
    pub letters: u64,
    pub of_letters: u64,
    /// Files with crowded buckets, and questions about them.
    pub buckets: u64,
    pub of_buckets: u64,
    /// Files in which texts have the hash of others, and questions about them.
    pub collisions: u64,
    pub of_collisions: u64,
    /// Texts that were found, absent and collided: asked for alone, and in lists.
    pub singles: [u64; 3],
    pub listed: [u64; 3],
    /// How often each refusal was answered; 0 is answered without one.
    pub refusals: [u64; 27],
    /// Questions for the hashes of a text by itself.
    pub hashes: u64,
    /// Pairs of texts with one value hash, and how many had two when both were
    /// gone on with in the same way.
    pub pairs: u64,
    pub parted: u64,
    pub differences: u64,
}

impl Tally {
    pub fn count(&mut self, question: &Question, outcome: &Outcome) {
        self.questions += 1;
        let number = outcome.reply.refusal() as usize;
        if let Some(count) = self.refusals.get_mut(number) {
            *count += 1;
        }
        if let Reply::Answer(Answer { refusal: 0, kind, value }) = outcome.reply {
            match question.ask {
                Ask::Single(..) => count_kind(&mut self.singles, kind),
                Ask::Batch(..) => {
                    let places = outcome.out.chunks_exact(8).take(value as usize);
                    places.for_each(|place| count_kind(&mut self.listed, place[0] as u32));
                }
                _ => {}
            }
        }
    }

    /// Whether texts collided fewer than `least` times, alone or in lists.
    pub fn few_collided(&self, least: u64) -> bool {
        self.singles[2].min(self.listed[2]) < least
    }

    /// Refusals from 2 on that were answered fewer than `least` times.
    pub fn rare(&self, least: u64) -> Vec<usize> {
        (2..self.refusals.len()).filter(|&number| self.refusals[number] < least).collect()
    }
}

fn count_kind(kinds: &mut [u64; 3], kind: u32) {
    if let Some(count) = kinds.get_mut(kind as usize) {
        *count += 1;
    }
}

impl fmt::Display for Tally {
    fn fmt(&self, out: &mut fmt::Formatter) -> fmt::Result {
        writeln!(out, "files:       {}", self.files)?;
        writeln!(out, "questions:   {}", self.questions)?;
        writeln!(out, "directed:    {}, questions {}", self.directed, self.of_directed)?;
        writeln!(out, "letter 0151: {}, questions {}", self.letters, self.of_letters)?;
        writeln!(out, "buckets:     {}, questions {}", self.buckets, self.of_buckets)?;
        writeln!(out, "collisions:  {}, questions {}", self.collisions, self.of_collisions)?;
        for (title, [found, absent, collided]) in
            [("look-ups:   ", self.singles), ("in lists:   ", self.listed)]
        {
            writeln!(out, "{title} found {found}, absent {absent}, collided {collided}")?;
        }
        writeln!(out, "answered:    {}", self.refusals[0])?;
        for (number, count) in self.refusals.iter().enumerate().skip(1) {
            writeln!(out, "refusal {number:2}:  {count}")?;
        }
        writeln!(out, "hashes:      {}", self.hashes)?;
        writeln!(out, "value pairs: {}, parted {}", self.pairs, self.parted)?;
        write!(out, "differences: {}", self.differences)
    }
}

/// A difference in words, and the file beside it.
pub fn describe(
    case: &Case,
    question: &Question,
    right: Option<&Outcome>,
    other: Option<&Outcome>,
) -> String {
    let mut words =
        format!("file: {} bytes, {}\nquestion: {question:?}\n", case.bytes.len(), case.words);
    for (title, outcome) in [("second", right), ("other", other)] {
        words += &match outcome {
            Some(outcome) => format!("{title}: {:?}\n", outcome.reply),
            None => format!("{title}: changed the file\n"),
        };
    }
    if let (Some(right), Some(other)) = (right, other) {
        words += &first_byte("workspace", &right.workspace, &other.workspace);
        words += &first_byte("buffer", &right.out, &other.out);
    }
    words
}

/// So many bytes of a text are told.
const TOLD: usize = 4_096;

/// A difference in a text's hashes, in words.
pub fn describe_hash(
    text: &[u8],
    question: &HashQuestion,
    right: Option<&[u32]>,
    other: Option<&[u32]>,
) -> String {
    let hex: String = text.iter().take(TOLD).map(|byte| format!("{byte:02x}")).collect();
    let more = if text.len() > TOLD { " and so on" } else { "" };
    let mut words = format!("text: {} bytes, {hex}{more}\nquestion: {question:?}\n", text.len());
    for (title, hashes) in [("second", right), ("other", other)] {
        words += &match hashes {
            Some(hashes) => format!("{title}: {hashes:08x?}\n"),
            None => format!("{title}: changed the text\n"),
        };
    }
    words
}

fn first_byte(title: &str, right: &[u8], other: &[u8]) -> String {
    match right.iter().zip(other).position(|(a, b)| a != b) {
        Some(at) => format!("{title}: byte {at} is {:02x} and {:02x}\n", right[at], other[at]),
        None => String::new(),
    }
}
