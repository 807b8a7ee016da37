//! The questions asked about a file.

use maker::collide::{closed, hash, stranger, twin};
use maker::rng::Rng;
use maker::text::{random, to_bytes, Text};
use second::{Loader, Plain, Right, Which};

use crate::case::Case;
use crate::due::list;
use crate::guard::Edge;
use crate::question::{Ask, Question};

/// What the second loader says of a file, so that buffers can be lent that just
/// fit or just do not.
struct Known {
    refused: bool,
    used: usize,
    outline: usize,
}

const ORACLE: Loader<Right, Plain> = Loader::new(Right);

impl Known {
    fn of(file: &[u8]) -> Known {
        let short = ORACLE.accept(file, &mut []);
        let used = if short.refusal == 20 { short.value as usize } else { 0 };
        let mut workspace = vec![0; used];
        let outline = ORACLE.outline(file, &mut workspace, &mut []);
        Known {
            refused: outline.refusal != 26,
            used,
            outline: if outline.refusal == 26 { outline.value as usize } else { 0 },
        }
    }
}

/// Questions about a case: `case.weight` of them, about.
pub fn asks(rng: &mut Rng, case: &Case) -> Vec<Question> {
    let known = Known::of(&case.bytes);
    let mut all = vec![question(rng, &known, Ask::Accept, 0)];
    all[0].workspace = known.used;
    let count = if known.refused { case.weight.min(6) } else { case.weight };
    for _ in 1..count {
        let asked = random_ask(rng, case, &known);
        all.push(asked);
    }
    all
}

/// Every question about every text and path of a small case. A refused file gets few.
pub fn every(rng: &mut Rng, case: &Case) -> Vec<Question> {
    let known = Known::of(&case.bytes);
    if known.refused {
        return asks(rng, case);
    }
    let mut all = vec![(Ask::Accept, 0), (Ask::Header, 0)];
    all.extend([0, 1, 2].map(|less| (Ask::Outline, known.outline.saturating_sub(less))));
    for which in [Which::Names, Which::Values] {
        for text in table(case, which) {
            let nearly = single_text(rng, case, which);
            all.extend([to_bytes(text), nearly].map(|text| (Ask::Single(which, text), 0)));
        }
        let texts = list(table(case, which));
        let count = table(case, which).len();
        all.extend([8 * count, 8 * count - 1].map(|out| (Ask::Batch(which, texts.clone()), out)));
    }
    for path in case.paths.iter().map(|names| list(names)) {
        let matches = match_count(case, &known, &path);
        all.push((Ask::Path(path), 4 * matches));
    }
    let mut asked: Vec<Question> =
        all.into_iter().map(|(ask, out)| question(rng, &known, ask, out)).collect();
    // The workspace is another matter: here it is long enough.
    asked.iter_mut().for_each(|question| question.workspace = known.used);
    asked.push(question(rng, &known, Ask::Accept, 0));
    asked
}

fn random_ask(rng: &mut Rng, case: &Case, known: &Known) -> Question {
    match rng.below(16) {
        0 | 1 => question(rng, known, Ask::Accept, 0),
        2 => question(rng, known, Ask::Header, 0),
        3..=6 => {
            let which = *rng.pick(&[Which::Names, Which::Values]);
            let text = single_text(rng, case, which);
            question(rng, known, Ask::Single(which, text), 0)
        }
        7 | 8 => {
            let which = *rng.pick(&[Which::Names, Which::Values]);
            let texts = batch_texts(rng, case, which);
            let count = texts.chunks_exact(2).filter(|pair| *pair == [0, 0]).count();
            let out = near(rng, 8 * count, 8);
            question(rng, known, Ask::Batch(which, texts), out)
        }
        9..=12 => {
            let path = path(rng, case);
            let matches = match_count(case, known, &path);
            let out = near(rng, 4 * matches, 4);
            question(rng, known, Ask::Path(path), out)
        }
        _ => {
            let out = near(rng, known.outline, 1);
            question(rng, known, Ask::Outline, out)
        }
    }
}

fn question(rng: &mut Rng, known: &Known, ask: Ask, out: usize) -> Question {
    let used = known.used;
    let workspace = match rng.below(12) {
        0 => 0,
        1 => used.saturating_sub(1),
        2 | 3 => used + 7,
        4 => used + 1,
        5 => rng.below(used + 40),
        _ => used,
    };
    Question {
        ask,
        workspace,
        out,
        fill: rng.draw(),
        edge: *rng.pick(&[Edge::End, Edge::End, Edge::Start]),
        null: rng.one_in(2),
    }
}

/// Lengths about the one that just fits, in steps and between them.
fn near(rng: &mut Rng, fits: usize, step: usize) -> usize {
    match rng.below(9) {
        0 => 0,
        1 => fits.saturating_sub(1),
        2 => fits.saturating_sub(step),
        3 => fits + 1,
        4 => fits + rng.below(step + 5),
        5 => rng.below(fits + step + 2),
        _ => fits,
    }
}

fn match_count(case: &Case, known: &Known, path: &[u8]) -> usize {
    let mut workspace = vec![0; known.used];
    let answer = ORACLE.path(&case.bytes, &mut workspace, path, &mut []);
    if matches!(answer.refusal, 0 | 25) {
        answer.value as usize
    } else {
        0
    }
}

/// A text that is there, or is nearly there, or is not.
fn asked_text(rng: &mut Rng, texts: &[Text]) -> Text {
    if texts.is_empty() {
        return random(rng, 6);
    }
    let mut text = rng.pick(texts).clone();
    match rng.below(14) {
        // Texts with the same hash.
        0 => return twin(rng, &text).unwrap_or(text),
        12 => return stranger(rng, &text),
        13 if rng.one_in(30) => {
            let length = rng.between(65_530, 70_000);
            return closed(&vec![0x61; length], hash(&text)).unwrap_or(text);
        }
        13 => return stranger(rng, &text),
        1 => text.truncate(rng.between(0, text.len())),
        2 => {
            text.drain(..rng.between(0, text.len()));
        }
        3 => text.push(rng.half().max(1)),
        4 if !text.is_empty() => {
            let place = rng.below(text.len());
            text[place] ^= 0x20;
        }
        5 => return random(rng, 8),
        6 if rng.one_in(40) => text = vec![0x61; rng.between(65_530, 70_000)],
        6 => text.clear(),
        _ => {}
    }
    text
}

fn table(case: &Case, which: Which) -> &[Text] {
    match which {
        Which::Names => &case.names,
        Which::Values => &case.values,
    }
}

fn single_text(rng: &mut Rng, case: &Case, which: Which) -> Vec<u8> {
    // Now and then a text of the other table.
    let texts = if rng.one_in(10) { &case.names } else { table(case, which) };
    let mut bytes = to_bytes(&asked_text(rng, texts));
    match rng.below(14) {
        0 => bytes.push(0),
        1 => bytes.extend([0, 0]),
        2 => bytes.extend([0, 0, 0x61, 0]),
        3 => {
            bytes.splice(0..0, [0, 0]);
        }
        4 => bytes.truncate(bytes.len().saturating_sub(1)),
        5 => bytes.extend([0, 0, 0x61]),
        _ => {}
    }
    bytes
}

/// Texts each followed by a 0, sometimes ill formed.
fn ended(rng: &mut Rng, texts: &[Text]) -> Vec<u8> {
    let mut bytes = list(texts);
    match rng.below(16) {
        0 => bytes.push(0),
        1 => bytes.truncate(bytes.len().saturating_sub(1)),
        2 => bytes.truncate(bytes.len().saturating_sub(2)),
        3 => bytes.extend([0, 0]),
        4 => bytes.extend([0x61, 0]),
        _ => {}
    }
    bytes
}

fn batch_texts(rng: &mut Rng, case: &Case, which: Which) -> Vec<u8> {
    let count = *rng.pick(&[0, 1, 2, 5, 30]);
    let texts: Vec<Text> = (0..count).map(|_| asked_text(rng, table(case, which))).collect();
    ended(rng, &texts)
}

fn path(rng: &mut Rng, case: &Case) -> Vec<u8> {
    let known = if case.paths.is_empty() { Vec::new() } else { rng.pick(&case.paths).clone() };
    let mut names: Vec<Text> = known;
    match rng.below(12) {
        0 => names.clear(),
        1 => names.truncate(rng.between(0, names.len())),
        2 => names.push(asked_text(rng, &case.names)),
        3 => {
            let place = rng.between(0, names.len());
            names.insert(place, Text::new());
        }
        4 => {
            let count = rng.between(60, 70);
            let name = asked_text(rng, &case.names);
            names.resize(count, name);
        }
        5 if !names.is_empty() => {
            let place = rng.below(names.len());
            names[place] = asked_text(rng, &case.names);
        }
        6 => {
            names.truncate(1);
        }
        _ => {}
    }
    ended(rng, &names)
}
