//! Every length of a lent buffer: listings, answers and outlines, from none to
//! a few bytes more than are needed.

use maker::collide::stranger;
use maker::rng::Rng;
use maker::samples;
use maker::text::text;
use second::{Loader, Plain, Right, Which};

use crate::case::Case;
use crate::due::list;
use crate::guard::Edge;
use crate::question::{Ask, Question};

const ORACLE: Loader<Right, Plain> = Loader::new(Right);

/// The shop, whose nodes have paths with none, one and several matches.
pub fn shop() -> Case {
    let bytes = samples::all().into_iter().find(|sample| sample.name == "shop.dc");
    Case {
        bytes: bytes.map_or(Vec::new(), |sample| sample.bytes),
        words: "shop".to_string(),
        names: Vec::new(),
        values: Vec::new(),
        paths: Vec::new(),
        weight: 0,
    }
}

/// Texts or names, each followed by a 0.
fn joined(words: &[&str]) -> Vec<u8> {
    list(&words.iter().map(|word| text(word)).collect::<Vec<_>>())
}

/// So many texts, of which some have the hash of a text that is there.
const MIXED: usize = 5;

fn mixed(rng: &mut Rng) -> Vec<u8> {
    let [item, sword] = ["Item", "Iron sword"].map(text);
    let texts = [stranger(rng, &item), item, text("Nothing"), stranger(rng, &sword), sword];
    list(&texts)
}

/// The questions, with the number of bytes that each needs and how many more
/// are lent at most.
pub fn questions(rng: &mut Rng, case: &Case) -> Vec<Question> {
    let file = &case.bytes;
    let used = ORACLE.accept(file, &mut []).value as usize;
    let mut workspace = vec![0; used];
    let mut asked = Vec::new();
    for names in [&[][..], &["Item"], &["Item", "Price"], &["Nothing"], &["Quest"]] {
        let path = joined(names);
        let matches = ORACLE.path(file, &mut workspace, &path, &mut []).value as usize;
        asked.push((Ask::Path(path), 4 * matches + 5));
    }
    for which in [Which::Names, Which::Values] {
        for texts in [&[][..], &["Item"], &["Iron sword", "Nothing", "Item"]] {
            asked.push((Ask::Batch(which, joined(texts)), 8 * texts.len() + 9));
        }
        asked.push((Ask::Batch(which, mixed(rng)), 8 * MIXED + 9));
    }
    let outline = ORACLE.outline(file, &mut workspace, &mut []).value as usize;
    asked.push((Ask::Outline, outline + 5));
    let mut all = Vec::new();
    for (ask, most) in asked {
        for out in 0..=most {
            let question = Question {
                ask: ask.clone(),
                workspace: used,
                out,
                fill: rng.draw(),
                edge: Edge::End,
                null: true,
            };
            all.push(question);
        }
    }
    all
}
