//! The directed files of request T-10: which texts stand where, and by which rules their
//! value hashes are built.

use super::alike::{in_one_bucket, one_letter, ITEM, PHRASE};
use super::file::{Content, Owner, Shape};
use super::rule::{exchanged, Rule, CAPITAL, LETTER};
use super::words::WORDS;
use crate::rng::Rng;
use crate::text::{text, Text};

/// A content and the files that come of it.
pub struct Plan {
    pub words: String,
    pub content: Content,
    /// Whether there is a file for every way to choose a rule for every text. Otherwise
    /// there is one for each rule, and one for each text that holds the letter, by the
    /// rule of before, beside others by the rule of now.
    pub every_mix: bool,
    /// Whether other files have texts like these, to be looked up there.
    pub common: bool,
}

impl Plan {
    /// The rules of the texts, for each file. The first file goes by the rule of now.
    pub fn rules(&self) -> Vec<Vec<Rule>> {
        let texts = &self.content.texts;
        if self.every_mix {
            let rule = |mix: usize, i: usize| [Rule::Now, Rule::Before][mix >> i & 1];
            let mix = |mix| (0..texts.len()).map(|i| rule(mix, i)).collect();
            return (0..1 << texts.len()).map(mix).collect();
        }
        let now = vec![Rule::Now; texts.len()];
        let mut all = vec![now.clone(), vec![Rule::Before; texts.len()]];
        if texts.len() > 1 {
            let held = (0..texts.len()).filter(|&i| texts[i].0.contains(&LETTER));
            all.extend(held.map(|i| {
                let mut rules = now.clone();
                rules[i] = Rule::Before;
                rules
            }));
        }
        all
    }
}

/// On both sides of lengths where a program may change its way, and places where it may:
/// fewer of them in texts that take long.
const LONG: [usize; 14] = [31, 32, 33, 63, 64, 65, 66, 67, 128, 129, 256, 1_025, 4_097, 4_102];
const PLACES: [usize; 7] = [0, 1, 30, 31, 32, 63, 65];
const FAR_PLACES: [usize; 5] = [0, 64, 1_024, 4_095, 4_096];
/// Lengths of which every place has its file, and places of a group of four.
const SHORT: usize = 20;
const GROUP: usize = 4;

pub const OWNERS: [Owner; 9] = [
    Owner::Chain(1),
    Owner::Chain(2),
    Owner::Chain(63),
    Owner::Orphan,
    Owner::Circle,
    Owner::Both,
    Owner::Nameless,
    Owner::Nobody,
    Owner::Behind,
];

/// The smaller sets come first: wrong readings are then caught early.
pub fn plans() -> impl Iterator<Item = Plan> {
    let few = alike().chain(owners()).chain(pairs()).chain([several(), one_bucket()]);
    let long = LONG.into_iter().enumerate().map(|(i, length)| long(i, length));
    let each = |shape| (1..=SHORT).map(move |length| every_place(length, shape));
    few.chain(shapes().flat_map(|shape| [runs(shape), words(shape)]))
        .chain(long)
        .chain(shapes().flat_map(each))
}

/// Texts at each place of a group, with their stored 0 and without.
fn shapes() -> impl Iterator<Item = Shape> {
    [false, true]
        .into_iter()
        .flat_map(|stored| (0..GROUP).map(move |before| Shape { before, stored, backwards: false }))
}

/// Characters beside the letter: ASCII that folds, ASCII that does not, what else folds
/// and its neighbours, and letters of the words.
const RESTS: [&str; 4] = ["erdomezitk", "ERD 12-_!(", "áéíóöüúðñ÷øÿþ\u{9c}ß", "űŰáaZíű 9öé"];

/// A text with the letter at a place, among characters of one sort.
fn with_letter(rng: &mut Rng, length: usize, place: usize, sort: usize) -> Text {
    let rest = text(RESTS[sort % RESTS.len()]);
    (0..length).map(|i| if i == place { LETTER } else { *rng.pick(&rest) }).collect()
}

/// Texts of one length with the letter at each place, and with its capital there.
fn every_place(length: usize, shape: Shape) -> Plan {
    let mut rng = Rng::new((length * GROUP + shape.before) as u64);
    let with = |place| with_letter(&mut rng, length, place, length + place);
    let letters: Vec<Text> = (0..length).map(with).collect();
    let capitals: Vec<Text> = letters.iter().map(|text| exchanged(text)).collect();
    let owners = [Owner::Chain(1), Owner::Orphan, Owner::Chain(2), Owner::Circle];
    let owner = owners[(length + shape.before) % owners.len()];
    let texts = [letters, capitals].concat();
    Plan { common: shape.stored, ..of_one(format!("each place of {length}"), texts, owner, shape) }
}

/// Texts of nothing but the letter.
fn runs(shape: Shape) -> Plan {
    let texts = (1..=SHORT).map(|length| vec![LETTER; length]).collect();
    of_one("the letter alone".to_string(), texts, Owner::Chain(1), shape)
}

/// A quarter of the words.
fn words(shape: Shape) -> Plan {
    let own = WORDS.iter().skip(shape.before).step_by(GROUP).map(|word| text(word)).collect();
    of_one("words".to_string(), own, Owner::Chain(1), shape)
}

/// Long texts with the letter at an end or where a program may change its way.
fn long(number: usize, length: usize) -> Plan {
    let shape = Shape { before: number % GROUP, stored: number % 8 < 4, backwards: false };
    let inner = if length > 256 { &FAR_PLACES[..] } else { &PLACES[..] };
    let inner = inner.iter().copied().filter(|&place| place < length - 2);
    let mut rng = Rng::new(length as u64);
    let texts = inner.chain([length - 2, length - 1]);
    let texts = texts.map(|place| with_letter(&mut rng, length, place, number + place));
    of_one(format!("long, of {length}"), texts.collect(), Owner::Chain(1), shape)
}

fn of_one(words: String, texts: Vec<Text>, owner: Owner, shape: Shape) -> Plan {
    let texts = texts.into_iter().map(|text| (text, owner)).collect();
    let words = format!("{words}, {owner:?}, {shape:?}");
    let content = Content { texts, shape, names: Vec::new() };
    Plan { words, content, every_mix: false, common: false }
}

/// Texts that both rules give one value hash: these files are accepted by either.
fn alike() -> impl Iterator<Item = Plan> {
    let texts = [text(PHRASE), text(ITEM), one_letter(), vec![CAPITAL; 4]];
    (0..GROUP).map(move |before| {
        let shape = Shape { before, stored: before % 2 == 0, backwards: false };
        of_one("alike".to_string(), texts.to_vec(), Owner::Chain(1), shape)
    })
}

const FEW: [&str; 6] = ["erdő", "Tűzerdő", "ERDŐ", "őr", PHRASE, "időjós"];

/// A text for each owner.
fn owners() -> impl Iterator<Item = Plan> {
    let each = |owner| FEW.iter().enumerate().map(move |(i, word)| (owner, i, word));
    OWNERS.into_iter().flat_map(each).map(|(owner, i, word)| {
        let shape = Shape { before: i % GROUP, stored: i % 2 == 0, backwards: false };
        of_one(format!("owners, {word}"), vec![text(word)], owner, shape)
    })
}

/// Two texts with two owners, by every two rules; and one text twice.
fn pairs() -> impl Iterator<Item = Plan> {
    let owners = OWNERS.into_iter().filter(|owner| !matches!(owner, Owner::Chain(2..)));
    let each = |one| OWNERS.into_iter().map(move |other| (one, other));
    owners.flat_map(each).flat_map(|(one, other)| {
        [false, true].map(|backwards| {
            let shape = Shape { before: 1, stored: backwards, backwards };
            let second = if one == other { "erdő" } else { "Mezőőr" };
            let words = format!("pairs, erdő {one:?}, {second} {other:?}, {shape:?}");
            let texts = vec![(text("erdő"), one), (text(second), other)];
            let content = Content { texts, shape, names: Vec::new() };
            Plan { words, content, every_mix: true, common: true }
        })
    })
}

/// Attributes of several nodes, of which any may be built by the rule of before.
fn several() -> Plan {
    let owners = [Owner::Chain(2), Owner::Orphan, Owner::Chain(1), Owner::Nameless, Owner::Orphan];
    let texts = ["őr", "Őrző", PHRASE, "erdő", "mező", "kő"].map(text).into_iter();
    let texts = texts.zip(owners.into_iter().chain([Owner::Chain(1)])).collect();
    let shape = Shape { before: 2, stored: false, backwards: true };
    let content = Content { texts, shape, names: Vec::new() };
    Plan { words: "several".to_string(), content, every_mix: true, common: true }
}

/// Two values and two names that differ in the letter alone, in one bucket each.
fn one_bucket() -> Plan {
    let pair = vec![in_one_bucket(), exchanged(&in_one_bucket())];
    let shape = Shape { before: 0, stored: true, backwards: false };
    let mut plan = of_one("one bucket".to_string(), pair.clone(), Owner::Chain(1), shape);
    plan.content.names = pair;
    plan
}

#[cfg(test)]
mod tests {
    use super::*;
    use second::{Careful, Index, Literal, Loader, Marked, Plain, Reading, Right};

    fn accept<R: Reading + Default, I: Index>(file: &[u8], nodes: usize) -> (u32, u64) {
        let mut workspace = vec![0; nodes];
        let answer = Loader::<R, I>::new(R::default()).accept(file, &mut workspace);
        (answer.refusal, answer.value)
    }

    /// Every form of the second program answers what the request says.
    #[test]
    fn files_are_what_they_say() {
        let (mut accepted, mut refused) = (0, 0);
        for plan in plans() {
            for rules in plan.rules() {
                let made = plan.content.file(&rules);
                let (file, nodes) = (made.made.model.bytes(), made.made.model.used_nodes());
                let told = made.refused_at().map_or((0, nodes as u64), |at| (19, at));
                assert_eq!(accept::<Right, Plain>(&file, nodes), told, "{}", plan.words);
                assert_eq!(accept::<Right, Careful>(&file, nodes), told, "{}", plan.words);
                assert_eq!(accept::<Right, Marked>(&file, nodes), told, "{}", plan.words);
                assert_eq!(accept::<Literal, Marked>(&file, nodes), told, "{}", plan.words);
                accepted += (told.0 == 0) as u32;
                refused += (told.0 == 19) as u32;
            }
        }
        assert!(accepted > 300 && refused > 2_000, "{accepted} accepted, {refused} refused");
    }
}
