//! Wrong readings of request T-10 about attributes: whose value hash is checked, by which
//! fold, and in which order. Only mutants come this far, so plain words matter more than
//! speed.

use std::ops::Range;

use crate::answer::{refuse, Refusal};
use crate::bytes::Address;
use crate::definition::text;
use crate::hash::value_hash;
use crate::index::Plain;
use crate::letter::{holds_it, with_capital};
use crate::node::{Attribute, Node, ATTRIBUTE};
use crate::nodes::NodeChecks;
use crate::reading::{Mutant, Reading, Right, Wrong};
use crate::wrong_tree::{node_offsets, reached};

/// Those that take an attribute's code for another one.
const TAKE: [Mutant; 8] = [
    Mutant::EitherFold,
    Mutant::LetterFree,
    Mutant::SameBitsRefused,
    Mutant::OldOnChains,
    Mutant::OldOnOrphans,
    Mutant::OldWithoutZero,
    Mutant::OldOfValueName,
    Mutant::CodesFree,
];

/// Those that look at all codes in one go.
const LOOK: [Mutant; 7] = [
    Mutant::CodesEarly,
    Mutant::CodesLate,
    Mutant::CodesByPlace,
    Mutant::LastCode,
    Mutant::NamelessCodes,
    Mutant::StrayCodes,
    Mutant::SlackCodes,
];

/// What a text attribute refers to: the text, and its value hash by the fold and by the
/// one of before.
struct Referred<'a> {
    text: &'a [u8],
    stored: bool,
    now: u16,
    before: u16,
}

impl<'a, R: Reading> NodeChecks<'a, R> {
    #[inline(always)]
    fn among(&self, mutants: &[Mutant]) -> bool {
        mutants.iter().any(|&mutant| self.reading.wrong(mutant))
    }

    /// An attribute of a node as a wrong reading takes it: its code is right where that
    /// reading finds it right. The right reading takes it as it is.
    #[inline(always)]
    pub fn taken(&self, attribute: Attribute, node: usize) -> Attribute {
        if self.among(&TAKE) && attribute.kind() == 3 {
            return self.taken_wrongly(attribute, node);
        }
        attribute
    }

    fn taken_wrongly(&self, attribute: Attribute, node: usize) -> Attribute {
        let Some(referred) = self.referred(attribute) else {
            return attribute;
        };
        let Referred { text, now, before, .. } = referred;
        let wrong = |mutant| self.reading.wrong(mutant);
        let code = attribute.extended();
        let code = match () {
            _ if wrong(Mutant::CodesFree) => now,
            _ if wrong(Mutant::LetterFree) && holds_it(text) => now,
            _ if wrong(Mutant::EitherFold) && code == before => now,
            _ if wrong(Mutant::SameBitsRefused) && holds_it(text) && now == before => code ^ 1,
            // The code of before becomes the one of now, and no other does.
            _ if self.is_old(attribute, node, &referred) => code ^ now ^ before,
            _ => code,
        };
        Attribute { type_word: code << 2 | 3, ..attribute }
    }

    /// Whether the attribute's text folds as before.
    fn is_old(&self, attribute: Attribute, node: usize, referred: &Referred) -> bool {
        if referred.now == referred.before {
            return false;
        }
        let chain = reached(self.file, self.layout)[node];
        let wrong = [
            (Mutant::OldOnChains, chain),
            (Mutant::OldOnOrphans, !chain),
            (Mutant::OldWithoutZero, !referred.stored),
            (Mutant::OldOfValueName, attribute.name == self.special.value),
        ];
        wrong.into_iter().any(|(mutant, here)| here && self.reading.wrong(mutant))
    }

    fn referred(&self, attribute: Attribute) -> Option<Referred<'a>> {
        let chars = &self.layout.values.chars;
        let address = Address::from_word(attribute.word);
        let segment = chars.resolve(self.file, address)?;
        let end = segment.first + 2 * segment.used as usize;
        let used = &self.file[chars.element_at(segment, address.element)..end];
        let text = text(used);
        let (now, before) = (value_hash(Right, text), value_hash(Right, &with_capital(text)));
        Some(Referred { text, stored: text.len() < used.len(), now, before })
    }

    /// What a wrong reading tells before the checks of nodes.
    #[inline(always)]
    pub fn codes_before(&self) -> Result<(), Refusal> {
        if self.reading.wrong(Mutant::CodesLate) {
            self.without_codes()?;
        }
        if self.reading.wrong(Mutant::CodesEarly) {
            return told(self.wrong_codes(self.ranges(true)).first());
        }
        Ok(())
    }

    /// All checks but for the codes of texts.
    pub fn without_codes(&self) -> Result<(), Refusal> {
        let NodeChecks { file, layout, special, .. } = *self;
        let reading = Wrong(Mutant::CodesFree);
        NodeChecks { reading, file, layout, special }.run::<Plain>(Plain)
    }

    /// What a wrong reading makes of what the checks came to.
    #[inline(always)]
    pub fn codes_behind(&self, outcome: Result<(), Refusal>) -> Result<(), Refusal> {
        if self.among(&LOOK) {
            return self.told_wrongly(outcome);
        }
        outcome
    }

    fn told_wrongly(&self, outcome: Result<(), Refusal>) -> Result<(), Refusal> {
        let wrong = |mutant| self.reading.wrong(mutant);
        let Err(refusal) = outcome else {
            return match () {
                _ if wrong(Mutant::NamelessCodes) => {
                    told(self.wrong_codes(self.ranges(false)).first())
                }
                _ if wrong(Mutant::StrayCodes) => told(self.wrong_codes(self.strays()).first()),
                _ if wrong(Mutant::SlackCodes) => told(self.wrong_codes(self.slacks()).first()),
                _ => Ok(()),
            };
        };
        let codes = self.wrong_codes(self.ranges(true));
        if refusal.number != 19 || !codes.contains(&(refusal.place as usize)) {
            return outcome;
        }
        match () {
            _ if wrong(Mutant::CodesByPlace) => told(codes.iter().min()),
            _ if wrong(Mutant::LastCode) => told(codes.last()),
            _ => outcome,
        }
    }

    /// Offsets of the text attributes of some ranges whose code is wrong.
    fn wrong_codes(&self, ranges: Vec<Range<usize>>) -> Vec<usize> {
        let mut all: Vec<usize> =
            ranges.into_iter().flat_map(|range| range.step_by(ATTRIBUTE)).collect();
        all.retain(|&at| {
            let attribute = Attribute::at(self.file, at);
            let referred = self.referred(attribute).filter(|_| attribute.kind() == 3);
            referred.is_some_and(|referred| referred.now != attribute.extended())
        });
        all
    }

    /// The attribute ranges of live nodes, or of nameless ones, that resolve.
    fn ranges(&self, live: bool) -> Vec<Range<usize>> {
        let nodes = node_offsets(self.file, self.layout).into_iter();
        let nodes = nodes.map(|at| Node::at(self.file, at)).filter(|node| (node.name != 0) == live);
        nodes.filter_map(|node| self.range(node)).collect()
    }

    fn range(&self, node: Node) -> Option<Range<usize>> {
        let (address, count) = (node.attribute_address, node.attributes);
        let region = &self.layout.attributes;
        let segment = region.segment(self.file, address.segment)?;
        let first = region.element_at(segment, address.element);
        let resolves = segment.holds(address.element, count);
        resolves.then_some(first..first + ATTRIBUTE * count as usize)
    }

    /// Each used attribute that is in no node's range.
    fn strays(&self) -> Vec<Range<usize>> {
        let had = [self.ranges(true), self.ranges(false)].concat();
        let segments = self.layout.attributes.in_order(self.file);
        let used = segments.flat_map(|segment| {
            (0..segment.used as usize).map(move |i| segment.first + ATTRIBUTE * i)
        });
        let stray = used.filter(|at| !had.iter().any(|range| range.contains(at)));
        stray.map(|at| at..at + ATTRIBUTE).collect()
    }

    /// The attributes behind the used counts.
    fn slacks(&self) -> Vec<Range<usize>> {
        let segments = self.layout.attributes.in_order(self.file);
        let at = |first: usize, count: u32| first + ATTRIBUTE * count as usize;
        segments
            .map(|segment| at(segment.first, segment.used)..at(segment.first, segment.full))
            .collect()
    }
}

/// 19 at an attribute, if there is one.
fn told(code: Option<&usize>) -> Result<(), Refusal> {
    code.map_or(Ok(()), |&at| refuse(19, at))
}
