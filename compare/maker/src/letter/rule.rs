//! The two rules for 0151, and value hashes by either.

use second::hashes::by_definition;

use crate::model::{Addr, Attr};
use crate::text::{to_bytes, Text};

pub const LETTER: u16 = 0x0151;
/// What it folded to before.
pub const CAPITAL: u16 = 0x0150;

#[derive(Clone, Copy, Debug, PartialEq, Eq)]
pub enum Rule {
    /// 0151 folds to itself.
    Now,
    /// 0151 folds to 0150.
    Before,
}

impl Rule {
    /// The fold, said here once more: what a file has to answer then does not depend on
    /// the program that is asked.
    fn fold(self, character: u16) -> u16 {
        match character {
            LETTER if self == Rule::Before => CAPITAL,
            0x009c => 0x008c,
            0x00ff => 0x009f,
            0x00f0 | 0x00f7 => character,
            0x0061..=0x007a | 0x00e0..=0x00fe => character - 0x20,
            _ => character,
        }
    }

    /// The hash of the folded characters, all of its bits.
    pub fn hash(self, text: &[u16]) -> u32 {
        let folded: Text = text.iter().map(|&character| self.fold(character)).collect();
        by_definition::hash(0, &to_bytes(&folded))
    }

    pub fn value_hash(self, text: &[u16]) -> u16 {
        self.hash(text) as u16 & 0x3fff
    }

    /// An attribute whose value hash is built by the rule.
    pub fn attribute(self, name: u16, text: &[u16], address: Addr) -> Attr {
        Attr {
            name,
            type_word: self.value_hash(text) << 2 | 3,
            word: (address.1 as u32) << 16 | address.0 as u32,
            ignored: 0,
        }
    }
}

/// The text with 0150 for 0151 and 0151 for 0150.
pub fn exchanged(text: &[u16]) -> Text {
    let other = |character| match character {
        LETTER => CAPITAL,
        CAPITAL => LETTER,
        _ => character,
    };
    text.iter().map(|&character| other(character)).collect()
}

#[cfg(test)]
mod tests {
    use super::*;
    use crate::text::text;

    #[test]
    fn rules_part_at_the_letter_alone() {
        for character in 0..=0xffff {
            let both = [Rule::Now, Rule::Before].map(|rule| rule.fold(character));
            let apart = if character == LETTER { [LETTER, CAPITAL] } else { [both[0]; 2] };
            assert_eq!(both, apart);
        }
    }

    #[test]
    fn the_rule_of_before_takes_the_capital_for_the_letter() {
        let (small, capital) = (text("t\u{171}zerd\u{151}"), text("t\u{171}zerd\u{150}"));
        assert_eq!(exchanged(&small), capital);
        assert_eq!(Rule::Before.hash(&small), Rule::Now.hash(&capital));
        assert_ne!(Rule::Now.hash(&small), Rule::Now.hash(&capital));
    }
}
