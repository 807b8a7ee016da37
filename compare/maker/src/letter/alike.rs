//! Texts that both rules give one value hash, though they hold the letter.
//!
//! The hash is linear: flipping a bit of a character changes it by what that bit alone
//! makes of the hash 0 with as many characters 0 behind it. The rules take 0151 for 0151
//! and for 0150, which is one bit. So what they make of a text differs by the xor of one
//! change for each letter, and only the numbers of characters behind the letters matter.

use second::hashes::by_definition;

use super::rule::{Rule, CAPITAL, LETTER};
use crate::table::bucket_of;
use crate::text::{text, to_bytes, Text};

/// The two worked phrases, which [`phrases`] finds. The first is one of the shortest there.
/// Its two hashes have their low 16 bits in common, those of the second just the low 14.
pub const PHRASE: &str = "Kőfejtő és a főhős erői";
pub const ITEM: &str = "Erdő- és mezőőr öve, bőrből";

pub fn is_alike(text: &[u16]) -> bool {
    Rule::Now.value_hash(text) == Rule::Before.value_hash(text)
}

/// What the rules' hashes differ by for a letter with 0, 1, 2 … characters behind it.
pub fn changes() -> impl Iterator<Item = u32> {
    let first = by_definition::hash(0, &to_bytes(&[LETTER ^ CAPITAL]));
    std::iter::successors(Some(first), |&change| Some(by_definition::hash(change, &[0, 0])))
}

/// The letter and then as many characters as make it alike by itself.
pub fn one_letter() -> Text {
    let behind = changes().position(|change| change & 0x3fff == 0);
    lone(behind.unwrap_or(0))
}

/// The letter and then as many characters as keep the text's string hash in one bucket
/// of both tables where the letter becomes its capital.
pub fn in_one_bucket() -> Text {
    lone(changes().position(|change| bucket_of(change, 1024) == 0).unwrap_or(0))
}

fn lone(behind: usize) -> Text {
    let rest = text("r a kapu alatt, ").into_iter().cycle().take(behind);
    [LETTER].into_iter().chain(rest).collect()
}

const FIRST: [&str; 20] = [
    "Bőrcipő",
    "Erdő",
    "Erdőkerülő",
    "Erdőőr",
    "Erősítő",
    "Esőerdő",
    "Felhő",
    "Gőzfürdő",
    "Hős",
    "Időjelző",
    "Időmérő",
    "Jövőlátó",
    "Kőfejtő",
    "Kőtörő",
    "Mező",
    "Mezőőr",
    "Őrző",
    "Őserdő",
    "Szőlőtő",
    "Tőrvető",
];
const LINKS: [&str; 8] = [" ", " és ", " és a ", " és az ", "- és ", ", a ", ", az ", " meg a "];
const MIDDLE: [&str; 16] = [
    "első hős",
    "erdő",
    "erdőőr",
    "esőerdő",
    "felhő",
    "főhős",
    "hős",
    "időkő",
    "kő",
    "mező",
    "mezőőr",
    "őr",
    "őrző",
    "őz",
    "szőlőtő",
    "vén őr",
];
const LAST: [&str; 16] = [
    "",
    " 12",
    " bőrből",
    " cipője",
    " ereje",
    " erői",
    " ideje",
    " kője",
    " könyve",
    " kulcsa",
    " őre",
    " őrzője",
    " öve",
    " öve, bőrből",
    " sípja",
    " tőre",
];

/// The phrases of these words that are alike, the shortest first.
pub fn phrases() -> Vec<String> {
    let mut found = Vec::new();
    for (first, link) in FIRST.iter().flat_map(|first| LINKS.map(|link| (first, link))) {
        for (middle, last) in MIDDLE.iter().flat_map(|middle| LAST.map(|last| (middle, last))) {
            let phrase = format!("{first}{link}{middle}{last}");
            if is_alike(&text(&phrase)) {
                found.push(phrase);
            }
        }
    }
    found.sort_by_key(|phrase| phrase.chars().count());
    found
}

#[cfg(test)]
mod tests {
    use super::*;
    use crate::collide::hash;
    use crate::letter::rule::exchanged;

    #[test]
    fn worked_phrases_are_found() {
        let found = phrases();
        assert!(found.iter().any(|phrase| phrase == ITEM), "{found:?}");
        let shortest = found[0].chars().count();
        assert_eq!(PHRASE.chars().count(), shortest);
        assert!(found.iter().any(|phrase| phrase == PHRASE), "{found:?}");
    }

    #[test]
    fn worked_phrases_and_a_plain_word() {
        let both = |word: &str| [Rule::Now, Rule::Before].map(|rule| rule.hash(&text(word)));
        assert_eq!(both(PHRASE), [0x2163_9316, 0xd8bf_9316]);
        assert_eq!(both(ITEM), [0x03a6_2649, 0x0f85_e649]);
        assert_eq!(both("erdő"), [0x38fd_d9d9, 0x9b80_c5bf]);
        assert!(is_alike(&text(PHRASE)) && is_alike(&text(ITEM)) && !is_alike(&text("erdő")));
    }

    /// Whether letters with so many characters behind them, and one more letter with
    /// fewer behind it than all of them, can make a text alike.
    fn completes(changes: &[u32], letters: usize, sum: u32) -> bool {
        match letters {
            0 => sum & 0x3fff == 0,
            _ => {
                (0..changes.len()).any(|i| completes(&changes[..i], letters - 1, sum ^ changes[i]))
            }
        }
    }

    /// Characters of the shortest texts with so many letters that are alike: tried out
    /// for all places of the letters.
    #[test]
    fn shortest_texts_that_are_alike() {
        let changes: Vec<u32> = changes().take(2_000).collect();
        for (letters, shortest) in [(1, 1_738), (2, 120), (3, 70), (4, 26), (5, 22)] {
            let length = (1..).find(|&length| {
                completes(&changes[..length - 1], letters - 1, changes[length - 1])
            });
            assert_eq!(length, Some(shortest), "{letters}");
        }
    }

    #[test]
    fn lone_letters() {
        let one = one_letter();
        assert_eq!(one.len(), 1_738);
        assert!(is_alike(&one) && !is_alike(&one[..1_737]));
        let pair = [in_one_bucket(), exchanged(&in_one_bucket())];
        assert_eq!(pair[0].len(), 459);
        for buckets in [512, 1024] {
            let [one, other] = [0, 1].map(|i| bucket_of(hash(&pair[i]), buckets));
            assert_eq!(one, other);
        }
    }
}
