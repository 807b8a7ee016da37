//! What look-ups in a table have to answer, by the texts that it was made of.

use std::collections::HashMap;

use crate::collide::hash;
use crate::text::Text;

#[derive(Clone, Copy, Debug, PartialEq, Eq)]
pub enum Lookup {
    /// A name's index, or a value's address as a number.
    Found(u32),
    Absent,
    /// So many texts of the table have the hash.
    Collided(u32),
}

impl Lookup {
    pub fn kind(self) -> u32 {
        match self {
            Lookup::Found(_) => 0,
            Lookup::Absent => 1,
            Lookup::Collided(_) => 2,
        }
    }

    pub fn value(self) -> u32 {
        match self {
            Lookup::Found(number) => number,
            Lookup::Absent => 0,
            Lookup::Collided(texts) => texts,
        }
    }
}

pub struct Known {
    numbers: HashMap<Text, u32>,
    /// How many texts have each hash.
    hashes: HashMap<u32, u32>,
}

impl Known {
    /// All texts of a table, with the numbers that look-ups answer for them.
    pub fn new<'a>(texts: impl Iterator<Item = (&'a Text, u32)>) -> Known {
        let numbers: HashMap<Text, u32> =
            texts.map(|(text, number)| (text.clone(), number)).collect();
        let mut hashes = HashMap::new();
        for text in numbers.keys() {
            *hashes.entry(hash(text)).or_insert(0) += 1;
        }
        Known { numbers, hashes }
    }

    pub fn number(&self, text: &[u16]) -> Option<u32> {
        self.numbers.get(text).copied()
    }

    pub fn look_up(&self, text: &[u16]) -> Lookup {
        if let Some(number) = self.number(text) {
            return Lookup::Found(number);
        }
        match self.hashes.get(&hash(text)) {
            Some(&texts) if !text.contains(&0) => Lookup::Collided(texts),
            _ => Lookup::Absent,
        }
    }
}

#[cfg(test)]
mod tests {
    use super::*;
    use crate::collide::closed;
    use crate::text::text;

    #[test]
    fn found_absent_or_collided() {
        let own = hash(&text("a"));
        let twins: Vec<Text> =
            ["b", "c", "d"].iter().filter_map(|begin| closed(&text(begin), own)).collect();
        let known = Known::new([(&text("a"), 7), (&twins[0], 8), (&text("x"), 9)].into_iter());
        assert_eq!(known.look_up(&text("a")), Lookup::Found(7));
        assert_eq!(known.look_up(&twins[1]), Lookup::Collided(2));
        assert_eq!(known.look_up(&[&[0], &twins[1][..]].concat()), Lookup::Absent);
        assert_eq!(known.look_up(&text("y")), Lookup::Absent);
        assert_eq!(known.look_up(&[]), Lookup::Absent);
    }
}
