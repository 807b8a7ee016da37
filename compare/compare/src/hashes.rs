//! Questions for the hashes of a text by itself, without a file.

use maker::rng::Rng;

use crate::guard::Edge;

#[derive(Clone, Debug)]
pub enum HashAsk {
    /// The string hash from a start, of the parts between these cuts, each on
    /// from the hash before; then that of the whole text from the same start.
    Parts(u32, Vec<usize>),
    /// The value hash of so many bytes of the text.
    Value(usize),
}

#[derive(Clone, Debug)]
pub struct HashQuestion {
    pub ask: HashAsk,
    /// Which edge of each part touches an unmapped page.
    pub edge: Edge,
    /// Empty parts are lent as null pointers.
    pub null: bool,
}

impl HashQuestion {
    pub fn new(rng: &mut Rng, ask: HashAsk) -> HashQuestion {
        HashQuestion { ask, edge: *rng.pick(&[Edge::End, Edge::Start]), null: rng.one_in(2) }
    }

    /// Whether the last part's hash is that of the whole text.
    pub fn joined(&self, hashes: &[u32]) -> bool {
        match (&self.ask, hashes) {
            (HashAsk::Parts(..), [.., last, whole]) => last == whole,
            _ => true,
        }
    }
}

/// Texts of so many bytes are cut in three in every way.
const EVERY_PAIR: usize = 24;

/// Texts of so many bytes are cut at every byte, longer ones here and there.
const EVERY_CUT: usize = 4_096;

/// All questions for a text: whole, in two and in three parts, odd ones among
/// them, and the value hash of its beginnings.
pub fn questions(rng: &mut Rng, text: &[u8]) -> Vec<HashQuestion> {
    let length = text.len();
    let places = places(rng, length);
    let mut cuts = vec![vec![]; 3];
    cuts.extend(places.iter().map(|&cut| vec![cut]));
    for &first in &places {
        if length <= EVERY_PAIR {
            cuts.extend((first..=length).map(|second| vec![first, second]));
        } else {
            let second = rng.between(0, length);
            cuts.push(vec![first.min(second), first.max(second)]);
        }
    }
    let starts = [0, u32::MAX, rng.word(), rng.word() & 0x3fff];
    let parts = |(number, cuts)| HashAsk::Parts(starts[number % starts.len()], cuts);
    let values = places.iter().map(|&bytes| HashAsk::Value(bytes));
    let asks: Vec<HashAsk> = cuts.into_iter().enumerate().map(parts).chain(values).collect();
    asks.into_iter().map(|ask| HashQuestion::new(rng, ask)).collect()
}

/// Every place between two bytes; in a long text those at its ends, on both
/// sides of each power of two, and some others.
fn places(rng: &mut Rng, length: usize) -> Vec<usize> {
    if length <= EVERY_CUT {
        return (0..=length).collect();
    }
    let powers = (0..usize::BITS).map(|bits| 1 << bits).take_while(|&power| power < length);
    let mut places: Vec<usize> = powers.flat_map(|power| power - 1..=power + 1).collect();
    places.extend(length - 3..=length);
    places.extend((0..16).map(|_| rng.between(0, length)));
    places
}

#[cfg(test)]
mod tests {
    use super::*;

    #[test]
    fn every_cut_and_every_pair() {
        let mut rng = Rng::new(1);
        let cuts_of = |question: HashQuestion| match question.ask {
            HashAsk::Parts(_, cuts) => Some(cuts),
            HashAsk::Value(_) => None,
        };
        let all: Vec<_> = questions(&mut rng, &[7; 5]).into_iter().filter_map(cuts_of).collect();
        for first in 0..=5 {
            assert!(all.contains(&vec![first]));
            assert!((first..=5).all(|second| all.contains(&vec![first, second])));
        }
    }
}
