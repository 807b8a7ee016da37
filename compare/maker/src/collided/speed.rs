//! Files for the speed of look-ups that find a text, that find none, and that collide.

use std::collections::HashSet;

use second::Which;

use crate::collide::{beginnings, closed};
use crate::model::Model;
use crate::rng::Rng;
use crate::text::Text;
use crate::traps::parts::{names, table_of, Parts};

/// A file, and texts of four characters to ask for.
pub struct Asked {
    pub model: Model,
    pub found: Vec<Text>,
    pub absent: Vec<Text>,
    pub collided: Vec<Text>,
}

impl Asked {
    /// The table has so many texts, and so many of them have each hash. Hashes stand
    /// anywhere. As many texts are absent and collide as are there.
    pub fn new(which: Which, texts: usize, of_hash: usize) -> Asked {
        let mut rng = Rng::new(texts as u64);
        let mut beginnings = beginnings();
        let mut text = |wished| beginnings.find_map(|two| closed(&two, wished)).expect("enough");
        let mut taken = HashSet::new();
        let mut fresh = || loop {
            let hash = rng.word();
            if taken.insert(hash) {
                return hash;
            }
        };
        let (mut found, mut collided) = (Vec::new(), Vec::new());
        for hash in (0..texts / of_hash).map(|_| fresh()).collect::<Vec<_>>() {
            found.extend((0..of_hash).map(|_| text(hash)));
            collided.extend((0..of_hash).map(|_| text(hash)));
        }
        let absent = (0..texts).map(|_| text(fresh())).collect();
        let mut all = found.clone();
        Rng::new(7).shuffle(&mut all);
        let parts = match which {
            Which::Names => Parts::new(all),
            Which::Values => Parts { values: table_of(&all), ..Parts::new(names(1)) },
        };
        Asked { model: parts.model(), found, absent, collided }
    }
}

#[cfg(test)]
mod tests {
    use super::*;
    use crate::text::to_bytes;
    use second::{Loader, Plain, Right};

    #[test]
    fn texts_are_what_they_say() {
        let loader: Loader<Right, Plain> = Loader::new(Right);
        for (which, of_hash) in [(Which::Names, 1), (Which::Names, 25), (Which::Values, 10)] {
            let asked = Asked::new(which, 100, of_hash);
            let (bytes, mut workspace) = (asked.model.bytes(), [0; 1]);
            let view = match loader.hold(&bytes, &mut workspace) {
                Ok(view) => view,
                Err(refusal) => panic!("{which:?}, {of_hash}: {refusal:?}"),
            };
            let told = |text: &Text| view.single(which, &to_bytes(text));
            assert!(asked.found.iter().all(|text| told(text).kind == 0));
            assert!(asked.absent.iter().all(|text| told(text).kind == 1));
            let collides = |text: &Text| (told(text).kind, told(text).value) == (2, of_hash as u64);
            assert!(asked.collided.iter().all(collides));
        }
    }
}
