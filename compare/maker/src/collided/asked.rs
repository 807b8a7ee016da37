//! Texts to ask for: with the hash of others or one like it, and with a 0.

use super::strings::{begun, idle_word, near, with_hash, Group, CAPITALS, SMALL};
use crate::collide::{closed_before_zero, closing};
use crate::rng::Rng;
use crate::text::{letters, text, Text};

/// Letters before the two characters that give a text its hash: fewer than those of the
/// entries, as many, and more.
const BEGINNINGS: [usize; 13] = [1, 2, 3, 4, 5, 6, 7, 8, 10, 12, 31, 63, 200];

/// At most so many entries of the hash are asked for one by one.
const PRESENT: usize = 12;

/// Texts without a 0: those of the hash that are there, in the order of their entries, or
/// some of them with both ends; others of the hash; and those of hashes like it.
pub fn without_zero(
    rng: &mut Rng,
    hash: u32,
    buckets: u32,
    group: &Group,
    equal: &[Text],
) -> Vec<Text> {
    let mut all = vec![Text::new(), text(CAPITALS), text(SMALL), group.stem.clone()];
    all.extend(BEGINNINGS.map(|beginning| with_hash(rng, beginning, hash)));
    // A low byte of 0, and a 0 across two characters.
    for beginning in [&[0x4100][..], &[0x41, 0x4100], &[0x41, 0x41, 0x41, 0x41, 0x4200]] {
        all.push(begun(rng, beginning, hash));
    }
    all.extend(near(hash, buckets).into_iter().map(|hash| with_hash(rng, 4, hash)));
    if let Some(one) = equal.get(equal.len() / 2) {
        all.extend([begun(rng, one, hash), [idle_word(), one.clone()].concat()]);
        all.extend([one[1.min(one.len())..].to_vec(), [&one[..], &[0x61]].concat()]);
    }
    let apart = equal.len().div_ceil(PRESENT).max(1);
    all.extend(equal.iter().step_by(apart).chain(equal.last()).cloned());
    all
}

/// Texts that hold a 0 and have the hash, as far as that can be: at each place of some
/// lengths, before texts of the hash, and far behind. Others have the hash up to the 0.
pub fn with_zero(rng: &mut Rng, hash: u32, group: &Group, equal: &[Text]) -> Vec<Text> {
    let mut all = vec![vec![0], vec![0; 2], vec![0; 7]];
    for (length, place) in [(4, 0), (5, 2), (6, 1), (7, 4), (8, 0), (8, 5), (11, 8), (80, 70)] {
        let mut text = letters(rng, length - 2, length - 2);
        text[place] = 0;
        let end = closing(&text, hash);
        text.extend(end);
        all.push(text);
    }
    let ends = [1, 2, 3, 4, 78].into_iter();
    all.extend(ends.filter_map(|length| closed_before_zero(&letters(rng, length, length), hash)));
    for own in [Some(&group.stem), equal.first(), equal.last()].into_iter().flatten() {
        all.extend([[&[0], &own[..]].concat(), [&[0; 4], &own[..]].concat()]);
        all.extend([[&own[..], &[0]].concat(), [&own[..], &[0, 0x61]].concat()]);
    }
    all
}
