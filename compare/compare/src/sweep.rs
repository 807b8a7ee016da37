//! Systematic files: every cut and every overwritten byte of small files, and
//! both sides of every limit.

use maker::damage;
use maker::dropped::Behind;
use maker::ends::{ends, Spec};
use maker::rich::rich;
use maker::rng::Rng;
use maker::shapes::{
    chains, far_nodes, long_segment, long_text, many_keys, many_names, many_segments, many_values,
    one_text_a_segment, smallest, smallest_stored, wide, PARTS,
};

use crate::case::{Case, WORDS};

/// A small file with some of everything.
fn small(rng: &mut Rng) -> Case {
    loop {
        let made = rich(rng, 12);
        if !made.values.is_empty() && made.model.attributes.segments.len() > 1 {
            return Case::of(&made, rng, "small".to_string());
        }
    }
}

/// A small file whose texts end with the used part.
fn small_dropped(rng: &mut Rng) -> Case {
    let behind = Behind::OthersAndZero;
    let made = ends(rng, Spec { length: 6, before: 3, segment: 1, behind, name: None }).made;
    Case::of(&made, rng, "small, with texts that end with the used part".to_string())
}

/// Every length of a file up to its own and one more.
pub fn cuts(rng: &mut Rng) -> impl Iterator<Item = Case> {
    let smallest = Case::of(&smallest(), rng, "smallest".to_string());
    let stored = Case::of(&smallest_stored(), rng, "smallest with its last 0".to_string());
    [smallest, stored, small(rng)].into_iter().flat_map(|case| {
        (0..=case.bytes.len() + 1).map(move |length| {
            let mut bytes = case.bytes.clone();
            bytes.resize(length, 0);
            light(&case, bytes, format!("{} cut to {length}", case.words))
        })
    })
}

/// A wrong count and the file cut at every byte just after it: a limit is
/// tested as soon as its count is read.
pub fn cut_counts(rng: &mut Rng) -> impl Iterator<Item = Case> {
    let mut rng = rng.clone();
    let counts: Vec<_> = damage::all().filter(|damage| damage.aim == 5).collect();
    (0..40).flat_map(move |number| {
        let mut made = rich(&mut rng, 12);
        let case = Case::of(&made, &mut rng, "wrong count".to_string());
        let damage = counts[number % counts.len()];
        damage.apply(&mut made.model, &mut rng);
        let bytes = made.model.bytes();
        let changed = bytes.iter().zip(&case.bytes).position(|(a, b)| a != b).unwrap_or(0);
        (changed..(changed + 10).min(bytes.len())).map(move |length| {
            let words = format!("{}, cut to {length}", damage.words);
            light(&case, bytes[..length].to_vec(), words)
        })
    })
}

/// Every byte of a small file changed in one bit and in all, one at a time.
pub fn changed_bytes(rng: &mut Rng) -> impl Iterator<Item = Case> {
    let cases = [small(rng), small_dropped(rng)];
    let mut rng = rng.clone();
    cases.into_iter().flat_map(move |case| {
        let mut rng = Rng::new(rng.draw());
        (0..2 * case.bytes.len()).map(move |number| {
            let (at, one_bit) = (number / 2, number % 2 == 0);
            let change = if one_bit { 1 << rng.below(8) } else { 0xff };
            let mut bytes = case.bytes.clone();
            bytes[at] ^= change;
            light(&case, bytes, format!("{}, byte {at} changed by {change:02x}", case.words))
        })
    })
}

/// Every word of a small file written over with one that upsets counts.
pub fn changed_words(rng: &mut Rng) -> impl Iterator<Item = Case> {
    let cases = [small(rng), small_dropped(rng)];
    let mut rng = rng.clone();
    cases.into_iter().flat_map(move |case| {
        let mut rng = Rng::new(rng.draw());
        (0..case.bytes.len() - 3).step_by(2).map(move |at| {
            let word = *rng.pick(&WORDS);
            let mut bytes = case.bytes.clone();
            bytes[at..at + 4].copy_from_slice(&word.to_le_bytes());
            light(&case, bytes, format!("{}, word at {at} set to {word:08x}", case.words))
        })
    })
}

/// One of thousands of like files is worth two questions.
fn light(case: &Case, bytes: Vec<u8>, words: String) -> Case {
    let mut made = case.with(bytes, words);
    made.weight = 2;
    made
}

/// Both sides of every limit, one file each, made when it is its turn: some are
/// large.
pub fn limits() -> Vec<fn(&mut Rng) -> Case> {
    let mut all: Vec<fn(&mut Rng) -> Case> = vec![
        |rng| Case::of(&smallest(), rng, "smallest".to_string()),
        |rng| Case::of(&smallest_stored(), rng, "smallest with its last 0".to_string()),
        |rng| Case::of(&many_keys(1), rng, "1 key".to_string()),
        |rng| Case::of(&many_keys(0), rng, "0 keys".to_string()),
        |rng| Case::of(&many_keys(4_095), rng, "4,095 keys".to_string()),
        |rng| Case::of(&many_keys(4_096), rng, "4,096 keys".to_string()),
        |rng| Case::of(&many_keys(4_097), rng, "4,097 keys".to_string()),
        |rng| in_few(many_names(rng, 65_535), rng, "65,536 as names address count"),
        |rng| in_few(many_names(rng, 65_536), rng, "65,537 as names address count"),
        |rng| in_few(many_values(rng, 65_535), rng, "65,536 as values address count"),
        |rng| in_few(many_values(rng, 65_536), rng, "65,537 as values address count"),
        |rng| in_few(wide(rng, 65_534), rng, "65,534 children"),
        |rng| in_few(one_text_a_segment(rng, 9_000), rng, "9,002 segments of one text"),
        |rng| in_few(far_nodes(rng, 3_000), rng, "nodes in 3,000 segments"),
        |rng| in_few(long_text(rng, 65_534, true), rng, "65,534 characters and the 0"),
        |rng| in_few(long_text(rng, 65_534, false), rng, "65,534 characters without the 0"),
        |rng| in_few(long_text(rng, 65_535, false), rng, "65,535 characters without the 0"),
    ];
    all.extend([
        |rng: &mut Rng| chain(rng, 63),
        |rng: &mut Rng| chain(rng, 64),
        |rng: &mut Rng| chain(rng, 65),
        |rng: &mut Rng| chain(rng, 66),
    ]);
    all.extend(segment_limits());
    all
}

/// Segment counts and full counts of each region.
fn segment_limits() -> [fn(&mut Rng) -> Case; 16] {
    [
        |rng| segments(rng, 0, 65_535),
        |rng| segments(rng, 0, 65_536),
        |rng| segments(rng, 1, 65_535),
        |rng| segments(rng, 1, 65_536),
        |rng| segments(rng, 2, 65_535),
        |rng| segments(rng, 2, 65_536),
        |rng| segments(rng, 3, 65_535),
        |rng| segments(rng, 3, 65_536),
        |rng| full(rng, 0, 65_535),
        |rng| full(rng, 0, 65_536),
        |rng| full(rng, 1, 65_535),
        |rng| full(rng, 1, 65_536),
        |rng| full(rng, 2, 65_535),
        |rng| full(rng, 2, 65_536),
        |rng| full(rng, 3, 65_535),
        |rng| full(rng, 3, 65_536),
    ]
}

/// A large file is worth few questions.
fn in_few(made: maker::rich::Made, rng: &mut Rng, words: &str) -> Case {
    let mut case = Case::of(&made, rng, words.to_string());
    case.weight = 10;
    case
}

fn chain(rng: &mut Rng, length: usize) -> Case {
    let made = chains(rng, &[length], false);
    Case::of(&made, rng, format!("a chain of {length}"))
}

fn segments(rng: &mut Rng, part: usize, count: usize) -> Case {
    let made = many_segments(PARTS[part], count);
    in_few(made, rng, &format!("{count} segments of {:?}", PARTS[part]))
}

fn full(rng: &mut Rng, part: usize, count: usize) -> Case {
    let made = long_segment(PARTS[part], count);
    in_few(made, rng, &format!("a full count of {count} in {:?}", PARTS[part]))
}
