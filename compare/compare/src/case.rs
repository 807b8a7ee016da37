//! Files to ask about: accepted and damaged ones, from a seed.

use maker::damage;
use maker::model::{Model, Table};
use maker::rich::{rich, Made};
use maker::rng::Rng;
use maker::shapes::{chains, far_nodes, many_keys, many_values, one_text_a_segment, wide};
use maker::text::Text;
use maker::traps;

/// A file and what is known of what it holds, for questions.
#[derive(Clone)]
pub struct Case {
    pub bytes: Vec<u8>,
    pub words: String,
    pub names: Vec<Text>,
    pub values: Vec<Text>,
    /// Paths of names that lead to nodes of the undamaged file.
    pub paths: Vec<Vec<Text>>,
    /// How many questions it is worth.
    pub weight: usize,
}

impl Case {
    pub fn of(made: &Made, rng: &mut Rng, words: String) -> Case {
        let name = |&index: &u16| made.names[index as usize - 1].clone();
        let paths =
            (0..6).map(|_| made.tree.random_path(rng, 6).iter().map(name).collect()).collect();
        let few = |texts: &[Text]| texts.iter().take(400).cloned().collect();
        Case {
            bytes: made.model.bytes(),
            words,
            names: few(&made.names),
            values: few(&made.values),
            paths,
            weight: 24,
        }
    }

    /// The same with other bytes, worth fewer questions.
    pub fn with(&self, bytes: Vec<u8>, words: String) -> Case {
        Case { bytes, words, weight: 5, ..self.clone() }
    }
}

/// A random case.
pub fn random(rng: &mut Rng) -> Case {
    let most = *rng.pick(&[3, 20, 60, 60, 150]);
    match rng.below(20) {
        0..=6 => {
            let made = rich(rng, most);
            Case::of(&made, rng, "rich".to_string())
        }
        7..=14 => damaged(rng, most),
        15 | 16 => cut(rng, most),
        17 | 18 => mutated(rng, most),
        _ if rng.one_in(3) => trapped(rng),
        _ => shaped(rng),
    }
}

/// A file that is made to be slow, small enough not to be, with an edit or none.
fn trapped(rng: &mut Rng) -> Case {
    let classes = traps::of_any_size();
    let class = rng.pick(&classes);
    let mut model = class.make(rng.between(7_500, 16_000)).model;
    model.drop_some(rng);
    let few = |table: &Table, rng: &mut Rng| -> Vec<Text> {
        (0..40.min(table.list.len())).map(|_| table.text(*rng.pick(&table.list))).collect()
    };
    let (names, values) = (few(&model.names, rng), few(&model.values, rng));
    let first = model.names.text(model.names.list[0]);
    let paths = (1..4).map(|length| vec![first.clone(); length]).collect();
    let mut words = class.name.clone();
    if rng.one_in(2) {
        let all: Vec<_> = damage::all().filter(|damage| damage.aim > 6).collect();
        let damage = *rng.pick(&all);
        if can_take(&model) && damage.apply(&mut model, rng) {
            words = format!("{words}, damaged: {} ({})", damage.words, damage.aim);
        }
    }
    Case { bytes: model.bytes(), words, names, values, paths, weight: 10 }
}

/// One, two or three edits: with several, the order of the checks matters.
fn damaged(rng: &mut Rng, most: usize) -> Case {
    let made = rich(rng, most);
    let case = Case::of(&made, rng, String::new());
    let edits = *rng.pick(&[1, 1, 1, 2, 2, 3]);
    let all: Vec<_> = damage::all().collect();
    let mut model: Model = made.model;
    let mut words = String::from("damaged:");
    // Edits of counts come last: the others walk the model by them.
    let mut chosen: Vec<usize> = (0..edits).map(|_| rng.below(all.len())).collect();
    chosen.sort_unstable_by(|a, b| b.cmp(a));
    for number in chosen {
        let damage = all[number];
        if can_take(&model) && damage.apply(&mut model, rng) {
            words = format!("{words} {} ({}),", damage.words, damage.aim);
        }
    }
    let mut damaged = case.with(model.bytes(), words);
    damaged.weight = 8;
    damaged
}

/// Whether the nodes and tables still hang together well enough to be edited
/// further without a look at every step.
pub fn can_take(model: &Model) -> bool {
    let table = |table: &Table| {
        table.buckets.iter().flat_map(|bucket| &bucket.entries).all(|entry| {
            let segment = table.chars.segments.get(entry.address.0 as usize);
            let used = segment.map_or(0, |segment| segment.used.len() as u64);
            // The 0 that the length counts may be left off.
            let (first, end) =
                (entry.address.1 as u64, entry.address.1 as u64 + entry.length as u64);
            entry.length > 0 && first < used && end <= used + 1
        }) && table.list.iter().all(|&address| table.chars.get(address).is_some())
    };
    let whole = |node: &maker::model::Node| {
        let (segment, first) = node.child_addr;
        let used = model.nodes.segments.get(segment as usize).map_or(0, |s| s.used.len());
        let attributes = model.attributes.segments.get(node.attr_addr.0 as usize);
        let shown = attributes.map_or(0, |segment| segment.used.len());
        (node.children == 0 || first as usize + node.children as usize <= used)
            && (node.attrs == 0 || node.attr_addr.1 as usize + node.attrs as usize <= shown)
    };
    let live = model.live();
    live.first() == Some(&(0, 0))
        && live.iter().filter_map(|&address| model.nodes.get(address)).all(whole)
        && table(&model.values)
        && table(&model.names)
        && !model.names.list.is_empty()
}

/// Cut at or about a field's first byte, or anywhere; or a byte too many.
fn cut(rng: &mut Rng, most: usize) -> Case {
    let mut made = rich(rng, most);
    let case = Case::of(&made, rng, String::new());
    // A wrong count just before the cut: which of the two comes first matters.
    if rng.one_in(3) {
        let counts: Vec<_> = damage::all().filter(|damage| damage.aim == 5).collect();
        rng.pick(&counts).apply(&mut made.model, rng);
    }
    let (mut bytes, places) = made.model.write();
    let length = match rng.below(4) {
        0 => rng.below(bytes.len()),
        1 => rng.below(41),
        _ => {
            let place = *rng.pick(&places.0) + rng.below(6);
            place.saturating_sub(2).min(bytes.len())
        }
    };
    bytes.truncate(length);
    case.with(bytes, format!("cut to {length}"))
}

/// Words that upset counts and addresses.
pub const WORDS: [u32; 14] = [
    0,
    1,
    2,
    0xffff,
    0x1_0000,
    0x1_0001,
    0x7fff_ffff,
    0x8000_0000,
    0xffff_ffff,
    0x1000_0000,
    0x2000_0001,
    0x4000_0000,
    0x4000_0001,
    0x0aaa_aaab,
];

/// A byte or a word written over, at a field or anywhere.
fn mutated(rng: &mut Rng, most: usize) -> Case {
    let made = rich(rng, most);
    let case = Case::of(&made, rng, String::new());
    let (mut bytes, places) = made.model.write();
    let mut words = String::from("written over at");
    for _ in 0..rng.between(1, 2) {
        let at = if rng.one_in(2) {
            *rng.pick(&places.0) + 4 * rng.below(4)
        } else {
            rng.below(bytes.len())
        };
        let at = at.min(bytes.len() - 4);
        match rng.below(3) {
            0 => bytes[at] ^= 1 << rng.below(8),
            1 => bytes[at] = rng.half() as u8,
            _ => bytes[at..at + 4].copy_from_slice(&rng.pick(&WORDS).to_le_bytes()),
        }
        words = format!("{words} {at}");
    }
    case.with(bytes, words)
}

fn shaped(rng: &mut Rng) -> Case {
    let (made, words) = match rng.below(8) {
        0..=3 => {
            let lengths: Vec<usize> = (0..rng.between(1, 4))
                .map(|_| *rng.pick(&[5, 62, 63, 64, 64, 65, 66, 70]))
                .collect();
            let nameless = rng.one_in(3);
            let words = format!("chains {lengths:?}, nameless end: {nameless}");
            (chains(rng, &lengths, nameless), words)
        }
        4 => {
            let count = rng.between(100, 3_000);
            (wide(rng, count), format!("wide {count}"))
        }
        5 => {
            let count = rng.between(500, 1_500);
            (one_text_a_segment(rng, count), format!("{count} segments of one text"))
        }
        6 if rng.one_in(3) => {
            let count = rng.between(500, 1_500);
            (far_nodes(rng, count), format!("nodes in {count} segments"))
        }
        6 => {
            let count = rng.between(100, 2_000);
            (many_values(rng, count), format!("{count} values"))
        }
        _ => {
            let count = rng.between(2, 300);
            (many_keys(count), format!("{count} keys"))
        }
    };
    Case::of(&made, rng, words)
}
