//! A table in which several texts have one hash.

use std::collections::HashSet;

use super::long::LONGEST;
use super::plans::{Beside, Long, Order, Plan};
use crate::collide::closed;
use crate::dropped::drop_some;
use crate::model::{Entry, Table};
use crate::rng::Rng;
use crate::table::{table, Style};
use crate::text::{letters, text, Text};

/// A text of hash 0: before another text it leaves that one's hash as it is.
pub fn idle_word() -> Text {
    (0x61..).find_map(|character| closed(&[character], 0)).expect("some word has no 0")
}

/// A text with a hash that begins with so many letters.
pub fn with_hash(rng: &mut Rng, beginning: usize, wished: u32) -> Text {
    loop {
        let made = closed(&letters(rng, beginning, beginning), wished);
        if let Some(text) = made {
            return text;
        }
    }
}

/// A text that begins so, goes on with a letter, and has the hash.
pub fn begun(rng: &mut Rng, beginning: &[u16], wished: u32) -> Text {
    loop {
        let longer = [beginning, &letters(rng, 1, 1)].concat();
        if let Some(text) = closed(&longer, wished) {
            return text;
        }
    }
}

/// Hashes of the same bucket that are like the given one: in the low half, in the high
/// half, or in the xor of both.
pub fn near(hash: u32, buckets: u32) -> Vec<u32> {
    // The lowest bit of a half that does not tell the bucket, and its highest.
    let bits = [buckets, 1 << 15];
    let mut all: Vec<u32> = bits.iter().flat_map(|bit| [hash ^ bit, hash ^ bit << 16]).collect();
    all.extend([1, 3, 0x8000, 0x8001].map(|bits: u32| hash ^ (bits << 16 | bits)));
    all
}

/// The texts of one hash.
pub struct Group {
    /// Those that get entries.
    pub texts: Vec<Text>,
    /// One that gets none. Where there are three or more, one of the others begins with it
    /// and one ends with it.
    pub stem: Text,
}

impl Group {
    /// So many texts with the hash of a plan.
    pub fn new(rng: &mut Rng, plan: &Plan, count: usize) -> Group {
        let stem = with_hash(rng, 2, plan.hash);
        let mut texts = Vec::new();
        if plan.long == Long::There {
            texts.push(with_hash(rng, LONGEST - 2, plan.hash));
        }
        if plan.empty && plan.hash == 0 {
            texts.push(Text::new());
        }
        if count >= 3 {
            texts.extend([begun(rng, &stem, plan.hash), [idle_word(), stem.clone()].concat()]);
        }
        let mut taken: HashSet<Text> = texts.iter().cloned().chain([stem.clone()]).collect();
        while texts.len() < count {
            let beginning = rng.between(1, 10);
            let made = with_hash(rng, beginning, plan.hash);
            if taken.insert(made.clone()) {
                texts.push(made);
            }
        }
        texts.truncate(count);
        Group { texts, stem }
    }
}

/// Texts of other hashes: like the plan's, and a word in capitals.
pub fn others(rng: &mut Rng, plan: &Plan, buckets: u32) -> Vec<Text> {
    let wanted = |hash: &u32| match plan.beside {
        Beside::Nothing => false,
        Beside::Below => *hash < plan.hash,
        Beside::Above => *hash > plan.hash,
        Beside::Both => true,
    };
    let mut all = Vec::new();
    for hash in near(plan.hash, buckets).into_iter().filter(wanted) {
        // Of two beginnings, so that they differ.
        let count = rng.between(1, 2);
        all.extend((1..=count).map(|beginning| with_hash(rng, beginning, hash)));
    }
    all.push(text(CAPITALS));
    all
}

/// A word that small letters fold to, and these.
pub const CAPITALS: &str = "COLLISION";
pub const SMALL: &str = "collision";

/// The table of these texts, which are all different; text i gets index i + 1.
pub fn strings(rng: &mut Rng, plan: &Plan, texts: &[Text], buckets: u32) -> Table {
    // Nothing else has room in the segment of the longest text.
    let untidy = plan.long != Long::There;
    let style = Style { segment: rng.between(20, 200), untidy, share: false, in_order: false };
    let mut made = table(rng, texts, buckets as usize, style);
    for segment in &mut made.chars.segments {
        segment.used.truncate(LONGEST);
    }
    drop_some(rng, &mut made);
    let text = |entry: &Entry| &texts[entry.index as usize - 1];
    for bucket in &mut made.buckets {
        bucket.entries.sort_by(|a, b| {
            let equal = match plan.order {
                Order::Any => std::cmp::Ordering::Equal,
                Order::ShorterFirst => a.length.cmp(&b.length),
                Order::LongerFirst => b.length.cmp(&a.length),
                Order::ByCharacters => text(a).cmp(text(b)),
                Order::AgainstCharacters => text(b).cmp(text(a)),
                Order::ByIndex => a.index.cmp(&b.index),
                Order::AgainstIndex => b.index.cmp(&a.index),
            };
            a.hash.cmp(&b.hash).then(equal)
        });
    }
    made
}
