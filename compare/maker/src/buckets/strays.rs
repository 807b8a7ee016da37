//! Texts that stand among the characters of a table and have no entry.

use super::strings::{Characters, Wished};
use crate::model::Addr;
use crate::table::bucket_of;
use crate::text::Text;

pub struct Stray {
    pub words: &'static str,
    pub text: Text,
    pub address: Addr,
}

/// Hashes below, above and among those of the crowd, whose numbers are told; texts that
/// have an entry, again at another address; ends of texts; and an address without a text.
pub fn strays(
    wished: &mut Wished,
    numbers: &[u32],
    own: &[(Text, Addr)],
    characters: &mut Characters,
) -> Vec<Stray> {
    let mut all: Vec<Stray> = Vec::new();
    for (words, number) in wanted(numbers, wished.hashes.count()) {
        let text = wished.numbered(number);
        let address = characters.put(wished.rng, &text);
        all.push(Stray { words, text, address });
    }
    let hashes = wished.hashes;
    let in_crowd = |(text, _): &&(Text, Addr)| {
        let bucket = bucket_of(crate::collide::hash(text), hashes.buckets as usize);
        bucket == hashes.bucket as usize && !text.is_empty()
    };
    let crowd: Vec<&(Text, Addr)> = own.iter().filter(in_crowd).collect();
    if let Some((text, _)) = crowd.first() {
        let address = characters.put(wished.rng, text);
        all.push(Stray { words: "a text that has an entry", text: text.clone(), address });
    }
    if let Some((text, (segment, element))) = crowd.last() {
        let (text, address) = (text[1..].to_vec(), (*segment, element + 1));
        all.push(Stray { words: "an end of a text", text, address });
    }
    let address = (characters.segments() as u16, 0);
    all.push(Stray { words: "no text", text: Text::new(), address });
    all
}

/// Numbers of hashes, each with what it tries.
fn wanted(numbers: &[u32], hashes: u32) -> Vec<(&'static str, u32)> {
    let (Some(&first), Some(&last)) = (numbers.first(), numbers.last()) else {
        return vec![("a hash of an empty bucket", hashes / 3)];
    };
    let mut all = vec![("the first hash", first), ("the last hash", last)];
    if first > 0 {
        all.push(("a hash below the first", first - 1));
    }
    if last + 1 < hashes {
        all.push(("a hash above the last", last + 1));
    }
    let gaps: Vec<&[u32]> = numbers.windows(2).filter(|two| two[1] - two[0] > 1).collect();
    if let Some(two) = gaps.get(gaps.len() / 2) {
        all.push(("a hash between two", two[0] + 1));
    }
    let runs = numbers.chunk_by(|a, b| a == b);
    if let Some(run) = runs.max_by_key(|run| run.len()).filter(|run| run.len() > 1) {
        all.push(("the hash of several", run[0]));
    }
    all
}
