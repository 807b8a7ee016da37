//! Leaving off the stored 0 of a text that is the last of its segment's used part.

use crate::model::{Model, Segment, Table};
use crate::rng::Rng;

/// What stands behind the used part.
#[derive(Clone, Copy, Debug, PartialEq, Eq)]
pub enum Behind {
    /// Used is as large as full.
    Nothing,
    Zero,
    /// Characters that are not 0.
    Others,
    OthersAndZero,
}

pub const BEHIND: [Behind; 4] =
    [Behind::Nothing, Behind::Zero, Behind::Others, Behind::OthersAndZero];

impl Behind {
    pub fn characters(self, rng: &mut Rng) -> Vec<u16> {
        let mut others: Vec<u16> =
            (0..rng.between(1, 5)).map(|_| rng.between(1, 0x1ff) as u16).collect();
        match self {
            Behind::Nothing => Vec::new(),
            Behind::Zero => vec![0],
            Behind::Others => others,
            Behind::OthersAndZero => {
                others.push(0);
                others
            }
        }
    }
}

/// For each segment, whether its last character is a 0 that can be left off: it ends a
/// text that is not empty, and no address needs it.
fn droppable(table: &Table) -> Vec<bool> {
    let ends_text = |segment: &Segment<u16>| matches!(segment.used[..], [.., text, 0] if text != 0);
    let mut can: Vec<bool> = table.chars.segments.iter().map(ends_text).collect();
    let entries = table.buckets.iter().flat_map(|bucket| &bucket.entries);
    for address in table.list.iter().copied().chain(entries.map(|entry| entry.address)) {
        if let Some(segment) = table.chars.segments.get(address.0 as usize) {
            can[address.0 as usize] &= address.1 as usize + 1 != segment.used.len();
        }
    }
    can
}

/// Leaves off the last 0 of every segment where that can be done; how often it was.
pub fn drop_all(table: &mut Table) -> usize {
    let can = droppable(table);
    let dropped = table.chars.segments.iter_mut().zip(&can).filter(|(_, &can)| can);
    dropped.for_each(|(segment, _)| {
        segment.used.pop();
    });
    can.into_iter().filter(|&can| can).count()
}

/// Leaves off the last 0 of some segments, with anything behind the used part.
pub fn drop_some(rng: &mut Rng, table: &mut Table) {
    let can = droppable(table);
    for (segment, can) in table.chars.segments.iter_mut().zip(can) {
        if can && !rng.one_in(3) {
            segment.used.pop();
            if rng.one_in(2) {
                segment.slack = rng.pick(&BEHIND).characters(rng);
            }
        }
    }
}

impl Model {
    /// Leaves off some stored 0s of both tables.
    pub fn drop_some(&mut self, rng: &mut Rng) {
        drop_some(rng, &mut self.values);
        drop_some(rng, &mut self.names);
    }
}

#[cfg(test)]
mod tests {
    use super::*;
    use crate::table::{table, TIDY};
    use crate::text::text;

    #[test]
    fn the_0_of_the_empty_text_stays() {
        let style = crate::table::Style { in_order: true, ..TIDY };
        for (words, dropped) in [(&["ab", "c"][..], 1), (&["ab", ""], 0), (&[""], 0), (&[], 0)] {
            let texts: Vec<_> = words.iter().map(|word| text(word)).collect();
            let mut made = table(&mut Rng::new(1), &texts, 512, style);
            assert_eq!(drop_all(&mut made), dropped, "{words:?}");
            let read: Vec<_> = made.list.iter().map(|&address| made.text(address)).collect();
            assert_eq!(read, texts);
        }
    }
}
