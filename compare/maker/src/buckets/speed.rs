//! Files for the speed of look-ups in crowded buckets.
//!
//! All crowded buckets of a file hold as many entries. What differs is how the hashes
//! of a bucket are spread.

use super::hashes::Hashes;
use crate::collide::{beginnings, closed};
use crate::model::Model;
use crate::rng::Rng;
use crate::text::Text;
use crate::traps::parts::{names, table_of, Parts};

/// How the hashes of a bucket are spread, and which of its texts are asked for.
#[derive(Clone, Copy, Debug, PartialEq, Eq)]
pub enum Spread {
    /// Evenly over the 32 bits. Every text is asked for, and absent ones whose hash
    /// stands between any two neighbours.
    Even,
    /// Anywhere, as the hashes of ordinary texts are. Asked for as above.
    Random,
    /// All at the low end but the last, which has the bucket's largest hash. Asked for
    /// as above.
    Clustered,
    /// As `Even`, but asked for as the next.
    EvenAtEnds,
    /// All but one equal. A look-up among the equal ones has to read them, so the other
    /// one is asked for. It comes first in every second bucket, and last in the others.
    /// Absent texts have a hash below or above the equal one.
    AllButOneEqual,
}

pub const SPREADS: [Spread; 5] =
    [Spread::Even, Spread::Random, Spread::Clustered, Spread::EvenAtEnds, Spread::AllButOneEqual];

/// Which table is crowded.
#[derive(Clone, Copy, Debug, PartialEq, Eq)]
pub enum Table {
    Names,
    Values,
}

/// A file, texts of its table that are asked for, and texts that are not in it. Their
/// hashes belong to crowded buckets.
pub struct Crowds {
    pub model: Model,
    pub present: Vec<Text>,
    pub absent: Vec<Text>,
}

/// All buckets may have so many entries.
const SMALL: usize = 100;
/// About how many entries a table has where they have more. A file has at most 65,535
/// names.
const VALUES: usize = 100_000;
const NAMES: usize = 60_000;

impl Table {
    pub fn buckets(self) -> usize {
        match self {
            Table::Names => 512,
            Table::Values => 1024,
        }
    }

    /// How many buckets are crowded with so many entries each: all where there is room.
    fn crowded(self, entries: usize) -> usize {
        match self {
            _ if entries <= SMALL => self.buckets(),
            Table::Names => NAMES / entries,
            Table::Values => VALUES / entries,
        }
    }
}

/// What stands in one bucket, and what is asked for there, as numbers of hashes.
struct Numbers {
    entries: Vec<u32>,
    /// Places among the entries.
    present: Vec<usize>,
    absent: Vec<u32>,
}

impl Spread {
    /// For the bucket of this number, with so many entries and so many hashes.
    fn numbers(self, number: usize, entries: usize, hashes: u32) -> Numbers {
        // The middle of a slot, and where a slot begins.
        let slot = |i: usize| ((2 * i as u64 + 1) * hashes as u64 / (2 * entries as u64)) as u32;
        let border = |i: usize| (i as u64 * hashes as u64 / entries as u64) as u32;
        let odd_one = if number % 2 == 1 { entries - 1 } else { 0 };
        let quarters = [border(entries / 4), border(entries - entries / 4).min(hashes - 1)];
        match self {
            Spread::Even => Numbers {
                entries: (0..entries).map(slot).collect(),
                present: (0..entries).collect(),
                absent: (0..entries).map(border).collect(),
            },
            Spread::Random => {
                let mut rng = Rng::new(number as u64);
                let any: Vec<u32> = (0..2 * entries).map(|_| rng.word() % hashes).collect();
                Numbers {
                    entries: any[..entries].to_vec(),
                    present: (0..entries).collect(),
                    absent: any[entries..].to_vec(),
                }
            }
            Spread::Clustered => Numbers {
                entries: (1..entries as u32).map(|i| 2 * i - 1).chain([hashes - 1]).collect(),
                present: (0..entries).collect(),
                absent: (0..entries as u32).map(|i| 2 * i).collect(),
            },
            Spread::EvenAtEnds => Numbers {
                entries: (0..entries).map(slot).collect(),
                present: vec![odd_one],
                absent: quarters.to_vec(),
            },
            Spread::AllButOneEqual => {
                let number = |i| if i == odd_one { slot(i) } else { hashes / 2 };
                let entries = (0..entries).map(number).collect();
                Numbers { entries, present: vec![odd_one], absent: quarters.to_vec() }
            }
        }
    }
}

impl Crowds {
    /// As many crowded buckets of so many entries as the table holds.
    pub fn new(table: Table, entries: usize, spread: Spread) -> Crowds {
        let crowded = table.crowded(entries);
        let apart = table.buckets() / crowded;
        Crowds::of(table, (0..crowded).map(|i| (i * apart) as u32), entries, spread)
    }

    /// One crowded bucket.
    pub fn one(table: Table, entries: usize, spread: Spread) -> Crowds {
        Crowds::of(table, [7].into_iter(), entries, spread)
    }

    /// Texts stand anywhere, whatever their hashes are.
    fn of(
        table: Table,
        crowded: impl Iterator<Item = u32>,
        entries: usize,
        spread: Spread,
    ) -> Crowds {
        let mut beginnings = beginnings();
        let mut text = |wished| beginnings.find_map(|two| closed(&two, wished)).expect("enough");
        let (mut all, mut present, mut absent) = (Vec::new(), Vec::new(), Vec::new());
        for (number, bucket) in crowded.enumerate() {
            let hashes = Hashes { bucket, buckets: table.buckets() as u32 };
            let numbers = spread.numbers(number, entries, hashes.count());
            let texts: Vec<Text> = numbers.entries.iter().map(|&i| text(hashes.at(i))).collect();
            present.extend(numbers.present.iter().map(|&place| texts[place].clone()));
            absent.extend(numbers.absent.iter().map(|&i| text(hashes.at(i))));
            all.extend(texts);
        }
        Rng::new(entries as u64).shuffle(&mut all);
        let parts = match table {
            Table::Names => Parts::new(all),
            Table::Values => Parts { values: table_of(&all), ..Parts::new(names(1)) },
        };
        Crowds { model: parts.model(), present, absent }
    }
}

#[cfg(test)]
mod tests {
    use super::*;
    use crate::text::to_bytes;
    use second::{Loader, Plain, Right, Which};

    #[test]
    fn present_texts_are_there_and_absent_ones_are_not() {
        let loader: Loader<Right, Plain> = Loader::new(Right);
        for (table, which) in [(Table::Names, Which::Names), (Table::Values, Which::Values)] {
            for (entries, spread) in [1, 2, 10, 1_000]
                .into_iter()
                .flat_map(|entries| SPREADS.map(|spread| (entries, spread)))
            {
                let crowds = Crowds::new(table, entries, spread);
                let (bytes, mut workspace) = (crowds.model.bytes(), [0; 1]);
                let view = match loader.hold(&bytes, &mut workspace) {
                    Ok(view) => view,
                    Err(refusal) => panic!("{table:?}, {entries}, {spread:?}: {refusal:?}"),
                };
                let kind = |text: &Text| view.single(which, &to_bytes(text)).kind;
                assert!(crowds.present.iter().all(|text| kind(text) == 0));
                assert!(crowds.absent.iter().all(|text| kind(text) != 0));
            }
        }
    }

    #[test]
    fn buckets_hold_as_many_entries_as_they_say() {
        for (entries, spread) in [(1, Spread::Even), (100, Spread::Clustered)] {
            let model = Crowds::new(Table::Values, entries, spread).model;
            assert!(model.values.buckets.iter().all(|bucket| bucket.entries.len() == entries));
        }
        let model = Crowds::new(Table::Values, 10_000, Spread::AllButOneEqual).model;
        let crowded = model.values.buckets.iter().filter(|bucket| !bucket.entries.is_empty());
        assert!(crowded.clone().all(|bucket| bucket.entries.len() == 10_000));
        assert_eq!(crowded.count(), 10);
    }
}
