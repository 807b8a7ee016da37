//! How the hashes of a crowded bucket stand, for files that try the edges of a search.

/// How many entries have one hash.
#[derive(Clone, Copy, Debug, PartialEq, Eq)]
pub enum Length {
    Two,
    Three,
    /// About a third of the bucket.
    Third,
}

#[derive(Clone, Copy, Debug, PartialEq, Eq)]
pub enum Place {
    Beginning,
    Middle,
    End,
}

#[derive(Clone, Copy, Debug, PartialEq, Eq)]
pub enum Shape {
    Even,
    /// All at the low end, or at the high end.
    Low,
    High,
    /// All but the first equal, or all but the last.
    OddFirst,
    OddLast,
    AllEqual,
    /// Even, with a run of equal ones.
    Run(Length, Place),
    /// Even, but each so many entries from where its hash makes one expect it. Those for
    /// which there is no such place stand at the end.
    Shifted(i32),
}

const RUNS: [Length; 3] = [Length::Two, Length::Three, Length::Third];
const PLACES: [Place; 3] = [Place::Beginning, Place::Middle, Place::End];

/// All but the shifted ones.
pub fn shapes() -> Vec<Shape> {
    let runs = RUNS.into_iter().flat_map(|run| PLACES.map(|place| Shape::Run(run, place)));
    let plain =
        [Shape::Even, Shape::Low, Shape::High, Shape::OddFirst, Shape::OddLast, Shape::AllEqual];
    plain.into_iter().chain(runs).collect()
}

/// The numbers of the hashes that a bucket may have: the least and the largest.
#[derive(Clone, Copy)]
pub struct Ends {
    pub low: u32,
    pub high: u32,
}

impl Ends {
    /// All `hashes` of a bucket, or not those at its ends.
    pub fn new(hashes: u32, whole: bool) -> Ends {
        let margin = if whole { 0 } else { hashes / 16 };
        Ends { low: margin, high: hashes - 1 - margin }
    }

    fn even(self, i: usize, count: usize) -> u32 {
        let span = (self.high - self.low) as u64;
        self.low + (span * i as u64 / (count as u64 - 1).max(1)) as u32
    }
}

impl Shape {
    /// The numbers of the hashes of so many entries, in order.
    pub fn numbers(self, count: usize, ends: Ends) -> Vec<u32> {
        let Ends { low, high } = ends;
        // What is beside an end for one number of entries is far from it for the next.
        let odd = count % 2 == 1;
        match self {
            Shape::Even => (0..count).map(|i| ends.even(i, count)).collect(),
            // Every second hash, so that there are absent ones between.
            Shape::Low => (0..count as u32).map(|i| low + 2 * i).collect(),
            Shape::High => (0..count as u32).rev().map(|i| high - 2 * i).collect(),
            Shape::AllEqual => vec![if odd { high } else { low }; count],
            Shape::OddFirst => {
                let run = if odd { high } else { low + 1 };
                (0..count).map(|i| if i == 0 { low } else { run }).collect()
            }
            Shape::OddLast => {
                let run = if odd { low } else { high - 1 };
                (0..count).map(|i| if i + 1 == count { high } else { run }).collect()
            }
            Shape::Run(length, place) => with_run(count, ends, length, place),
            Shape::Shifted(by) => shifted(count, ends, by),
        }
    }
}

fn with_run(count: usize, ends: Ends, length: Length, place: Place) -> Vec<u32> {
    let equal = match length {
        Length::Two => 2,
        Length::Three => 3,
        Length::Third => count / 3,
    };
    let equal = equal.clamp(1, count.max(1));
    let different = (count + 1 - equal).max(1);
    let run = match place {
        Place::Beginning => 0,
        Place::Middle => different / 2,
        Place::End => different - 1,
    };
    // Hashes behind the run are counted on from its last entry.
    let number = |i: usize| if i <= run { i } else { i.saturating_sub(equal - 1).max(run) };
    (0..count).map(|i| ends.even(number(i), different)).collect()
}

fn shifted(count: usize, ends: Ends, by: i32) -> Vec<u32> {
    let slot = |place: i64| {
        let span = (ends.high - ends.low) as u64 + 1;
        ends.low + ((2 * place as u64 + 1) * span / (2 * count as u64)) as u32
    };
    let number = |i: usize| match i as i64 + by as i64 {
        before if before < 0 => ends.low + 2 * i as u32,
        behind if behind >= count as i64 => ends.high - 2 * (count - 1 - i) as u32,
        place => slot(place),
    };
    (0..count).map(number).collect()
}

#[cfg(test)]
mod tests {
    use super::*;

    #[test]
    fn hashes_do_not_fall_and_runs_are_as_long_as_they_say() {
        for count in 0..300 {
            for whole in [false, true] {
                let ends = Ends::new(1 << 22, whole);
                let shifted = [-17, -8, -1, 1, 8, 17].map(Shape::Shifted);
                for shape in shapes().into_iter().chain(shifted) {
                    let numbers = shape.numbers(count, ends);
                    assert_eq!(numbers.len(), count, "{shape:?}");
                    assert!(numbers.is_sorted(), "{shape:?} {count}: {numbers:?}");
                    let inside = |number: &u32| (ends.low..=ends.high).contains(number);
                    assert!(numbers.iter().all(inside), "{shape:?} {count}: {numbers:?}");
                    let runs: Vec<usize> =
                        numbers.chunk_by(|a, b| a == b).map(<[u32]>::len).collect();
                    let longest = runs.iter().copied().max().unwrap_or(0);
                    let wished = match shape {
                        Shape::Run(Length::Two, _) => 2.min(count),
                        Shape::Run(Length::Three, _) => 3.min(count),
                        Shape::Run(Length::Third, _) => (count / 3).clamp(1.min(count), count),
                        Shape::OddFirst | Shape::OddLast if count > 1 => count - 1,
                        Shape::AllEqual => count,
                        _ => 1.min(count),
                    };
                    assert_eq!(longest, wished, "{shape:?} {count}");
                }
            }
        }
    }

    #[test]
    fn runs_stand_where_they_say() {
        let ends = Ends::new(1 << 23, true);
        let run = |place| Shape::Run(Length::Third, place).numbers(9, ends);
        let equal = |numbers: &[u32]| numbers.iter().all(|number| *number == numbers[0]);
        assert!(equal(&run(Place::Beginning)[..3]));
        assert!(equal(&run(Place::Middle)[3..6]));
        assert!(equal(&run(Place::End)[6..]));
    }
}
