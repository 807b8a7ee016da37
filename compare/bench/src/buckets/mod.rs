//! Look-ups in crowded buckets: `bench buckets`.
//!
//! Hashes of a bucket are spread evenly over the 32 bits, are all but one at the low
//! end, or are all equal but one. A search that goes by halving takes as long for any of
//! them. One that goes by an estimate from the hash is misled by the last two.

mod lookups;
mod singles;

use maker::buckets::speed::Spread;

use crate::subject::Subject;

/// Entries of a crowded bucket.
const ENTRIES: [usize; 5] = [1, 10, 100, 1_000, 10_000];

/// The library and the second program, in this order.
type Subjects = [Box<dyn Subject>; 2];

pub fn run(subjects: &Subjects) {
    println!("loaders: {} and {}", subjects[0].title(), subjects[1].title());
    lookups::run(subjects);
    println!();
    singles::run(subjects);
}

fn words(spread: Spread) -> &'static str {
    match spread {
        Spread::Even => "even",
        Spread::Random => "random",
        Spread::Clustered => "clustered",
        Spread::EvenAtEnds => "even, asked at an end",
        Spread::AllButOneEqual => "all but one equal",
    }
}
