//! The comparison of loaders: files, questions, guarded buffers and counts.

pub mod asks;
pub mod buckets;
pub mod case;
pub mod collisions;
pub mod crowds;
pub mod directed;
pub mod due;
pub mod guard;
pub mod hashes;
pub mod inputs;
pub mod lengths;
pub mod letter;
pub mod loader;
pub mod program;
pub mod question;
#[cfg(feature = "rattle")]
pub mod rattle;
pub mod run;
pub mod sparse;
pub mod sweep;
pub mod tally;
pub mod texts;
pub mod told;

use loader::{Loader, Second};
use second::{Careful, Literal, Marked, Right};

/// The loaders that the plain second one is compared with.
pub fn others() -> Vec<Box<dyn Loader>> {
    let indexed: Second<Right, Marked> = Second::new("second, indexed", Right);
    let careful: Second<Right, Careful> = Second::new("second, careful from the start", Right);
    let literal: Second<Literal, Marked> =
        Second::new("second, with texts, hashes and look-ups by definition", Literal);
    vec![
        #[cfg(feature = "rattle")]
        Box::new(rattle::Rattle::default()),
        Box::new(indexed),
        Box::new(careful),
        Box::new(literal),
    ]
}
