//! A loader of plain data center files, written from document 01 and requests T-01,
//! T-03, T-05, T-07 and T-10 alone: the second program the proved library is compared
//! with.
//!
//! A file is lent as a byte slice with a workspace; it is checked whole and
//! then answers questions. See `questions::Loader` for the exported questions
//! and `view::View` for the held form.

#![deny(unsafe_code)]

mod answer;
mod batch;
mod bytes;
mod careful;
mod carry;
mod codes;
mod collisions;
mod crc_table;
mod crowd;
mod cursor;
mod definition;
mod effort;
mod escape;
mod find;
mod fold;
mod hash;
mod index;
mod keys;
mod known;
mod layout;
mod letter;
mod literal;
mod lookup;
mod mix;
mod mutant;
mod mutant_groups;
mod node;
mod nodes;
mod outline;
mod path;
mod pending;
mod prefetch;
pub mod program;
mod questions;
mod reading;
mod region;
mod scan;
mod searches;
mod spans;
mod strings;
mod table;
mod tails;
mod tally;
mod tree;
mod view;
mod waiting;
mod wrong_collisions;
mod wrong_search;
mod wrong_tree;

pub use answer::{Answer, HeaderReport, Refusal};
pub use index::{Index, Marked, Plain};
pub use layout::FILE_LIMIT;
pub use lookup::Which;
pub use questions::Loader;
pub use reading::{Literal, Mutant, Reading, Right, Wrong};
pub use view::View;

/// The plain form, careful with every file.
pub type Careful = Plain<0>;

/// The hashes, for whoever makes files or checks hashes.
pub mod hashes {
    use crate::reading::Right;

    pub fn string_hash(text: &[u8]) -> u32 {
        crate::hash::string_hash(Right, text)
    }

    pub fn value_hash(text: &[u8]) -> u16 {
        crate::hash::value_hash(Right, text)
    }

    /// The folded characters of a text.
    pub fn folded(text: &[u8]) -> Vec<u8> {
        crate::definition::folded(Right, text)
    }

    /// The string hash by the words of document 01, a byte at a time.
    pub mod by_definition {
        use crate::definition;
        use crate::reading::Right;

        pub fn hash(start: u32, text: &[u8]) -> u32 {
            definition::hash_on(Right, start, text)
        }
    }
}
