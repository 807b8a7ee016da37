//! The letter 0151, which the fold leaves as it is since request T-10: texts with it, and
//! files whose value hashes are built by that rule or by the one of before.

pub mod alike;
pub mod file;
pub mod order;
pub mod plans;
pub mod rule;
mod runs;
pub mod sample;
pub mod words;
