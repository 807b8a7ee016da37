//! Tables whose buckets are crowded on purpose: for the speed of look-ups, and to try the
//! edges of the search of a bucket.

pub mod file;
pub mod hashes;
pub mod plans;
pub mod shape;
pub mod speed;
pub mod strays;
pub mod strings;
