//! Files in which several texts have one hash, and other texts with that hash to ask for:
//! request T-05.

pub mod asked;
pub mod file;
pub mod long;
pub mod plans;
pub mod speed;
pub mod strings;
