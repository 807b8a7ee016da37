//! A maker of data center files from seeds: accepted ones of rich variety,
//! damaged ones aimed at every refusal, and large ones for speed.

pub mod attributes;
pub mod buckets;
pub mod collide;
pub mod collided;
pub mod damage;
pub mod dropped;
pub mod ends;
pub mod known;
pub mod large;
pub mod letter;
pub mod matches;
pub mod model;
pub mod rich;
pub mod rng;
pub mod samples;
pub mod shapes;
pub mod table;
pub mod text;
pub mod traps;
pub mod tree;
mod write;

pub use write::Places;

#[cfg(test)]
mod tests {
    use crate::rich::rich;
    use crate::rng::Rng;
    use second::{Loader, Plain, Right};

    #[test]
    fn rich_files_are_accepted() {
        let loader: Loader<Right, Plain> = Loader::new(Right);
        for seed in 0..400 {
            let made = rich(&mut Rng::new(seed), 60);
            let mut workspace = vec![0; made.model.used_nodes()];
            let answer = loader.accept(&made.model.bytes(), &mut workspace);
            assert_eq!(answer.refusal, 0, "seed {seed}: {answer:?}");
            assert_eq!(answer.value, workspace.len() as u64);
        }
    }
}
