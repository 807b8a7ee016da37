//! The directed files of request T-03: which crowds they have.

use super::shape::{shapes, Shape};
use super::strings::Crowd;

/// On both sides of numbers of entries where a search has one round more.
const COUNTS: [usize; 25] = [
    0, 1, 2, 3, 4, 5, 7, 8, 9, 15, 16, 17, 31, 32, 33, 63, 64, 65, 127, 128, 129, 255, 256, 257,
    1_000,
];
/// For hashes that do not stand where they are expected.
const SHIFTED_COUNTS: [usize; 3] = [33, 64, 129];
const SHIFTS: [i32; 13] = [1, 2, 3, 4, 5, 6, 7, 8, 9, 10, 15, 16, 17];

/// A file's crowds.
#[derive(Clone, Copy, Debug)]
pub struct Plan {
    pub names: Crowd,
    pub values: Crowd,
}

/// Buckets that need not be the first. The last bucket and those beside it are tried too.
const NAMES: [u32; 5] = [1, 77, 255, 510, 511];
const VALUES: [u32; 5] = [1023, 1, 512, 1022, 300];

/// The first bucket has the least and the largest of all hashes. So every crowd is once
/// there, among names and among values, with the hashes at its ends, and once elsewhere,
/// without them.
pub fn plans() -> impl Iterator<Item = Plan> {
    let shifts = SHIFTS.into_iter().flat_map(|by| [Shape::Shifted(by), Shape::Shifted(-by)]);
    let shifts: Vec<Shape> = shifts.collect();
    let all = |counts: &[usize], shapes: &[Shape]| -> Vec<(usize, Shape)> {
        counts.iter().flat_map(|&count| shapes.iter().map(move |&shape| (count, shape))).collect()
    };
    let all = [all(&COUNTS, &shapes()), all(&SHIFTED_COUNTS, &shifts)].concat();
    all.into_iter().enumerate().flat_map(|(i, (count, shape))| {
        let first = Crowd { count, shape, bucket: 0, whole: true };
        let other = |bucket| Crowd { count, shape, bucket, whole: false };
        let (name, value) = (NAMES[i % NAMES.len()], VALUES[i % VALUES.len()]);
        [Plan { names: first, values: other(value) }, Plan { names: other(name), values: first }]
    })
}

#[cfg(test)]
mod tests {
    use super::super::file::Crowded;
    use super::*;
    use crate::collide::hash;
    use crate::rng::Rng;
    use crate::text::{to_bytes, Text};
    use second::{Loader, Plain, Right, Which};

    fn small() -> impl Iterator<Item = (Plan, Crowded)> {
        let plans = plans().filter(|plan| plan.names.count < 70).step_by(3);
        plans.enumerate().map(|(seed, plan)| {
            (plan, Crowded::new(&mut Rng::new(seed as u64), plan.names, plan.values))
        })
    }

    #[test]
    fn files_are_what_they_say() {
        let loader: Loader<Right, Plain> = Loader::new(Right);
        for (plan, file) in small() {
            let (bytes, mut workspace) = (file.model.bytes(), vec![0; file.model.used_nodes()]);
            let view = match loader.hold(&bytes, &mut workspace) {
                Ok(view) => view,
                Err(refusal) => panic!("{plan:?}: {refusal:?}"),
            };
            assert_eq!(file.names.crowd.len(), plan.names.count);
            assert_eq!(file.values.crowd.len(), plan.values.count);
            for (which, strings) in [(Which::Names, &file.names), (Which::Values, &file.values)] {
                let missing = |text: &Text| view.single(which, &to_bytes(text)).kind != 0;
                assert!(strings.absent.iter().all(missing), "{plan:?}");
                assert!(!strings.texts.iter().any(missing), "{plan:?}");
            }
            for chain in file.chains() {
                assert_eq!(file.matches(&chain).len(), 1);
            }
        }
    }

    #[test]
    fn hashes_at_both_ends_are_tried() {
        let mut ends = [0; 4];
        for (plan, file) in small() {
            let crowd = if plan.names.whole { &file.names } else { &file.values };
            if crowd.crowd.is_empty() {
                continue;
            }
            let last = crowd.crowd.len() - 1;
            ends[0] += crowd.crowd.iter().any(|&i| crowd.texts[i].is_empty()) as u32;
            ends[1] += (hash(crowd.in_crowd(0)) == 0) as u32;
            ends[2] += (hash(crowd.in_crowd(last)) == u32::MAX) as u32;
            ends[3] += crowd.strays.len() as u32;
        }
        assert!(ends.iter().all(|&count| count > 100), "{ends:?}");
    }
}
