//! What a byte costs as files grow: the same number of bytes is accepted as many
//! small files and as few large ones.
//!
//! A file that was just accepted lies in the caches if it is small, and never if
//! it is large. So no file here is accepted twice in a row: all of a size are,
//! then all of the next, and each comes from memory when its turn comes. The
//! loaders and the sizes take turns within a round, so that a slow spell of the
//! machine meets them all; the best round counts.

use maker::large::{large, Order};

use crate::pages::{Pages, Size};
use crate::subject::Subject;

const ROUNDS: usize = 15;

/// Equal files, one after the other.
struct Set {
    bytes: Pages,
    length: usize,
    nodes: usize,
}

impl Set {
    /// As many files of this size as go into so many megabytes.
    fn new(size: usize, most: usize, order: Order, pages: Size) -> Set {
        let file = large(size, order);
        let length = file.bytes.len();
        let mut bytes = Pages::new(length * (most / size).max(1), pages);
        bytes.chunks_mut(length).for_each(|place| place.copy_from_slice(&file.bytes));
        Set { bytes, length, nodes: file.nodes }
    }

    /// Nanoseconds a byte over all files.
    fn accept(&self, subject: &dyn Subject) -> f64 {
        let mut workspace = vec![0; self.nodes];
        let mut seconds = 0.0;
        for file in self.bytes.chunks(self.length) {
            workspace.fill(0);
            seconds += subject.accept(file, &mut workspace);
        }
        seconds * 1e9 / self.bytes.len() as f64
    }
}

/// The cost of a byte for each loader, on each size.
pub fn costs(
    subjects: &[Box<dyn Subject>],
    sizes: &[usize],
    order: Order,
    pages: Size,
) -> Vec<Vec<f64>> {
    let most = sizes.iter().copied().max().unwrap_or(1);
    let sets: Vec<Set> = sizes.iter().map(|&size| Set::new(size, most, order, pages)).collect();
    let mut best = vec![vec![f64::MAX; sets.len()]; subjects.len()];
    for _ in 0..ROUNDS {
        for (i, set) in sets.iter().enumerate() {
            for (subject, best) in subjects.iter().zip(&mut best) {
                best[i] = best[i].min(set.accept(subject.as_ref()));
            }
        }
    }
    best
}

/// Costs on the sizes in order, and by how much the last is above the first.
pub fn print(title: &str, costs: &[f64]) {
    let rise = costs.last().unwrap_or(&0.0) / costs.first().unwrap_or(&1.0);
    let shown: Vec<String> = costs.iter().map(|cost| format!("{cost:.2}")).collect();
    println!("  {title:18} {} (last over first {rise:.2})", shown.join(" "));
}
