//! The second loader's plain form allocates nothing, careful or not.

use std::alloc::{GlobalAlloc, Layout, System};
use std::cell::Cell;

use maker::rng::Rng;
use maker::traps::of_any_size;
use second::{Careful, Index, Loader, Plain, Right, Which};

/// Counts the allocations of each thread.
struct Counting;

thread_local! {
    static ALLOCATIONS: Cell<usize> = const { Cell::new(0) };
}

// The system's allocator does the work.
unsafe impl GlobalAlloc for Counting {
    unsafe fn alloc(&self, layout: Layout) -> *mut u8 {
        ALLOCATIONS.set(ALLOCATIONS.get() + 1);
        System.alloc(layout)
    }

    unsafe fn dealloc(&self, at: *mut u8, layout: Layout) {
        System.dealloc(at, layout);
    }
}

#[global_allocator]
static COUNTING: Counting = Counting;

fn questions<I: Index>(file: &[u8], workspace: &mut [u8], texts: &[u8], out: &mut [u8]) -> usize {
    let loader: Loader<Right, I> = Loader::new(Right);
    let before = ALLOCATIONS.get();
    loader.accept(file, workspace);
    loader.batch(Which::Values, file, workspace, texts, out);
    loader.batch(Which::Names, file, workspace, texts, out);
    loader.single(Which::Values, file, workspace, &texts[..2]);
    loader.path(file, workspace, texts, out);
    loader.outline(file, workspace, &mut []);
    ALLOCATIONS.get() - before
}

#[test]
fn plain_allocates_nothing() {
    for class in of_any_size() {
        let mut model = class.make(40_000).model;
        model.drop_some(&mut Rng::new(1));
        let mut workspace = vec![0; model.used_nodes()];
        let mut texts = Vec::new();
        for &address in model.values.list.iter().chain(&model.names.list).take(2_000) {
            model.values.text(address).iter().for_each(|c| texts.extend(c.to_le_bytes()));
            texts.extend([0, 0]);
        }
        let mut out = vec![0; 4 * texts.len()];
        let file = model.bytes();
        for ask in [questions::<Plain>, questions::<Careful>] {
            assert_eq!(ask(&file, &mut workspace, &texts, &mut out), 0, "{}", class.name);
        }
    }
}
