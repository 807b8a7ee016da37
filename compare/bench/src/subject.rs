//! What is measured: a loader that accepts, looks up many texts, lists a path
//! and hashes texts. All give seconds.

use std::hint::black_box;

use compare::loader::Loader;
use second::{Answer, Index, Right, View, Which};

use crate::clock::now;

pub trait Subject {
    fn title(&self) -> &'static str;
    fn accept(&self, file: &[u8], workspace: &mut [u8]) -> f64;
    /// All texts of a batch, on a held view or after an acceptance.
    fn lookups(&self, file: &[u8], workspace: &mut [u8], which: Which, batch: &Batch) -> f64;
    /// A question for each text, on a held view or each after an acceptance.
    fn singles(&self, file: &[u8], workspace: &mut [u8], which: Which, texts: &[Vec<u8>]) -> f64;
    /// Whether the lookups' time has an acceptance in it.
    fn accepts_again(&self) -> bool;
    /// One path question, acceptance included.
    fn path(&self, file: &[u8], workspace: &mut [u8], path: &[u8]) -> f64 {
        self.path_into(file, workspace, path, &mut vec![1; LISTING])
    }
    /// The same with a listing that is lent.
    fn path_into(&self, file: &[u8], workspace: &mut [u8], path: &[u8], listing: &mut [u8]) -> f64;
    /// One path on a held view, where the loader has that form.
    fn held_path(&self, file: &[u8], workspace: &mut [u8], path: &[u8]) -> Option<f64>;
    /// The string hash of each text from 0, a call for each.
    fn hashes(&self, texts: Texts) -> f64;
    /// The value hash of each text, a call for each.
    fn value_hashes(&self, texts: Texts) -> f64;
}

/// Texts of so many bytes each, one after the other.
#[derive(Clone, Copy)]
pub struct Texts<'a> {
    pub bytes: &'a [u8],
    pub each: usize,
}

impl Texts<'_> {
    fn timed(self, hash: impl Fn(&[u8]) -> u32) -> f64 {
        let started = now();
        let all = self.bytes.chunks_exact(self.each).fold(0, |all, text| all ^ hash(text));
        black_box(all);
        now() - started
    }
}

/// Texts each followed by a 0, and how many.
pub struct Batch {
    pub texts: Vec<u8>,
    pub count: usize,
}

/// Room for every match of the paths that are asked.
const LISTING: usize = 1 << 23;

/// The second loader, which holds a view.
pub struct Held<I> {
    pub title: &'static str,
    pub loader: second::Loader<Right, I>,
}

impl<I: Index> Held<I> {
    fn view<'a>(&self, file: &'a [u8], workspace: &mut [u8]) -> View<'a, Right, I> {
        match self.loader.hold(file, workspace) {
            Ok(view) => view,
            Err(refusal) => panic!("a made file is refused: {refusal:?}"),
        }
    }
}

impl<I: Index> Subject for Held<I> {
    fn title(&self) -> &'static str {
        self.title
    }

    fn accept(&self, file: &[u8], workspace: &mut [u8]) -> f64 {
        timed(|| self.loader.accept(file, workspace).refusal)
    }

    fn lookups(&self, file: &[u8], workspace: &mut [u8], which: Which, batch: &Batch) -> f64 {
        let view = self.view(file, workspace);
        let mut answers = vec![1; batch.count * 8];
        timed(|| view.batch(which, &batch.texts, &mut answers).refusal)
    }

    fn singles(&self, file: &[u8], workspace: &mut [u8], which: Which, texts: &[Vec<u8>]) -> f64 {
        let view = self.view(file, workspace);
        each(texts, |text| view.single(which, text))
    }

    fn accepts_again(&self) -> bool {
        false
    }

    fn path_into(&self, file: &[u8], workspace: &mut [u8], path: &[u8], listing: &mut [u8]) -> f64 {
        timed(|| self.loader.path(file, workspace, path, listing).refusal)
    }

    fn held_path(&self, file: &[u8], workspace: &mut [u8], path: &[u8]) -> Option<f64> {
        const TIMES: u32 = 1_000;
        let view = self.view(file, workspace);
        let mut listing = vec![1; LISTING];
        let all = timed(|| {
            (0..TIMES).map(|_| view.path(black_box(path), &mut listing).refusal).max().unwrap_or(0)
        });
        Some(all / TIMES as f64)
    }

    fn hashes(&self, texts: Texts) -> f64 {
        texts.timed(|text| hash(&self.loader, text))
    }

    fn value_hashes(&self, texts: Texts) -> f64 {
        texts.timed(|text| value_hash(&self.loader, text))
    }
}

/// A call, as to a library: the loop over the texts does not take it in.
#[inline(never)]
fn hash<I: Index>(loader: &second::Loader<Right, I>, text: &[u8]) -> u32 {
    loader.hash(0, text)
}

/// A call, as above.
#[inline(never)]
fn value_hash<I: Index>(loader: &second::Loader<Right, I>, text: &[u8]) -> u32 {
    loader.value_hash(text) as u32
}

/// A loader behind the exported questions alone: a batch accepts once.
pub struct Exported<L> {
    pub title: &'static str,
    pub loader: L,
}

impl<L: Loader> Subject for Exported<L> {
    fn title(&self) -> &'static str {
        self.title
    }

    fn accept(&self, file: &[u8], workspace: &mut [u8]) -> f64 {
        timed(|| self.loader.accept(file, workspace).refusal)
    }

    fn lookups(&self, file: &[u8], workspace: &mut [u8], which: Which, batch: &Batch) -> f64 {
        let mut answers = vec![1; batch.count * 8];
        timed(|| self.loader.batch(which, file, workspace, &batch.texts, &mut answers).refusal)
    }

    fn singles(&self, file: &[u8], workspace: &mut [u8], which: Which, texts: &[Vec<u8>]) -> f64 {
        each(texts, |text| self.loader.single(which, file, workspace, text))
    }

    fn accepts_again(&self) -> bool {
        true
    }

    fn path_into(&self, file: &[u8], workspace: &mut [u8], path: &[u8], listing: &mut [u8]) -> f64 {
        timed(|| self.loader.path(file, workspace, path, listing).refusal)
    }

    fn held_path(&self, _: &[u8], _: &mut [u8], _: &[u8]) -> Option<f64> {
        None
    }

    fn hashes(&self, texts: Texts) -> f64 {
        texts.timed(|text| self.loader.hash(0, text))
    }

    fn value_hashes(&self, texts: Texts) -> f64 {
        texts.timed(|text| self.loader.value_hash(text))
    }
}

/// Seconds of a look-up of each text.
fn each(texts: &[Vec<u8>], mut ask: impl FnMut(&[u8]) -> Answer) -> f64 {
    timed(|| texts.iter().map(|text| black_box(ask(text)).refusal).max().unwrap_or(0))
}

/// Seconds of a question, which has to be answered without a refusal.
fn timed(ask: impl FnOnce() -> u32) -> f64 {
    let started = now();
    let refusal = black_box(ask());
    let seconds = now() - started;
    assert_eq!(refusal, 0, "a question of the benchmark is refused");
    seconds
}
