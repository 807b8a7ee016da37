//! One trait for every loader that is compared.

use second::{Answer, HeaderReport, Index, Reading, Which};

pub trait Loader {
    fn title(&self) -> String;
    fn accept(&self, file: &[u8], ws: &mut [u8]) -> Answer;
    fn header(&self, file: &[u8], ws: &mut [u8]) -> HeaderReport;
    fn single(&self, which: Which, file: &[u8], ws: &mut [u8], text: &[u8]) -> Answer;
    fn path(&self, file: &[u8], ws: &mut [u8], path: &[u8], listing: &mut [u8]) -> Answer;
    fn outline(&self, file: &[u8], ws: &mut [u8], out: &mut [u8]) -> Answer;
    fn batch(
        &self,
        which: Which,
        file: &[u8],
        ws: &mut [u8],
        texts: &[u8],
        answers: &mut [u8],
    ) -> Answer;
    /// The string hash, on from `start`.
    fn hash(&self, start: u32, text: &[u8]) -> u32;
    fn value_hash(&self, text: &[u8]) -> u32;

    /// Whether empty buffers are lent as null pointers from now on. Slices
    /// cannot be null, so only loaders behind a C interface listen.
    fn empty_as_null(&self, _yes: bool) {}
}

/// The second loader under a title.
pub struct Second<R, I> {
    title: String,
    loader: second::Loader<R, I>,
}

impl<R: Reading, I: Index> Second<R, I> {
    pub fn new(title: &str, reading: R) -> Second<R, I> {
        Second { title: title.to_string(), loader: second::Loader::new(reading) }
    }
}

impl<R: Reading, I: Index> Loader for Second<R, I> {
    fn title(&self) -> String {
        self.title.clone()
    }

    fn accept(&self, file: &[u8], ws: &mut [u8]) -> Answer {
        self.loader.accept(file, ws)
    }

    fn header(&self, file: &[u8], ws: &mut [u8]) -> HeaderReport {
        self.loader.header(file, ws)
    }

    fn single(&self, which: Which, file: &[u8], ws: &mut [u8], text: &[u8]) -> Answer {
        self.loader.single(which, file, ws, text)
    }

    fn path(&self, file: &[u8], ws: &mut [u8], path: &[u8], listing: &mut [u8]) -> Answer {
        self.loader.path(file, ws, path, listing)
    }

    fn outline(&self, file: &[u8], ws: &mut [u8], out: &mut [u8]) -> Answer {
        self.loader.outline(file, ws, out)
    }

    fn batch(
        &self,
        which: Which,
        file: &[u8],
        ws: &mut [u8],
        texts: &[u8],
        answers: &mut [u8],
    ) -> Answer {
        self.loader.batch(which, file, ws, texts, answers)
    }

    fn hash(&self, start: u32, text: &[u8]) -> u32 {
        self.loader.hash(start, text)
    }

    fn value_hash(&self, text: &[u8]) -> u32 {
        self.loader.value_hash(text) as u32
    }
}
