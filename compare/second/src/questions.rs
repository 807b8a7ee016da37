//! The exported questions: each accepts first and then asks the view. The two
//! hashes take no file.

use crate::answer::{Answer, HeaderReport, Refusal};
use crate::hash;
use crate::index::Index;
use crate::lookup::{list_fault, text_fault, Which};
use crate::reading::{Mutant, Reading};
use crate::view::View;

/// The loader: a reading of the rules and a way to index.
pub struct Loader<R, I> {
    reading: R,
    index: std::marker::PhantomData<I>,
}

impl<R: Reading, I: Index> Loader<R, I> {
    pub const fn new(reading: R) -> Loader<R, I> {
        Loader { reading, index: std::marker::PhantomData }
    }

    /// The held form: lookups and paths need no second check.
    pub fn hold<'a>(&self, file: &'a [u8], ws: &mut [u8]) -> Result<View<'a, R, I>, Refusal> {
        let mut view = View::unread(self.reading, file);
        view.accept(ws)?;
        Ok(view)
    }

    /// Accepts, then answers from the view, which takes much of a small stack: only
    /// while it is needed.
    #[inline(never)]
    fn ask(
        &self,
        file: &[u8],
        ws: &mut [u8],
        question: impl FnOnce(&View<R, I>) -> Answer,
    ) -> Answer {
        let mut view = View::unread(self.reading, file);
        match view.accept(ws) {
            Ok(()) => question(&view),
            Err(refusal) => refusal.into(),
        }
    }

    /// A fault that one wrong reading tells too early.
    fn early(&self, fault: Option<Refusal>) -> Option<Answer> {
        fault.filter(|_| self.reading.wrong(Mutant::OddBeforeAcceptance)).map(Answer::from)
    }

    pub fn accept(&self, file: &[u8], ws: &mut [u8]) -> Answer {
        self.ask(file, ws, |view| Answer::of(view.used_nodes() as u64))
    }

    pub fn single(&self, which: Which, file: &[u8], ws: &mut [u8], text: &[u8]) -> Answer {
        match self.early(text_fault(text)) {
            Some(answer) => answer,
            None => self.ask(file, ws, |view| view.single(which, text)),
        }
    }

    pub fn batch(
        &self,
        which: Which,
        file: &[u8],
        ws: &mut [u8],
        texts: &[u8],
        answers: &mut [u8],
    ) -> Answer {
        match self.early(list_fault(self.reading, texts)) {
            Some(answer) => answer,
            None => self.ask(file, ws, |view| view.batch(which, texts, answers)),
        }
    }

    pub fn path(&self, file: &[u8], ws: &mut [u8], path: &[u8], listing: &mut [u8]) -> Answer {
        match self.early(list_fault(self.reading, path)) {
            Some(answer) => answer,
            None => self.ask(file, ws, |view| view.path(path, listing)),
        }
    }

    pub fn outline(&self, file: &[u8], ws: &mut [u8], out: &mut [u8]) -> Answer {
        self.ask(file, ws, |view| view.outline(out))
    }

    #[inline(never)]
    pub fn header(&self, file: &[u8], ws: &mut [u8]) -> HeaderReport {
        let mut view: View<R, I> = View::unread(self.reading, file);
        match view.accept(ws) {
            Ok(()) => view.header(),
            Err(refusal) => HeaderReport {
                refusal: refusal.number,
                place: refusal.place,
                ..HeaderReport::default()
            },
        }
    }

    /// The string hash, on from `start` over all bytes of the text: `start` 0
    /// gives the hash of a text, and the hash of a part is the next one's start.
    pub fn hash(&self, start: u32, text: &[u8]) -> u32 {
        hash::hash_on(self.reading, start, text)
    }

    /// The value hash of the whole characters of the text.
    pub fn value_hash(&self, text: &[u8]) -> u16 {
        hash::value_hash(self.reading, text)
    }
}

impl<R: Reading, I: Index> View<'_, R, I> {
    pub fn header(&self) -> HeaderReport {
        let header = self.layout.header;
        let nan = f64::from_bits(header.timestamp_bits).is_nan();
        let plain = nan && self.reading.wrong(Mutant::TimestampMadePlain);
        HeaderReport {
            refusal: 0,
            version: header.version,
            place: 0,
            timestamp: f64::from_bits(header.timestamp_bits),
            timestamp_bits: if plain { f64::NAN.to_bits() } else { header.timestamp_bits },
            has_revision: 1,
            revision: header.revision,
        }
    }
}
