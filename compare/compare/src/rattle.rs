//! The proved library through its C interface.

use std::cell::Cell;
use std::ptr::{null, null_mut};

use second::{Answer, HeaderReport, Which};

use crate::loader::Loader;

type Bytes = *const u8;
type Room = *mut u8;

extern "C" {
    fn taplinen_accept(file: Bytes, file_len: usize, ws: Room, ws_len: usize) -> Answer;
    fn taplinen_header(file: Bytes, file_len: usize, ws: Room, ws_len: usize) -> HeaderReport;
    fn taplinen_name(
        file: Bytes,
        file_len: usize,
        ws: Room,
        ws_len: usize,
        text: Bytes,
        text_len: usize,
    ) -> Answer;
    fn taplinen_value(
        file: Bytes,
        file_len: usize,
        ws: Room,
        ws_len: usize,
        text: Bytes,
        text_len: usize,
    ) -> Answer;
    fn taplinen_path(
        file: Bytes,
        file_len: usize,
        ws: Room,
        ws_len: usize,
        path: Bytes,
        path_len: usize,
        list: Room,
        list_len: usize,
    ) -> Answer;
    fn taplinen_outline(
        file: Bytes,
        file_len: usize,
        ws: Room,
        ws_len: usize,
        out: Room,
        out_len: usize,
    ) -> Answer;
    fn taplinen_names(
        file: Bytes,
        file_len: usize,
        ws: Room,
        ws_len: usize,
        texts: Bytes,
        texts_len: usize,
        answers: Room,
        answers_len: usize,
    ) -> Answer;
    fn taplinen_values(
        file: Bytes,
        file_len: usize,
        ws: Room,
        ws_len: usize,
        texts: Bytes,
        texts_len: usize,
        answers: Room,
        answers_len: usize,
    ) -> Answer;
    fn taplinen_hash(start: u32, text: Bytes, text_len: usize) -> u32;
    fn taplinen_value_hash(text: Bytes, text_len: usize) -> u32;
}

#[derive(Default)]
pub struct Rattle {
    null_for_empty: Cell<bool>,
}

impl Rattle {
    fn lend(&self, bytes: &[u8]) -> Bytes {
        if bytes.is_empty() && self.null_for_empty.get() {
            return null();
        }
        bytes.as_ptr()
    }

    fn room(&self, bytes: &mut [u8]) -> Room {
        if bytes.is_empty() && self.null_for_empty.get() {
            return null_mut();
        }
        bytes.as_mut_ptr()
    }
}

// Every call lends slices that live through it, with their own lengths.
impl Loader for Rattle {
    fn title(&self) -> String {
        "the proved library".to_string()
    }

    fn empty_as_null(&self, yes: bool) {
        self.null_for_empty.set(yes);
    }

    fn accept(&self, file: &[u8], ws: &mut [u8]) -> Answer {
        unsafe { taplinen_accept(self.lend(file), file.len(), self.room(ws), ws.len()) }
    }

    fn header(&self, file: &[u8], ws: &mut [u8]) -> HeaderReport {
        unsafe { taplinen_header(self.lend(file), file.len(), self.room(ws), ws.len()) }
    }

    fn single(&self, which: Which, file: &[u8], ws: &mut [u8], text: &[u8]) -> Answer {
        let ask = match which {
            Which::Names => taplinen_name,
            Which::Values => taplinen_value,
        };
        let (file_at, ws_at) = (self.lend(file), self.room(ws));
        unsafe { ask(file_at, file.len(), ws_at, ws.len(), self.lend(text), text.len()) }
    }

    fn path(&self, file: &[u8], ws: &mut [u8], path: &[u8], listing: &mut [u8]) -> Answer {
        let (file_at, ws_at) = (self.lend(file), self.room(ws));
        let (path_at, list_at) = (self.lend(path), self.room(listing));
        unsafe {
            taplinen_path(
                file_at,
                file.len(),
                ws_at,
                ws.len(),
                path_at,
                path.len(),
                list_at,
                listing.len(),
            )
        }
    }

    fn outline(&self, file: &[u8], ws: &mut [u8], out: &mut [u8]) -> Answer {
        let (file_at, ws_at) = (self.lend(file), self.room(ws));
        unsafe { taplinen_outline(file_at, file.len(), ws_at, ws.len(), self.room(out), out.len()) }
    }

    fn batch(
        &self,
        which: Which,
        file: &[u8],
        ws: &mut [u8],
        texts: &[u8],
        answers: &mut [u8],
    ) -> Answer {
        let ask = match which {
            Which::Names => taplinen_names,
            Which::Values => taplinen_values,
        };
        let (file_at, ws_at) = (self.lend(file), self.room(ws));
        let (texts_at, answers_at) = (self.lend(texts), self.room(answers));
        unsafe {
            ask(
                file_at,
                file.len(),
                ws_at,
                ws.len(),
                texts_at,
                texts.len(),
                answers_at,
                answers.len(),
            )
        }
    }

    fn hash(&self, start: u32, text: &[u8]) -> u32 {
        unsafe { taplinen_hash(start, self.lend(text), text.len()) }
    }

    fn value_hash(&self, text: &[u8]) -> u32 {
        unsafe { taplinen_value_hash(self.lend(text), text.len()) }
    }
}
