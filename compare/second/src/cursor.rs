//! Reading along the file: a field or an array at a time, each either inside
//! the file or refused with 2.

use crate::answer::{refuse, Refusal};
use crate::bytes::{u32_at, u64_at};
use crate::reading::{Mutant, Reading};

pub struct Cursor<'a> {
    pub file: &'a [u8],
    pub at: usize,
}

impl Cursor<'_> {
    /// The next `size` bytes as one field; its offset.
    #[inline]
    fn field(&mut self, size: usize) -> Result<usize, Refusal> {
        let at = self.at;
        if self.file.len() - at < size {
            return refuse(2, at);
        }
        self.at = at + size;
        Ok(at)
    }

    #[inline]
    pub fn word(&mut self) -> Result<u32, Refusal> {
        let at = self.field(4)?;
        Ok(u32_at(self.file, at))
    }

    pub fn double_word(&mut self) -> Result<u64, Refusal> {
        let at = self.field(8)?;
        Ok(u64_at(self.file, at))
    }

    /// An array of `count` elements of `size` bytes; its offset. The product
    /// is taken in 64 bits: a count is any 32-bit number.
    #[inline]
    pub fn array<R: Reading>(
        &mut self,
        reading: R,
        count: u32,
        size: u32,
    ) -> Result<usize, Refusal> {
        let at = self.at;
        let left = self.file.len() - at;
        let mut length = count as u64 * size as u64;
        if reading.wrong(Mutant::EntriesWrap) {
            length &= 0xffff_ffff;
        }
        if length > left as u64 {
            if reading.wrong(Mutant::CutArrayAtElement) {
                return refuse(2, at + left / size as usize * size as usize);
            }
            return refuse(2, at);
        }
        self.at = at + length as usize;
        Ok(at)
    }
}
