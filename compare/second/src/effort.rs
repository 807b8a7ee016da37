//! How much a question has looked at.
//!
//! An ordinary file is looked at about twice over. A file that is made to be slow
//! has a loader look at the same bytes again and again: ranges and texts that are
//! shared, texts that are ends of others, crowds of entries with one hash. When
//! that is noticed, the question goes on carefully: with tables that remember what
//! was looked at. Ordinary files need none of them.

use crate::answer::Refusal;

/// Bytes that may be looked at for each byte of the file, before the rest is done
/// carefully.
pub const ORDINARY: usize = 8;

pub struct Effort {
    left: usize,
}

/// The effort is used up: the rest is to be done carefully.
pub struct Dear;

impl Effort {
    /// So many times the bytes that are lent.
    pub fn new(times: usize, bytes: usize) -> Effort {
        Effort { left: times.saturating_mul(bytes) }
    }

    /// For what is done carefully already.
    pub fn endless() -> Effort {
        Effort { left: usize::MAX }
    }

    #[inline(always)]
    pub fn spend(&mut self, bytes: usize) {
        self.left = self.left.saturating_sub(bytes);
    }

    #[inline(always)]
    pub fn check(&self) -> Result<(), Dear> {
        if self.left == 0 {
            return Err(Dear);
        }
        Ok(())
    }
}

/// Why a check does not go on.
pub enum Stop {
    Refused(Refusal),
    Dear,
}

impl From<Refusal> for Stop {
    #[inline]
    fn from(refusal: Refusal) -> Stop {
        Stop::Refused(refusal)
    }
}

impl From<Dear> for Stop {
    #[inline]
    fn from(_: Dear) -> Stop {
        Stop::Dear
    }
}
