//! The right reading of document 01 and requests T-01, T-05 and T-10, and the wrong ones
//! the sensitivity run tells apart from it.
//!
//! Checks ask `reading.wrong(Mutant::…)` where a wrong reading would differ.
//! For `Right` that is the constant `false`, so the shipped loader carries no
//! trace of the mutants; `Wrong` decides at run time. `Literal` is the right reading
//! without the fast forms: texts, hashes and lookups go by their definition.

pub use crate::mutant::Mutant;

pub trait Reading: Copy {
    fn wrong(self, mutant: Mutant) -> bool;

    /// Whether texts, hashes and lookups go by their definition.
    #[inline(always)]
    fn literal(self) -> bool {
        false
    }

    /// Whether hashes of texts are other ones than the papers'.
    #[inline(always)]
    fn changes_hashes(self) -> bool {
        false
    }
}

#[derive(Clone, Copy, Debug, Default)]
pub struct Right;

impl Reading for Right {
    #[inline(always)]
    fn wrong(self, _: Mutant) -> bool {
        false
    }
}

#[derive(Clone, Copy, Debug, Default)]
pub struct Literal;

impl Reading for Literal {
    #[inline(always)]
    fn wrong(self, _: Mutant) -> bool {
        false
    }

    #[inline(always)]
    fn literal(self) -> bool {
        true
    }
}

#[derive(Clone, Copy, Debug)]
pub struct Wrong(pub Mutant);

impl Reading for Wrong {
    #[inline]
    fn wrong(self, mutant: Mutant) -> bool {
        self.0 == mutant
    }

    #[inline]
    fn changes_hashes(self) -> bool {
        self.0.changes_hashes()
    }
}
