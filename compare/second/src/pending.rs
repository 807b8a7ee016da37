//! Text attributes whose check 19 is under way.
//!
//! Each waits for memory several times, so a handful are kept going at once.
//! They are finished in the order they came. Whoever meets another fault
//! finishes these first: they stand before it.

use crate::answer::Refusal;
use crate::bytes::Address;
use crate::effort::{Effort, Stop};
use crate::index::{Index, TextAttribute, Texts};
use crate::node::Attribute;
use crate::reading::Reading;
use crate::region::Near;

const SLOTS: usize = 32;
/// How many are only expected before the oldest of them is begun.
const EXPECTED: usize = 12;
/// How many are only begun before the oldest of them is refined.
const BEGUN: usize = 8;

#[derive(Clone, Copy)]
struct Slot<S, W> {
    attribute: TextAttribute,
    spot: S,
    work: W,
}

/// Numbers count the attributes from the first: finished, then refined, begun
/// and expected ones.
pub struct Pending<'a, R, I: Index> {
    texts: Texts<'a, R>,
    index: &'a mut I,
    pub effort: Effort,
    near: Near,
    slots: [Slot<I::Spot, I::Work>; SLOTS],
    finished: usize,
    refined: usize,
    begun: usize,
    taken: usize,
}

impl<'a, R: Reading, I: Index> Pending<'a, R, I> {
    pub fn new(texts: Texts<'a, R>, index: &'a mut I, effort: Effort) -> Self {
        let attribute = TextAttribute { at: 0, address: Address::from_word(0), extended: 0 };
        let empty = Slot { attribute, spot: I::Spot::default(), work: I::Work::default() };
        Pending {
            texts,
            index,
            effort,
            near: Near::default(),
            slots: [empty; SLOTS],
            finished: 0,
            refined: 0,
            begun: 0,
            taken: 0,
        }
    }

    /// Takes the next text attribute; a refusal is an earlier one's.
    #[inline]
    pub fn take(&mut self, attribute: Attribute, at: usize) -> Result<(), Stop> {
        if self.taken - self.finished == SLOTS {
            self.finish_one()?;
        }
        if self.begun - self.refined == BEGUN {
            self.refine_one();
        }
        if self.taken - self.begun == EXPECTED {
            self.begin_one();
            self.effort.check()?;
        }
        let address = Address::from_word(attribute.word);
        let slot = &mut self.slots[self.taken % SLOTS];
        slot.attribute = TextAttribute { at: at as u32, address, extended: attribute.extended() };
        slot.spot = self.index.expect(&self.texts, address, &mut self.near);
        self.taken += 1;
        Ok(())
    }

    /// Finishes all that were taken.
    pub fn finish(&mut self) -> Result<(), Refusal> {
        while self.finished < self.taken {
            if self.begun == self.finished {
                self.begin_one();
            }
            if self.refined == self.finished {
                self.refine_one();
            }
            self.finish_one()?;
        }
        self.index.settle(&self.texts)
    }

    #[inline]
    fn begin_one(&mut self) {
        let slot = &mut self.slots[self.begun % SLOTS];
        slot.work = self.index.begin(&self.texts, slot.attribute, slot.spot, &mut self.effort);
        self.begun += 1;
    }

    #[inline]
    fn refine_one(&mut self) {
        let slot = &mut self.slots[self.refined % SLOTS];
        self.index.refine(self.texts.file, &mut slot.work);
        self.refined += 1;
    }

    #[inline(always)]
    fn finish_one(&mut self) -> Result<(), Refusal> {
        let slot = &self.slots[self.finished % SLOTS];
        self.finished += 1;
        let checked = self.index.finish(&self.texts, slot.attribute, slot.work, &mut self.effort);
        if checked.is_err() {
            // The first fault is the answer: those that came later are dropped, and
            // checks that were put off stand before it.
            self.finished = self.taken;
            self.index.settle(&self.texts)?;
        }
        checked
    }
}
