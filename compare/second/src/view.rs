//! Acceptance, and the view of an accepted file that questions read.

use std::marker::PhantomData;

use crate::answer::Refusal;
use crate::index::Index;
use crate::keys::{check_keys, special_names};
use crate::layout::Layout;
use crate::nodes::NodeChecks;
use crate::reading::{Mutant, Reading};
use crate::strings::check_tables;
use crate::tree::TreeChecks;

/// An accepted file. Whoever holds it may ask without a second check. The index
/// that helped to accept it is not kept: lookups go by the file's own buckets.
pub struct View<'a, R, I> {
    pub(crate) reading: R,
    pub(crate) file: &'a [u8],
    pub(crate) layout: Layout,
    index: PhantomData<I>,
}

impl<'a, R: Reading, I: Index> View<'a, R, I> {
    /// A file that is not accepted yet. A view is too large to be handed about, so
    /// it is accepted in place.
    pub(crate) fn unread(reading: R, file: &'a [u8]) -> View<'a, R, I> {
        View { reading, file, layout: Layout::UNREAD, index: PhantomData }
    }

    /// All of acceptance, in the order of document 01.
    pub(crate) fn accept(&mut self, workspace: &mut [u8]) -> Result<(), Refusal> {
        let View { reading, file, .. } = *self;
        self.layout.read(reading, file)?;
        let layout = &self.layout;
        let mut index = I::new(file, &layout.values);
        check_tables(reading, file, layout, &mut index)?;
        let special = special_names(reading, file, layout)?;
        check_keys(reading, file, layout, special)?;
        let tree = TreeChecks { reading, file, layout };
        if reading.wrong(Mutant::WorkspaceBeforeNodes) {
            tree.check_room(workspace)?;
        }
        let nodes = NodeChecks { reading, file, layout, special };
        if reading.wrong(Mutant::CodesAfterTree) && nodes.without_codes().is_ok() {
            tree.check_room(workspace)?;
            tree.check(&mut workspace.to_vec())?;
        }
        nodes.run(index)?;
        tree.check_room(workspace)?;
        tree.check(workspace)
    }

    /// The number of used nodes.
    pub fn used_nodes(&self) -> u32 {
        self.layout.nodes.used
    }
}
