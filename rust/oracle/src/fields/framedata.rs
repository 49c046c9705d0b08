// Appended to a copy of pdb's framedata.rs as the module `fields`: a child may read private fields.

use super::{FrameDataIter, FrameTable};

impl FrameDataIter<'_> {
    /// The places of the next old and the next new frame.
    pub fn indexes(&self) -> (usize, usize) {
        (self.old_index, self.new_index)
    }
}

impl FrameTable<'_> {
    /// An iterator that goes on at the given places.
    pub fn iter_at_indexes(&self, old_index: usize, new_index: usize) -> FrameDataIter<'_> {
        FrameDataIter {
            old_index,
            new_index,
            ..self.iter()
        }
    }
}
