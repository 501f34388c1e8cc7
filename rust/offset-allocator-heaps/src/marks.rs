// Printed by rust/erase from crates/offset_heaps/src/marks.rt: change it there.

//! Numbers, some of which are marked: how many are, and the last of them. It touches its own row alone.

use crate::maxima::Maxima;
use offset_allocator::Accesses;
use crate::memory::{AllocError, Global};

/// Numbers from 0 on, some of which are marked.
pub(crate) struct Marks {
    // 1 for each that is marked, else 0
    row: Maxima,
    // how many are
    marked: u64,
}

impl Marks {
    /// Two to the power of `height` numbers, none of which is marked.
    pub(crate) fn with_height(alloc: Global, height: u32, places: usize) -> Result<Self, AllocError> {
        Ok(Marks {
            row: Maxima::with_height(alloc, height, places)?,
            marked: 0,
        })
    }

    /// How many are marked.
    pub(crate) fn count(&self) -> u64 {
        self.marked
    }

    /// The last one that is marked.
    pub(crate) fn last(&self, count: &mut Accesses) -> Option<u32> {
        self.row.last_at_least(1, count)
    }

    /// Marks a number, or takes its mark away.
    #[inline]
    pub(crate) fn set(&mut self, at: u32, mark: bool, count: &mut Accesses) {
        let key = if mark { 1 } else { 0 };
        let was = self.row.set(at, key, count);
        self.marked = self.marked - was as u64 + key as u64;
    }
}
