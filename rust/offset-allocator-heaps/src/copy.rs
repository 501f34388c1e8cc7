// Printed by rust/erase from crates/offset_heaps/src/copy.rt: change it there.

//! Copies of many heaps, and the index of heaps that are there. It changes nothing.

use crate::HeapsOf;
use crate::index::Index;
use crate::limits::Limits;
use crate::slots::Slots;
use offset_allocator::{Accesses, Tables};
use offset_guarded::GuardedOf;
use crate::memory::{AllocError, Global};

/// The index of heaps that are there.
pub(crate) fn index_of<T: Tables>(
    alloc: Global,
    slots: &Slots<T>,
    limits: Limits,
) -> Result<Index, AllocError> {
    let count = limits.most + limits.most_larger;
    let mut index = Index::with_room(alloc, count)?;
    for number in 0..count {
        index.note(slots, number, limits, &mut Accesses::new());
    }
    Ok(index)
}

// A copy of a heap, where there is one.
fn copy_of<T: Tables>(
    alloc: Global,
    heap: Option<&GuardedOf<T>>,
) -> Result<Option<GuardedOf<T>>, AllocError> {
    match heap {
        None => Ok(None),
        Some(heap) => Ok(Some(heap.try_clone(alloc)?)),
    }
}

// Copies of all heaps.
fn copies_of<T: Tables>(alloc: Global, slots: &Slots<T>, count: u32) -> Result<Slots<T>, AllocError> {
    let mut copies = Slots::with_room(alloc, count)?;
    for number in 0..count {
        let copy = copy_of(alloc, slots.at(number, &mut Accesses::new()))?;
        copies.put(number, copy, &mut Accesses::new());
    }
    Ok(copies)
}

impl<T: Tables> HeapsOf<T> {
    /// A copy, with memory of its own, with the same limits, realm and heaps, by number: each place that is
    /// live here is live there. Serials and the realms of heaps go on from the same numbers in both, so a
    /// later grant of one may have a place that is live in the other, for another range: use one copy in
    /// place of the other, as a snapshot, and not beside it. Nothing is known of the buffers: the copy has
    /// those of the heaps that it has.
    ///
    /// # Errors
    ///
    /// An error is returned only where an allocation failed; then nothing is made.
    ///
    /// ```
    /// # use offset_allocator_heaps::*;
    /// # let alloc = Global;
    /// let limits = Limits { size: 1000, first_size: 1000, max_allocs: 100, first_allocs: 8, most: 2, most_larger: 1 };
    /// let mut heaps = Heaps::<u32>::new(alloc, limits)?;
    /// let mesh = heaps.allocate(300).unwrap().place;
    /// let copy = heaps.try_clone(alloc)?;
    /// heaps.free(mesh);
    /// assert!(copy.is_live(mesh));
    /// # Ok::<(), AllocError>(())
    /// ```
    pub fn try_clone(&self, alloc: Global) -> Result<Self, AllocError> {
        let limits = self.limits;
        let slots = copies_of(alloc, &self.slots, limits.most + limits.most_larger)?;
        let index = index_of(alloc, &slots, limits)?;
        Ok(HeapsOf {
            alloc,
            slots,
            index,
            limits,
            made: self.made,
            realm: self.realm,
            accesses: Accesses::new(),
        })
    }
}
