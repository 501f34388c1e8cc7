// Printed by rust/erase from crates/offset_heaps/src/extend.rt: change it there.

//! Heaps whose space becomes larger in place. It changes one slot, and notes it in the index.

use crate::{HeapsOf, heap};
use offset_allocator::Tables;
use crate::memory::AllocError;

impl<T: Tables> HeapsOf<T> {
    /// Adds `more` units at the end of the heap of a number, as `GuardedOf::extend` does, and returns whether it
    /// did: for a buffer that became larger in place. Every place keeps its range. A usual heap may have
    /// more units than [`Limits`](crate::Limits) say then; once it is dropped, its number has the units of the limits again.
    ///
    /// `false` is returned where the number has no heap, where the heap would have more than 4294967295 units,
    /// or where its last block is used and no further block may exist under its largest node limit; then all is
    /// as it was. With 0 units it is `true` where the number has a heap. Where the units become a further block
    /// of a usual heap, for which its own limit leaves no node, that limit is first doubled, up to `max_allocs`.
    ///
    /// # Errors
    ///
    /// An error is returned only where the memory for more nodes was refused; then all is as it was.
    ///
    /// ```
    /// # use offset_allocator_heaps::*;
    /// # let alloc = Global;
    /// let limits = Limits { size: 1000, first_size: 1000, max_allocs: 100, first_allocs: 8, most: 2, most_larger: 1 };
    /// let mut heaps = Heaps::<u32>::new(alloc, limits)?;
    /// heaps.allocate(900).unwrap();
    /// assert!(heaps.extend_heap(0, 500)?);
    /// assert_eq!(heaps.units_of_heap(0), Some(1500));
    /// assert_eq!(heaps.allocate(512).unwrap().place.heap, 0);
    /// # Ok::<(), AllocError>(())
    /// ```
    pub fn extend_heap(&mut self, number: u32, more: u32) -> Result<bool, AllocError> {
        if !self.slots.has(number, &mut self.accesses) {
            return Ok(false);
        }
        let done = heap::extend_heap(
            self.alloc,
            self.slots.heap_mut(number, &mut self.accesses),
            number,
            self.limits,
            more,
        )?;
        self.index
            .note(&self.slots, number, self.limits, &mut self.accesses);
        Ok(done)
    }
}
