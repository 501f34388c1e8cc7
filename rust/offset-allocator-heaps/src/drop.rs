// Printed by rust/erase from crates/offset_heaps/src/drop.rt: change it there.

//! Empty heaps, and those of a number, that are given back. It changes one slot, and notes it in the index.

use crate::HeapsOf;
use offset_allocator::Tables;

impl<T: Tables> HeapsOf<T> {
    /// Drops the last empty heap, by number, if more than `keep` heaps are empty, and returns its number:
    /// drop its buffer. `None` is returned where at most `keep` are empty; then nothing changes. Call it
    /// until it returns `None`: each call takes some steps for each bit of the numbers.
    ///
    /// No place loses its range, and a place that the heap granted is never live again, though a later heap
    /// may have its number.
    ///
    /// ```
    /// # use offset_allocator_heaps::*;
    /// # let alloc = Global;
    /// let limits = Limits { size: 1000, first_size: 1000, max_allocs: 100, first_allocs: 8, most: 2, most_larger: 1 };
    /// let mut heaps = Heaps::<u32>::new(alloc, limits)?;
    /// let mesh = heaps.allocate(300).unwrap().place;
    /// assert_eq!(heaps.drop_empty(0), None);
    /// heaps.free(mesh);
    /// assert_eq!(heaps.drop_empty(0), Some(mesh.heap));
    /// # Ok::<(), AllocError>(())
    /// ```
    pub fn drop_empty(&mut self, keep: u32) -> Option<u32> {
        if self.index.empty.count() <= keep as u64 {
            return None;
        }
        let last = self.index.empty.last(&mut self.accesses)?;
        self.give_up(last);
        Some(last)
    }

    /// Drops the heap of a number, if it is empty, and returns whether it did: then drop its buffer. A caller
    /// that asks this of the heap of each place that it frees keeps no empty heap, and walks over none.
    ///
    /// ```
    /// # use offset_allocator_heaps::*;
    /// # let alloc = Global;
    /// let limits = Limits { size: 1000, first_size: 1000, max_allocs: 100, first_allocs: 8, most: 2, most_larger: 1 };
    /// let mut heaps = Heaps::<u32>::new(alloc, limits)?;
    /// let mesh = heaps.allocate(300).unwrap().place;
    /// assert!(!heaps.drop_heap(mesh.heap));
    /// heaps.free(mesh);
    /// assert!(heaps.drop_heap(mesh.heap));
    /// # Ok::<(), AllocError>(())
    /// ```
    pub fn drop_heap(&mut self, number: u32) -> bool {
        if !self.slots.is_empty_at(number, &mut self.accesses) {
            return false;
        }
        self.give_up(number)
    }

    /// Takes back the heap of a number, with all that it granted, and returns whether there was one: where
    /// the buffer of a new heap can't be made, or is lost. No place of it is ever live again, and all other
    /// heaps stay.
    ///
    /// ```
    /// # use offset_allocator_heaps::*;
    /// # let alloc = Global;
    /// let limits = Limits { size: 1000, first_size: 1000, max_allocs: 100, first_allocs: 8, most: 2, most_larger: 1 };
    /// let mut heaps = Heaps::<u32>::new(alloc, limits)?;
    /// let mesh = heaps.allocate(300).unwrap().place;
    /// assert!(heaps.give_up(mesh.heap));
    /// assert!(!heaps.is_live(mesh));
    /// # Ok::<(), AllocError>(())
    /// ```
    pub fn give_up(&mut self, number: u32) -> bool {
        if !self.slots.has(number, &mut self.accesses) {
            return false;
        }
        self.slots.put(number, None, &mut self.accesses);
        self.index
            .note(&self.slots, number, self.limits, &mut self.accesses);
        true
    }
}
