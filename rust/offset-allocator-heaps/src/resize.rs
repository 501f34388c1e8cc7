// Printed by rust/erase from crates/offset_heaps/src/resize.rt: change it there.

//! Ranges that become smaller or larger in place, by the calls of tickets. It changes one slot, and notes it in the index.

use crate::HeapsOf;
use crate::place::Place;
use offset_allocator::Tables;
use offset_guarded::Ticket;

impl<T: Tables> HeapsOf<T> {
    // The number of the heap of a place, and its ticket there, where the place is of these heaps.
    fn ticket_of(&self, place: Place) -> Option<(u32, Ticket)> {
        let (number, realm, ticket) = place.split();
        if realm != self.realm {
            return None;
        }
        Some((number, ticket))
    }

    /// Makes the range of a place smaller in place, as `GuardedOf::shrink` does in its heap, and returns
    /// whether it did; or `None` where the place is not live, and then nothing changes. `false` is returned
    /// exactly where the heap's space refuses it, under the node limit that it has: where the range has fewer
    /// units, or that limit is reached and the units that it gives back have no free block after them; then all
    /// is as it was. No memory is taken here, so no limit is raised.
    ///
    /// ```
    /// # use offset_allocator_heaps::*;
    /// # let alloc = Global;
    /// let limits = Limits { size: 1000, first_size: 1000, max_allocs: 100, first_allocs: 8, most: 2, most_larger: 1 };
    /// let mut heaps = Heaps::<u32>::new(alloc, limits)?;
    /// let mesh = heaps.allocate(300).unwrap().place;
    /// assert_eq!(heaps.shrink(mesh, 200), Some(true));
    /// assert_eq!(heaps.size_of(mesh), Some(200));
    /// # Ok::<(), AllocError>(())
    /// ```
    pub fn shrink(&mut self, place: Place, size: u32) -> Option<bool> {
        let (number, ticket) = self.ticket_of(place)?;
        if !self.slots.has(number, &mut self.accesses) {
            return None;
        }
        let result = self
            .slots
            .heap_mut(number, &mut self.accesses)
            .shrink(ticket, size);
        self.index
            .note(&self.slots, number, self.limits, &mut self.accesses);
        result
    }

    /// Makes the range of a place larger in place, as `GuardedOf::grow_in_place` does in its heap, and
    /// returns whether it did; or `None` where the place is not live, and then nothing changes. `false` is
    /// returned where the range has more units, or the free block directly after it has too few; then all is
    /// as it was.
    ///
    /// ```
    /// # use offset_allocator_heaps::*;
    /// # let alloc = Global;
    /// let limits = Limits { size: 1000, first_size: 1000, max_allocs: 100, first_allocs: 8, most: 2, most_larger: 1 };
    /// let mut heaps = Heaps::<u32>::new(alloc, limits)?;
    /// let mesh = heaps.allocate(300).unwrap().place;
    /// assert_eq!(heaps.grow_in_place(mesh, 400), Some(true));
    /// assert_eq!(heaps.grow_in_place(mesh, 1001), Some(false));
    /// # Ok::<(), AllocError>(())
    /// ```
    pub fn grow_in_place(&mut self, place: Place, size: u32) -> Option<bool> {
        let (number, ticket) = self.ticket_of(place)?;
        if !self.slots.has(number, &mut self.accesses) {
            return None;
        }
        let result = self
            .slots
            .heap_mut(number, &mut self.accesses)
            .grow_in_place(ticket, size);
        self.index
            .note(&self.slots, number, self.limits, &mut self.accesses);
        result
    }
}
