// Printed by rust/erase from crates/offset_guarded/src/resize.rt: change it there.

//! Ranges, and the space, that become smaller or larger in place. It changes the allocator, and no serial.

use crate::GuardedOf;
use crate::ticket::Ticket;
use offset_allocator::Tables;

impl<T: Tables> GuardedOf<T> {
    /// Makes the range of a ticket smaller in place, as `Allocator::shrink` does, and returns whether it did;
    /// or `None` where the ticket is not live, and then nothing changes.
    ///
    /// It makes at most 136 accesses to the tables of the allocator: 8 to see whether the name is live, which
    /// the allocator does not count, and 128 that it counts.
    ///
    /// ```
    /// # use offset_allocator_guarded::*;
    /// # let alloc = Global;
    /// let mut guarded = Guarded::<u32>::new(alloc, 1000)?;
    /// let mesh = guarded.allocate(300).unwrap();
    /// assert_eq!(guarded.shrink(mesh, 200), Some(true));
    /// guarded.free(mesh);
    /// assert_eq!(guarded.shrink(mesh, 100), None);
    /// # Ok::<(), AllocError>(())
    /// ```
    pub fn shrink(&mut self, ticket: Ticket, size: u32) -> Option<bool> {
        match self.handle(ticket) {
            None => None,
            Some(handle) => {
                let done = self.space.shrink(handle, size);
                self.serials.cover(self.space.node_count());
                Some(done)
            }
        }
    }

    /// Makes the range of a ticket larger in place, as `Allocator::grow_in_place` does, and returns whether
    /// it did; or `None` where the ticket is not live, and then nothing changes.
    ///
    /// It makes at most 136 accesses to the tables of the allocator: 8 to see whether the name is live, which
    /// the allocator does not count, and 128 that it counts.
    ///
    /// ```
    /// # use offset_allocator_guarded::*;
    /// # let alloc = Global;
    /// let mut guarded = Guarded::<u32>::new(alloc, 1000)?;
    /// let mesh = guarded.allocate(300).unwrap();
    /// assert_eq!(guarded.grow_in_place(mesh, 400), Some(true));
    /// assert_eq!(guarded.grow_in_place(mesh, 1001), Some(false));
    /// # Ok::<(), AllocError>(())
    /// ```
    pub fn grow_in_place(&mut self, ticket: Ticket, size: u32) -> Option<bool> {
        match self.handle(ticket) {
            None => None,
            Some(handle) => {
                let done = self.space.grow_in_place(handle, size);
                self.serials.cover(self.space.node_count());
                Some(done)
            }
        }
    }

    /// Adds `more` units at the end of the space, as `Allocator::extend` does, and returns whether it did. It makes at
    /// most 128 accesses to the tables of the allocator.
    ///
    /// ```
    /// # use offset_allocator_guarded::*;
    /// # let alloc = Global;
    /// let mut guarded = Guarded::<u32>::new(alloc, 1000)?;
    /// assert!(guarded.extend(24));
    /// assert_eq!(guarded.allocator().size(), 1024);
    /// # Ok::<(), AllocError>(())
    /// ```
    pub fn extend(&mut self, more: u32) -> bool {
        let done = self.space.extend(more);
        self.serials.cover(self.space.node_count());
        done
    }

    /// Takes `less` free units off the end of the space, as `Allocator::retract` does, and returns whether it
    /// did. It makes at most 64 accesses to the tables of the allocator.
    ///
    /// ```
    /// # use offset_allocator_guarded::*;
    /// # let alloc = Global;
    /// let mut guarded = Guarded::<u32>::new(alloc, 1000)?;
    /// guarded.allocate(300);
    /// assert!(guarded.retract(700));
    /// assert_eq!(guarded.allocator().size(), 300);
    /// # Ok::<(), AllocError>(())
    /// ```
    pub fn retract(&mut self, less: u32) -> bool {
        self.space.retract(less)
    }
}
