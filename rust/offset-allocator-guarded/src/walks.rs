// Printed by rust/erase from crates/offset_guarded/src/walks.rt: change it there.

//! Walks from one live range to the next in space, and what is live at an offset. It changes nothing.

use crate::GuardedOf;
use crate::ticket::Ticket;
use offset_allocator::{Accesses, Allocation, Tables};

/// As `in_the_way` of [`Guarded`](crate::Guarded), and as `live_at` with one unit. The count grows by at most 5 for each block,
/// and 5.
pub fn in_the_way_counted<T: Tables>(
    guarded: &GuardedOf<T>,
    offset: u32,
    size: u32,
    count: &mut Accesses,
) -> Option<Ticket> {
    match offset_allocator::laws::in_the_way_counted(&guarded.space, offset, size, count) {
        None => None,
        Some(handle) => Some(guarded.ticket_at(handle)),
    }
}

impl<T: Tables> GuardedOf<T> {
    // The present ticket of a handle.
    fn ticket_at(&self, handle: Allocation<T::Index>) -> Ticket {
        let (offset, name) = handle.to_parts();
        Ticket::of(offset, name, self.serials.at(name), self.realm)
    }

    /// The ticket of the live range that is the first one in space, as `Allocator::first_live` finds it, or
    /// `None` where none is live. Its offset is where the range begins now, as in what [`ticket`](Self::ticket) returns.
    ///
    /// ```
    /// # use offset_allocator_guarded::*;
    /// # let alloc = Global;
    /// let mut guarded = Guarded::<u32>::new(alloc, 1000)?;
    /// let mesh = guarded.allocate(300);
    /// guarded.allocate(100);
    /// assert_eq!(guarded.first_live(), mesh);
    /// # Ok::<(), AllocError>(())
    /// ```
    pub fn first_live(&self) -> Option<Ticket> {
        match self.space.first_live() {
            None => None,
            Some(handle) => Some(self.ticket_at(handle)),
        }
    }

    /// The ticket of the live range that is the last one in space, as `Allocator::last_live` finds it, or
    /// `None` where none is live. Its offset is where the range begins now, as in what [`ticket`](Self::ticket) returns.
    ///
    /// ```
    /// # use offset_allocator_guarded::*;
    /// # let alloc = Global;
    /// let mut guarded = Guarded::<u32>::new(alloc, 1000)?;
    /// guarded.allocate(300);
    /// let texture = guarded.allocate(100);
    /// assert_eq!(guarded.last_live(), texture);
    /// # Ok::<(), AllocError>(())
    /// ```
    pub fn last_live(&self) -> Option<Ticket> {
        match self.space.last_live() {
            None => None,
            Some(handle) => Some(self.ticket_at(handle)),
        }
    }

    /// The ticket of the live range that has the unit at `offset`, as `Allocator::live_at` finds it, or `None`
    /// where that unit is free or not in the space. So a range can be freed by a place in it.
    ///
    /// ```
    /// # use offset_allocator_guarded::*;
    /// # let alloc = Global;
    /// let mut guarded = Guarded::<u32>::new(alloc, 1000)?;
    /// let mesh = guarded.allocate(300);
    /// assert_eq!(guarded.live_at(299), mesh);
    /// assert_eq!(guarded.live_at(300), None);
    /// # Ok::<(), AllocError>(())
    /// ```
    pub fn live_at(&self, offset: u32) -> Option<Ticket> {
        in_the_way_counted(self, offset, 1, &mut Accesses::new())
    }

    /// The ticket of the last live range that is in the way of the `size` units that begin at `offset`, as
    /// `Allocator::in_the_way` finds it, or `None` where there is none.
    ///
    /// ```
    /// # use offset_allocator_guarded::*;
    /// # let alloc = Global;
    /// let mut guarded = Guarded::<u32>::new(alloc, 1000)?;
    /// let mesh = guarded.allocate(300);
    /// assert_eq!(guarded.in_the_way(200, 500), mesh);
    /// # Ok::<(), AllocError>(())
    /// ```
    pub fn in_the_way(&self, offset: u32, size: u32) -> Option<Ticket> {
        in_the_way_counted(self, offset, size, &mut Accesses::new())
    }

    /// The ticket of the live range directly before that of a ticket. `None` where there is none, or where
    /// the ticket is not live.
    ///
    /// ```
    /// # use offset_allocator_guarded::*;
    /// # let alloc = Global;
    /// let mut guarded = Guarded::<u32>::new(alloc, 1000)?;
    /// let mesh = guarded.allocate(300);
    /// let texture = guarded.allocate(100).unwrap();
    /// assert_eq!(guarded.live_before(texture), mesh);
    /// # Ok::<(), AllocError>(())
    /// ```
    pub fn live_before(&self, ticket: Ticket) -> Option<Ticket> {
        match self.handle(ticket) {
            None => None,
            Some(handle) => match self.space.live_before(handle) {
                None => None,
                Some(before) => Some(self.ticket_at(before)),
            },
        }
    }

    /// The ticket of the live range directly after that of a ticket. `None` where there is none, or where
    /// the ticket is not live.
    ///
    /// ```
    /// # use offset_allocator_guarded::*;
    /// # let alloc = Global;
    /// let mut guarded = Guarded::<u32>::new(alloc, 1000)?;
    /// let mesh = guarded.allocate(300).unwrap();
    /// let texture = guarded.allocate(100);
    /// assert_eq!(guarded.live_after(mesh), texture);
    /// # Ok::<(), AllocError>(())
    /// ```
    pub fn live_after(&self, ticket: Ticket) -> Option<Ticket> {
        match self.handle(ticket) {
            None => None,
            Some(handle) => match self.space.live_after(handle) {
                None => None,
                Some(after) => Some(self.ticket_at(after)),
            },
        }
    }
}
