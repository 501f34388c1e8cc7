// Printed by rust/erase from crates/offset_guarded/src/allocate.rt: change it there.

//! Grants, each with the next serial, and why one is refused. Nothing else gives a serial.

use crate::GuardedOf;
use crate::refusal::Refusal;
use crate::serials::Serials;
use crate::step::{common_divisor, joined};
use crate::ticket::Ticket;
use offset_allocator::{Accesses, Allocation, AllocatorOf, Tables};

// Gives the next serial to a grant.
#[inline(always)]
fn ticket_for<T: Tables>(
    space: &AllocatorOf<T>,
    serials: &mut Serials,
    realm: &u32,
    handle: Allocation<T::Index>,
) -> Ticket {
    serials.cover(space.node_count());
    let (offset, name) = handle.to_parts();
    Ticket::of(offset, name, serials.give(name), *realm)
}

/// As `would_begin` of [`Guarded`](crate::Guarded). The count grows by at most 4.
///
/// # Panics
///
/// It panics unless the alignment is at least 1.
#[track_caller]
pub fn would_begin_counted<T: Tables>(
    guarded: &GuardedOf<T>,
    size: u32,
    align: u32,
    count: &mut Accesses,
) -> Option<u32> {
    assert!(1 <= align, "the alignment must be at least 1");
    if guarded.serials.is_spent() {
        return None;
    }
    offset_allocator::laws::would_begin_counted(&guarded.space, size, align, count)
}

mod calls {
    use super::*;

    impl<T: Tables> GuardedOf<T> {
        /// Grants a range of `size` units, and returns its ticket: of the range that `Allocator::allocate`
        /// grants, with the next serial.
        ///
        /// `None` is returned where that call returns `None`, or where all serials are given; then all is as it
        /// was. It makes at most 64 accesses to the tables of the allocator.
        ///
        /// ```
        /// # use offset_allocator_guarded::*;
        /// # let alloc = Global;
        /// let mut guarded = Guarded::<u32>::new(alloc, 1000)?;
        /// let mesh = guarded.allocate(300).unwrap();
        /// assert_eq!(guarded.offset_of(mesh), Some(0));
        /// assert!(guarded.allocate(701).is_none());
        /// # Ok::<(), AllocError>(())
        /// ```
        #[inline(always)]
        pub fn allocate(&mut self, size: u32) -> Option<Ticket> {
            if self.serials.is_spent() {
                return None;
            }
            match self.space.allocate(size) {
                None => None,
                Some(handle) => Some(ticket_for(&self.space, &mut self.serials, &self.realm, handle)),
            }
        }

        /// Grants `size` units that begin at a multiple of `align`, from 1 on: the range that
        /// `Allocator::allocate_aligned` grants, with the next serial.
        ///
        /// `None` is returned where that call returns `None`, or where all serials are given; then all is as it
        /// was. It makes at most 128 accesses to the tables of the allocator.
        ///
        /// # Panics
        ///
        /// It panics unless the alignment is at least 1.
        ///
        /// ```
        /// # use offset_allocator_guarded::*;
        /// # let alloc = Global;
        /// let mut guarded = Guarded::<u32>::new(alloc, 1000)?;
        /// guarded.allocate(10);
        /// let uniforms = guarded.allocate_aligned(300, 256).unwrap();
        /// assert_eq!(guarded.offset_of(uniforms), Some(256));
        /// # Ok::<(), AllocError>(())
        /// ```
        #[track_caller]
        pub fn allocate_aligned(&mut self, size: u32, align: u32) -> Option<Ticket> {
            assert!(1 <= align, "the alignment must be at least 1");
            if self.serials.is_spent() {
                return None;
            }
            match self.space.allocate_aligned(size, align) {
                None => None,
                Some(handle) => {
                    self.step = joined(self.step, align);
                    Some(ticket_for(&self.space, &mut self.serials, &self.realm, handle))
                }
            }
        }
    }
}

// of lib.rt
mod more_calls {
    use crate::*;

    impl<T: Tables> GuardedOf<T> {
        /// Frees the range of a ticket, as `Allocator::free` does, and returns `true`; or `false` where the
        /// ticket is not live, and then nothing changes.
        ///
        /// It reads at most one serial, and makes at most 136 accesses to the tables of the allocator: 8 to see
        /// whether the name is live, which the allocator does not count, and 128 to free it, which it counts.
        ///
        /// ```
        /// # use offset_allocator_guarded::*;
        /// # let alloc = Global;
        /// let mut guarded = Guarded::<u32>::new(alloc, 1000)?;
        /// let mesh = guarded.allocate(300).unwrap();
        /// assert!(guarded.free(mesh));
        /// assert!(!guarded.free(mesh));
        /// # Ok::<(), AllocError>(())
        /// ```
        #[inline(always)]
        pub fn free(&mut self, ticket: Ticket) -> bool {
            match self.handle_fitting(ticket) {
                None => false,
                Some(handle) => self.space.free_if_live(handle),
            }
        }
    }
}

impl<T: Tables> GuardedOf<T> {
    /// Grants `size` units of any free block that has them: the range that `Allocator::allocate_tight`
    /// grants, with the next serial.
    ///
    /// `None` is returned where that call returns `None`, or where all serials are given; then all is as it
    /// was. It makes at most 140 accesses to the tables of the allocator, and 6 for each free block of the class.
    ///
    /// ```
    /// # use offset_allocator_guarded::*;
    /// # let alloc = Global;
    /// let mut guarded = Guarded::<u32>::new(alloc, 1000)?;
    /// guarded.allocate(300);
    /// assert!(guarded.allocate(700).is_none());
    /// assert!(guarded.allocate_tight(700).is_some());
    /// # Ok::<(), AllocError>(())
    /// ```
    pub fn allocate_tight(&mut self, size: u32) -> Option<Ticket> {
        if self.serials.is_spent() {
            return None;
        }
        match self.space.allocate_tight(size) {
            None => None,
            Some(handle) => Some(ticket_for(&self.space, &mut self.serials, &self.realm, handle)),
        }
    }

    /// Grants `size` units that begin at a multiple of `align`, from 1 on, of any free block that holds
    /// them: the range that `Allocator::allocate_tight_aligned` grants, with the next serial.
    ///
    /// `None` is returned where that call returns `None`, or where all serials are given; then all is as it
    /// was. It makes at most 140 accesses to the tables of the allocator, and 6 for each free block of the class or
    /// above.
    ///
    /// # Panics
    ///
    /// It panics unless the alignment is at least 1.
    ///
    /// ```
    /// # use offset_allocator_guarded::*;
    /// # let alloc = Global;
    /// let mut guarded = Guarded::<u32>::new(alloc, 1000)?;
    /// guarded.allocate(256);
    /// assert!(guarded.allocate_aligned(700, 256).is_none());
    /// assert_eq!(guarded.allocate_tight_aligned(700, 256).unwrap().offset, 256);
    /// # Ok::<(), AllocError>(())
    /// ```
    #[track_caller]
    pub fn allocate_tight_aligned(&mut self, size: u32, align: u32) -> Option<Ticket> {
        assert!(1 <= align, "the alignment must be at least 1");
        if self.serials.is_spent() {
            return None;
        }
        match self.space.allocate_tight_aligned(size, align) {
            None => None,
            Some(handle) => {
                self.step = joined(self.step, align);
                Some(ticket_for(&self.space, &mut self.serials, &self.realm, handle))
            }
        }
    }

    /// Grants the `size` units that begin at `offset`: the range that `Allocator::allocate_at` grants, with the
    /// next serial.
    ///
    /// `None` is returned where that call returns `None`, or where all serials are given; then all is as it
    /// was. It makes at most 80 accesses to the tables of the allocator, and 3 for each block.
    ///
    /// ```
    /// # use offset_allocator_guarded::*;
    /// # let alloc = Global;
    /// let mut guarded = Guarded::<u32>::new(alloc, 1000)?;
    /// let captured = guarded.allocate_at(512, 256).unwrap();
    /// assert_eq!(captured.offset, 512);
    /// assert!(guarded.allocate_at(700, 100).is_none());
    /// # Ok::<(), AllocError>(())
    /// ```
    pub fn allocate_at(&mut self, offset: u32, size: u32) -> Option<Ticket> {
        if self.serials.is_spent() {
            return None;
        }
        match self.space.allocate_at(offset, size) {
            None => None,
            Some(handle) => Some(ticket_for(&self.space, &mut self.serials, &self.realm, handle)),
        }
    }

    /// Grants a second range of as many units as that of a ticket, which begins before it, and **has every alignment
    /// that was asked for**: the one that [`relocate_aligned`](Self::relocate_aligned) grants for what the step and the offset of the range
    /// have in common, their greatest common divisor. The old ticket stays live until it is freed.
    ///
    /// `None` is returned where that call returns `None`, or where the space has no step; then all is as it was.
    ///
    /// It makes at most 75 accesses to the tables of the allocator: 8 to see whether the name is live, and where,
    /// which the allocator does not count, and 67 that it counts.
    ///
    /// ```
    /// # use offset_allocator_guarded::*;
    /// # let alloc = Global;
    /// let mut guarded = Guarded::<u32>::new(alloc, 1000)?;
    /// let hole = guarded.allocate(320).unwrap();
    /// let mesh = guarded.allocate_aligned(200, 256).unwrap();
    /// guarded.free(hole);
    /// let moved = guarded.relocate(mesh).unwrap();
    /// assert_eq!((mesh.offset, moved.offset), (512, 0));
    /// guarded.free(mesh);
    /// # Ok::<(), AllocError>(())
    /// ```
    pub fn relocate(&mut self, ticket: Ticket) -> Option<Ticket> {
        let step = self.step_number();
        if step == 0 {
            return None;
        }
        // one look at the tables says whether the ticket is live, and where its range begins
        let handle = self.handle_fitting(ticket)?;
        let offset = self.space.allocation_offset(handle)?;
        self.second(handle, common_divisor(offset, step))
    }

    /// Grants a second range of as many units as that of a ticket, which begins before it, and **keeps no
    /// alignment**: the one that `Allocator::relocate` grants, with the next serial. [`relocate`](Self::relocate) keeps those that were
    /// asked for. The old ticket stays live until it is freed.
    ///
    /// `None` is returned where that call returns `None`, where the ticket is not live, or where all serials
    /// are given; then all is as it was.
    ///
    /// It makes at most 75 accesses to the tables of the allocator: 8 to see whether the name is live, which
    /// the allocator does not count, and 67 that it counts.
    ///
    /// ```
    /// # use offset_allocator_guarded::*;
    /// # let alloc = Global;
    /// let mut guarded = Guarded::<u32>::new(alloc, 1000)?;
    /// let hole = guarded.allocate(320).unwrap();
    /// let mesh = guarded.allocate(320).unwrap();
    /// guarded.free(hole);
    /// let moved = guarded.relocate_unaligned(mesh).unwrap();
    /// assert_eq!((mesh.offset, moved.offset), (320, 0));
    /// guarded.free(mesh);
    /// # Ok::<(), AllocError>(())
    /// ```
    pub fn relocate_unaligned(&mut self, ticket: Ticket) -> Option<Ticket> {
        let handle = self.handle(ticket)?;
        if self.serials.is_spent() {
            return None;
        }
        match self.space.relocate(handle) {
            None => None,
            Some(second) => Some(ticket_for(&self.space, &mut self.serials, &self.realm, second)),
        }
    }

    /// As [`relocate`](Self::relocate), and the second range begins at a multiple of `align`, from 1 on: the one that
    /// `Allocator::relocate_aligned` grants, with the next serial. The old ticket stays live until it is
    /// freed.
    ///
    /// `None` is returned where that call returns `None`, where the ticket is not live, or where all serials
    /// are given; then all is as it was.
    ///
    /// It makes at most 75 accesses to the tables of the allocator: 8 to see whether the name is live, which
    /// the allocator does not count, and 67 that it counts.
    ///
    /// # Panics
    ///
    /// It panics unless the alignment is at least 1.
    ///
    /// ```
    /// # use offset_allocator_guarded::*;
    /// # let alloc = Global;
    /// let mut guarded = Guarded::<u32>::new(alloc, 1000)?;
    /// guarded.allocate(10);
    /// let hole = guarded.allocate(320).unwrap();
    /// let mesh = guarded.allocate(64).unwrap();
    /// guarded.free(hole);
    /// let moved = guarded.relocate_aligned(mesh, 256).unwrap();
    /// assert_eq!((mesh.offset, moved.offset), (330, 256));
    /// guarded.free(mesh);
    /// # Ok::<(), AllocError>(())
    /// ```
    #[track_caller]
    pub fn relocate_aligned(&mut self, ticket: Ticket, align: u32) -> Option<Ticket> {
        assert!(1 <= align, "the alignment must be at least 1");
        let handle = self.handle(ticket)?;
        self.second(handle, align)
    }

    // Grants the second range of a live handle at a multiple of `align`, with the next serial.
    fn second(&mut self, handle: Allocation<T::Index>, align: u32) -> Option<Ticket> {
        if self.serials.is_spent() {
            return None;
        }
        match self.space.relocate_aligned(handle, align) {
            None => None,
            Some(second) => {
                self.step = joined(self.step, align);
                Some(ticket_for(&self.space, &mut self.serials, &self.realm, second))
            }
        }
    }

    /// Where the range would begin that `allocate_aligned(size, align)` would grant now, as
    /// `Allocator::would_begin` says, or `None` exactly where it would be refused. Nothing is taken. It makes
    /// at most 4 accesses to the tables of the allocator.
    ///
    /// # Panics
    ///
    /// It panics unless the alignment is at least 1.
    ///
    /// ```
    /// # use offset_allocator_guarded::*;
    /// # let alloc = Global;
    /// let mut guarded = Guarded::<u32>::new(alloc, 1000)?;
    /// guarded.allocate(300);
    /// assert_eq!(guarded.would_begin(100, 256), Some(512));
    /// assert_eq!(guarded.allocate_aligned(100, 256).unwrap().offset, 512);
    /// # Ok::<(), AllocError>(())
    /// ```
    #[track_caller]
    pub fn would_begin(&self, size: u32, align: u32) -> Option<u32> {
        assert!(1 <= align, "the alignment must be at least 1");
        would_begin_counted(self, size, align, &mut Accesses::new())
    }

    /// Why `allocate(size)` would be refused now, or `None` exactly where it would be granted.
    ///
    /// ```
    /// # use offset_allocator_guarded::*;
    /// # let alloc = Global;
    /// let mut guarded = Guarded::<u32>::new(alloc, 1000)?;
    /// assert_eq!(guarded.refusal(300), None);
    /// assert_eq!(guarded.refusal(1001).unwrap().to_string(), "the request is too large for the space");
    /// # Ok::<(), AllocError>(())
    /// ```
    pub fn refusal(&self, size: u32) -> Option<Refusal> {
        if self.serials.is_spent() {
            return Some(Refusal::Serials);
        }
        match self.space.refusal(size) {
            None => None,
            Some(why) => Some(Refusal::from(why)),
        }
    }

    /// Why `allocate_aligned(size, align)` would be refused now, or `None` exactly where it would be granted.
    ///
    /// # Panics
    ///
    /// It panics unless the alignment is at least 1.
    ///
    /// ```
    /// # use offset_allocator_guarded::*;
    /// # let alloc = Global;
    /// let mut guarded = Guarded::<u32>::new(alloc, 1000)?;
    /// assert_eq!(guarded.refusal_aligned(900, 4), None);
    /// assert!(guarded.refusal_aligned(900, 256).is_some());
    /// # Ok::<(), AllocError>(())
    /// ```
    #[track_caller]
    pub fn refusal_aligned(&self, size: u32, align: u32) -> Option<Refusal> {
        assert!(1 <= align, "the alignment must be at least 1");
        if self.serials.is_spent() {
            return Some(Refusal::Serials);
        }
        match self.space.refusal_aligned(size, align) {
            None => None,
            Some(why) => Some(Refusal::from(why)),
        }
    }

    /// Why `allocate_tight(size)` would be refused now, or `None` exactly where it would be granted.
    ///
    /// ```
    /// # use offset_allocator_guarded::*;
    /// # let alloc = Global;
    /// let mut guarded = Guarded::<u32>::new(alloc, 1000)?;
    /// guarded.allocate(300);
    /// assert_eq!(guarded.refusal_tight(700), None);
    /// assert!(guarded.refusal_tight(701).is_some());
    /// # Ok::<(), AllocError>(())
    /// ```
    pub fn refusal_tight(&self, size: u32) -> Option<Refusal> {
        if self.serials.is_spent() {
            return Some(Refusal::Serials);
        }
        match self.space.refusal_tight(size) {
            None => None,
            Some(why) => Some(Refusal::from(why)),
        }
    }

    /// Why `allocate_tight_aligned(size, align)` would be refused now, or `None` exactly where it would be
    /// granted.
    ///
    /// # Panics
    ///
    /// It panics unless the alignment is at least 1.
    ///
    /// ```
    /// # use offset_allocator_guarded::*;
    /// # let alloc = Global;
    /// let mut guarded = Guarded::<u32>::new(alloc, 1000)?;
    /// guarded.allocate(300);
    /// assert_eq!(guarded.refusal_tight_aligned(400, 256), None);
    /// assert!(guarded.refusal_tight_aligned(700, 256).is_some());
    /// # Ok::<(), AllocError>(())
    /// ```
    #[track_caller]
    pub fn refusal_tight_aligned(&self, size: u32, align: u32) -> Option<Refusal> {
        assert!(1 <= align, "the alignment must be at least 1");
        if self.serials.is_spent() {
            return Some(Refusal::Serials);
        }
        match self.space.refusal_tight_aligned(size, align) {
            None => None,
            Some(why) => Some(Refusal::from(why)),
        }
    }
}
