// Printed by rust/erase from crates/offset_guarded/src/lib.rt: change it there.

#![doc = include_str!("../README.md")]
#![no_std]
#![forbid(unsafe_code)]
#![allow(rustdoc::redundant_explicit_links)] // printed links say in full where they lead
#![warn(missing_docs)]
#![expect(clippy::let_and_return)] // a step of a proof stands before the return, and is left out here
#![expect(clippy::question_mark)] // the same
#![expect(clippy::manual_find)] // a loop over places needs no closure, whose calls would need a proof
#![expect(clippy::manual_map)] // a `match` needs no closure, whose calls would need a proof

mod realms;
mod traits;

pub use offset_allocator_memory as memory;
pub use offset_allocator_memory::{AllocError, Global};
pub use realms::next_realm;
pub use offset_allocator::{Refusal as SpaceRefusal, StateFaultKind as SpaceFaultKind, ext, small_float};

mod constructors {
    use super::*;

    impl<T: Tables> GuardedOf<T> {
        /// A space of `size` units, all free, with `max_allocs` as the node limit, and a realm. The limit is 2 to
        /// `T::Index::MAX - 2`. It reserves what an `AllocatorOf<T>` does and 8 bytes a node, all of them here;
        /// those of a node are written by the first call after it was made that may make nodes.
        ///
        /// The realm is kept in its tickets: a ticket of another realm is never live here. So give each space
        /// another one; where tickets have to be known from outside, as by a file, it is chosen here.
        ///
        /// # Errors
        ///
        /// An error is returned only where an allocation failed; then nothing is made.
        ///
        /// # Panics
        ///
        /// It panics unless `max_allocs` is at least 2, and `max_allocs` is at most `NI::MAX - 2`.
        ///
        /// ```
        /// # use offset_allocator_guarded::*;
        /// # let alloc = Global;
        /// let mut guarded = Guarded::<u16>::with_realm(alloc, 1000, 3, 7)?;
        /// assert_eq!(guarded.allocate(10).unwrap().realm(), 7);
        /// assert!(guarded.allocate(10).is_none());
        /// # Ok::<(), AllocError>(())
        /// ```
        #[track_caller]
        pub fn with_realm(
            alloc: Global,
            size: u32,
            max_allocs: u32,
            realm: u32,
        ) -> Result<Self, AllocError> {
            assert!(2 <= max_allocs, "max_allocs must be at least 2");
            assert!(max_allocs < T::Index::MAX - 1, "max_allocs must be at most NI::MAX - 2");
            // before the space, which requests all its memory at once: so both are known to fit together
            let serials = Serials::with_room(alloc, max_allocs)?;
            let space = AllocatorOf::with_max_allocs(alloc, size, max_allocs)?;
            Ok(GuardedOf {
                space,
                serials,
                realm,
                step: 1,
            })
        }
    }
}

mod allocate;

mod more_calls {
    use super::*;

    impl<T: Tables> GuardedOf<T> {
        /// A copy, with memory of its own, as `Allocator::try_clone` makes it, with the same realm, serials
        /// and step: each ticket that is live here is live there. Serials go on from the same number in both, so a later
        /// grant of one may have a ticket that is live in the other, for another range: use one copy in place of
        /// the other, as a snapshot, and not beside it.
        ///
        /// # Errors
        ///
        /// An error is returned only where an allocation failed; then nothing is made.
        ///
        /// ```
        /// # use offset_allocator_guarded::*;
        /// # let alloc = Global;
        /// let mut guarded = Guarded::<u32>::new(alloc, 1000)?;
        /// let mesh = guarded.allocate(300).unwrap();
        /// let copy = guarded.try_clone(alloc)?;
        /// guarded.free(mesh);
        /// assert!(copy.is_live(mesh));
        /// # Ok::<(), AllocError>(())
        /// ```
        pub fn try_clone(&self, alloc: Global) -> Result<Self, AllocError> {
            let serials = self.serials.try_clone(alloc, self.space.max_allocs())?;
            let space = self.space.try_clone(alloc)?;
            Ok(GuardedOf {
                space,
                serials,
                realm: self.realm,
                step: self.step,
            })
        }

        /// The same under another node limit, at least as large, as `Allocator::raised` makes it: a copy with the
        /// same realm, serials and step, and with `max_allocs` in place of the limit. Put it in place of this one, and
        /// all tickets go on.
        ///
        /// The limit is at most `T::Index::MAX - 2`. It reserves what [`with_realm`](Self::with_realm) does for that limit,
        /// beside the memory of this one until that is dropped, and takes time for the nodes that were made.
        ///
        /// # Errors
        ///
        /// An error is returned only where an allocation failed; then nothing is made, and this one is as it was.
        ///
        /// # Panics
        ///
        /// It panics unless `max_allocs` is at least the limit that there is, and `max_allocs` is at most
        /// `NI::MAX - 2`.
        ///
        /// ```
        /// # use offset_allocator_guarded::*;
        /// # let alloc = Global;
        /// let mut guarded = Guarded::<u32>::with_realm(alloc, 1000, 3, 1)?;
        /// let mesh = guarded.allocate(300).unwrap();
        /// assert!(guarded.allocate(10).is_none());
        /// guarded = guarded.raised(alloc, 100)?;
        /// assert!(guarded.is_live(mesh) && guarded.allocate(10).is_some());
        /// # Ok::<(), AllocError>(())
        /// ```
        #[track_caller]
        pub fn raised(&self, alloc: Global, max_allocs: u32) -> Result<Self, AllocError> {
            assert!(self.space.max_allocs() <= max_allocs, "max_allocs must be at least the limit that there is");
            assert!(max_allocs < T::Index::MAX - 1, "max_allocs must be at most NI::MAX - 2");
            let serials = self.serials.try_clone(alloc, max_allocs)?;
            let space = self.space.raised(alloc, max_allocs)?;
            let step = self.step;
            Ok(GuardedOf {
                space,
                serials,
                realm: self.realm,
                step,
            })
        }

        /// The allocator, to read: its reports and statistics, whether nothing is live, its blocks, its sizes,
        /// and why it refuses a request.
        ///
        /// ```
        /// # use offset_allocator_guarded::*;
        /// # let alloc = Global;
        /// let mut guarded = Guarded::<u32>::new(alloc, 1000)?;
        /// guarded.allocate(300);
        /// assert_eq!(guarded.allocator().live_units(), 300);
        /// # Ok::<(), AllocError>(())
        /// ```
        pub fn allocator(&self) -> &AllocatorOf<T> {
            &self.space
        }

        /// The realm of its tickets.
        ///
        /// ```
        /// # use offset_allocator_guarded::*;
        /// # let alloc = Global;
        /// let guarded = Guarded::<u32>::with_realm(alloc, 1000, 16, 7)?;
        /// assert_eq!(guarded.realm(), 7);
        /// # Ok::<(), AllocError>(())
        /// ```
        pub fn realm(&self) -> u32 {
            self.realm
        }

        /// Whether all serials are given, after 18446744073709551615 grants. Then every request is refused.
        ///
        /// ```
        /// # use offset_allocator_guarded::*;
        /// # let alloc = Global;
        /// let mut guarded = Guarded::<u32>::new(alloc, 1000)?;
        /// assert!(!guarded.is_spent());
        /// # Ok::<(), AllocError>(())
        /// ```
        pub fn is_spent(&self) -> bool {
            self.serials.is_spent()
        }

        /// Whether a ticket is live here: it has the realm, and the grant that gave it was neither freed nor
        /// reset since.
        ///
        /// ```
        /// # use offset_allocator_guarded::*;
        /// # let alloc = Global;
        /// let mut guarded = Guarded::<u32>::new(alloc, 1000)?;
        /// let mesh = guarded.allocate(300).unwrap();
        /// guarded.free(mesh);
        /// guarded.allocate(300);
        /// assert!(!guarded.is_live(mesh));
        /// # Ok::<(), AllocError>(())
        /// ```
        pub fn is_live(&self, ticket: Ticket) -> bool {
            self.handle(ticket).is_some()
        }

        /// The units of the range of a ticket, or `None` where it is not live.
        ///
        /// ```
        /// # use offset_allocator_guarded::*;
        /// # let alloc = Global;
        /// let mut guarded = Guarded::<u32>::new(alloc, 1000)?;
        /// let mesh = guarded.allocate(300).unwrap();
        /// assert_eq!(guarded.size_of(mesh), Some(300));
        /// # Ok::<(), AllocError>(())
        /// ```
        pub fn size_of(&self, ticket: Ticket) -> Option<u32> {
            match self.handle(ticket) {
                None => None,
                Some(handle) => Some(self.space.allocation_size(handle)),
            }
        }

        /// Where the range of a ticket begins, in units from the start of the space, or `None` where it is not
        /// live.
        ///
        /// The `offset` of the ticket is where the range began when the ticket was made. A move does not change
        /// it.
        ///
        /// ```
        /// # use offset_allocator_guarded::*;
        /// # let alloc = Global;
        /// let mut guarded = Guarded::<u32>::new(alloc, 1000)?;
        /// let mesh = guarded.allocate(300).unwrap();
        /// assert_eq!(guarded.offset_of(mesh), Some(0));
        /// guarded.reset();
        /// assert_eq!(guarded.offset_of(mesh), None);
        /// # Ok::<(), AllocError>(())
        /// ```
        pub fn offset_of(&self, ticket: Ticket) -> Option<u32> {
            match self.handle(ticket) {
                None => None,
                Some(handle) => self.space.allocation_offset(handle),
            }
        }

        /// The ticket of a live handle of the allocator, as its `blocks` and moves have them, or `None` where
        /// the handle is not live. Its offset is where the range begins now: the ticket that the grant returned
        /// has another one where the range has moved, and is live as well, but not equal to this one.
        ///
        /// ```
        /// # use offset_allocator_guarded::*;
        /// # let alloc = Global;
        /// let mut guarded = Guarded::<u32>::new(alloc, 1000)?;
        /// let mesh = guarded.allocate(300).unwrap();
        /// let block = guarded.allocator().blocks().last().unwrap();
        /// assert_eq!(guarded.ticket(block.allocation.unwrap()), Some(mesh));
        /// # Ok::<(), AllocError>(())
        /// ```
        pub fn ticket(&self, handle: Allocation<T::Index>) -> Option<Ticket> {
            let (_, name) = handle.to_parts();
            match self.space.allocation_offset(handle) {
                None => None,
                Some(offset) => Some(Ticket::of(offset, name, self.serials.at(name), self.realm)),
            }
        }

        /// Makes the whole space one free block again, as `Allocator::reset` does. No earlier ticket is ever live
        /// again. The step is 1.
        ///
        /// It makes at most 2 accesses to the tables of the allocator, and 130 for each live range, or 270 where that is less.
        ///
        /// ```
        /// # use offset_allocator_guarded::*;
        /// # let alloc = Global;
        /// let mut guarded = Guarded::<u32>::new(alloc, 1000)?;
        /// let mesh = guarded.allocate(300).unwrap();
        /// guarded.reset();
        /// assert!(!guarded.is_live(mesh));
        /// # Ok::<(), AllocError>(())
        /// ```
        pub fn reset(&mut self) {
            self.space.reset();
            self.step = 1;
        }
    }
}

mod resize;
mod moves;
mod walks;
mod step;
mod save;
mod restore;
#[doc(hidden)]
pub mod laws;
#[doc(hidden)]
pub mod numbers;
mod refusal;
mod serials;
mod state;
mod ticket;
mod values;

pub use offset_allocator::{
    Allocation, Allocator, AllocatorOf, Block, Blocks, BlocksOf, ByField, ByNode, CompactCost,
    Move, MovePieces, NodeIndex, NodeIndexNonMax, Piece, Progress, ReadError, RoomCost, Scale,
    Statistics, StorageReport, StorageReportFull, StorageReportFullRegion, Tables, json_of,
    vma_json_of,
};
pub use refusal::Refusal;
use serials::Serials;
pub use state::{StateFault, StateFaultKind};
use core::fmt;
use core::ops::Deref;
pub use ticket::Ticket;
pub use values::{Beside, BesideIter};

/// The allocator of one space, with tickets in place of handles, and one table of nodes.
pub type Guarded<NI = u32> = GuardedOf<ByNode<NI>>;

/// The allocator of one space, with tickets in place of handles.
///
/// It holds an [`AllocatorOf`](crate::AllocatorOf), and a table with the serial that each name was last granted with.
pub struct GuardedOf<T: Tables> {
    space: AllocatorOf<T>,
    serials: Serials,
    realm: u32,
    // what `step` says, or 0 where there is none
    step: u32,
}

/// Each question of the allocator that needs no handle is asked of the space with tickets itself: its reports and
/// statistics, its blocks, its sizes, whether it is empty. Where both have a call of a name, it is that with tickets.
///
/// ```
/// # use offset_allocator_guarded::*;
/// # let alloc = Global;
/// let mut guarded = Guarded::<u32>::new(alloc, 1000)?;
/// guarded.allocate(300);
/// assert_eq!(guarded.live_units(), 300);
/// assert_eq!(guarded.blocks().count(), 2);
/// # Ok::<(), AllocError>(())
/// ```
impl<T: Tables> Deref for GuardedOf<T> {
    type Target = AllocatorOf<T>;

    fn deref(&self) -> &AllocatorOf<T> {
        &self.space
    }
}

impl<T: Tables> GuardedOf<T> {
    // The handle of a ticket that has the realm, and the serial that its name was last granted with.
    #[inline(always)]
    fn handle_fitting(&self, ticket: Ticket) -> Option<Allocation<T::Index>> {
        if ticket.realm() != self.realm || !self.serials.is_last(ticket.name(), ticket.serial()) {
            return None;
        }
        let Some(handle) = Allocation::from_parts(ticket.offset, ticket.name()) else {
            return None;
        };
        Some(handle)
    }

    // The handle of a live ticket.
    #[inline(always)]
    fn handle(&self, ticket: Ticket) -> Option<Allocation<T::Index>> {
        let handle = self.handle_fitting(ticket)?;
        if self.space.is_live(handle) {
            Some(handle)
        } else {
            None
        }
    }
}

/// The text is that of a struct with the realm, the number of serials that are given, and the allocator.
impl<T: Tables> fmt::Debug for GuardedOf<T> {
    fn fmt(&self, f: &mut fmt::Formatter<'_>) -> fmt::Result {
        f.debug_struct("Guarded")
            .field("realm", &self.realm)
            .field("given", &self.serials.count())
            .field("allocator", &self.space)
            .finish()
    }
}
