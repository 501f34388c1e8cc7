// Printed by rust/erase from crates/offset_heaps/src/lib.rt: change it there.

#![doc = include_str!("../README.md")]
#![no_std]
#![forbid(unsafe_code)]
#![allow(rustdoc::redundant_explicit_links)] // printed links say in full where they lead
#![warn(missing_docs)]
#![expect(clippy::implicit_saturating_sub)] // the proof speaks of both cases
#![expect(clippy::len_zero)] // the proof speaks of the length, which no call hides
#![expect(clippy::manual_find)] // a loop over places needs no closure, whose calls would need a proof
#![expect(clippy::manual_map)] // a `match` needs no closure, whose calls would need a proof
#![expect(clippy::redundant_field_names)] // a field and the place that it is of have one name
#![expect(clippy::redundant_pattern_matching)] // a `match` needs no call, whose contract a proof would need
#![expect(clippy::single_match)] // both cases are proved
#![expect(clippy::too_many_arguments)] // each has a name in the contract

mod realms;
mod traits;

pub use offset_allocator_memory as memory;
pub use offset_allocator_memory::{AllocError, Global};
pub use offset_guarded::{Refusal as TicketRefusal, StateFaultKind as TicketFaultKind, ext, small_float};

mod constructors {
    use super::*;

    impl<T: Tables> HeapsOf<T> {
        /// No heap, and memory for the numbers of all that may be made: some 1.2 KB each. A heap is made by the
        /// first request that none has room for.
        ///
        /// The realm is kept in places: a place of another realm is never live here. The heaps have realms too,
        /// which are kept in places too: the numbers above `given`, one after another.
        ///
        /// # Errors
        ///
        /// An error is returned only where an allocation failed; then nothing is made.
        ///
        /// # Panics
        ///
        /// It panics unless first_size is at least 1, or size, and first_size is at most size, and
        /// `max_allocs` is at least 4, and `max_allocs` is at most `NI::MAX - 2`, and first_allocs is at
        /// least 8, or `max_allocs`, and first_allocs is at most `max_allocs`, and there are at most
        /// 4294967295 heaps.
        ///
        /// ```
        /// # use offset_allocator_heaps::*;
        /// # let alloc = Global;
        /// let limits =
        ///     Limits { size: 1 << 24, first_size: 1 << 18, max_allocs: 65536, first_allocs: 64, most: 64, most_larger: 16 };
        /// let heaps = Heaps::<u32>::with_realms(alloc, limits, 1, 0)?;
        /// assert_eq!(heaps.totals().heaps, 0);
        /// # Ok::<(), AllocError>(())
        /// ```
        #[track_caller]
        pub fn with_realms(
            alloc: Global,
            limits: Limits,
            realm: u32,
            given: u32,
        ) -> Result<Self, AllocError> {
            assert!(limits.size.min(1) <= limits.first_size, "first_size must be at least 1, or size");
            assert!(limits.first_size <= limits.size, "first_size must be at most size");
            assert!(4 <= limits.max_allocs, "max_allocs must be at least 4");
            assert!(limits.max_allocs < <T::Index as offset_allocator::NodeIndex>::MAX - 1, "max_allocs must be at most NI::MAX - 2");
            assert!(limits.max_allocs.min(8) <= limits.first_allocs, "first_allocs must be at least 8, or max_allocs");
            assert!(limits.first_allocs <= limits.max_allocs, "first_allocs must be at most max_allocs");
            assert!(limits.most.checked_add(limits.most_larger).is_some(), "there may be at most 4294967295 heaps");
            let count = limits.most + limits.most_larger;
            let slots = Slots::with_room(alloc, count)?;
            let mut index = Index::with_room(alloc, count)?;
            let mut accesses = Accesses::new();
            for number in 0..count {
                index.note(&slots, number, limits, &mut accesses);
            }
            Ok(HeapsOf {
                alloc,
                slots,
                index,
                limits,
                made: given,
                realm,
                accesses: Accesses::new(),
            })
        }
    }
}

mod allocate;
mod tight;

mod more_calls {
    use super::*;

    impl<T: Tables> HeapsOf<T> {
        /// The limits.
        ///
        /// ```
        /// # use offset_allocator_heaps::*;
        /// # let alloc = Global;
        /// let limits = Limits { size: 1000, first_size: 1000, max_allocs: 100, first_allocs: 8, most: 2, most_larger: 1 };
        /// let mut heaps = Heaps::<u32>::new(alloc, limits)?;
        /// assert_eq!(heaps.limits().most, 2);
        /// # Ok::<(), AllocError>(())
        /// ```
        pub fn limits(&self) -> Limits {
            self.limits
        }

        /// The realm of its places.
        ///
        /// ```
        /// # use offset_allocator_heaps::*;
        /// # let alloc = Global;
        /// let limits = Limits { size: 1000, first_size: 1000, max_allocs: 100, first_allocs: 8, most: 2, most_larger: 1 };
        /// let mut heaps = Heaps::<u32>::new(alloc, limits)?;
        /// assert_eq!(heaps.realm(), 1);
        /// # Ok::<(), AllocError>(())
        /// ```
        pub fn realm(&self) -> u32 {
            self.realm
        }

        /// The heap of a number, to read: its reports, its statistics, its blocks. `None` is returned where the
        /// number has no heap. It speaks of the node limit that it has now: where that is reached, its report is 0 and
        /// 0, though the heaps grant a request there and raise the limit. [`totals`](Self::totals) looks at the largest limit.
        ///
        /// ```
        /// # use offset_allocator_heaps::*;
        /// # let alloc = Global;
        /// let limits = Limits { size: 1000, first_size: 1000, max_allocs: 100, first_allocs: 8, most: 2, most_larger: 1 };
        /// let mut heaps = Heaps::<u32>::new(alloc, limits)?;
        /// let mesh = heaps.allocate(300).unwrap().place;
        /// assert_eq!(heaps.heap(mesh.heap).unwrap().allocator().live_units(), 300);
        /// # Ok::<(), AllocError>(())
        /// ```
        pub fn heap(&self, number: u32) -> Option<&GuardedOf<T>> {
            self.slots.at(number, &mut Accesses::new())
        }

        /// Whether a place is live here: it has the realm, and its range was not freed, its heap not given up and
        /// nothing was reset since.
        ///
        /// ```
        /// # use offset_allocator_heaps::*;
        /// # let alloc = Global;
        /// let limits = Limits { size: 1000, first_size: 1000, max_allocs: 100, first_allocs: 8, most: 2, most_larger: 1 };
        /// let mut heaps = Heaps::<u32>::new(alloc, limits)?;
        /// let mesh = heaps.allocate(300).unwrap().place;
        /// heaps.free(mesh);
        /// assert!(!heaps.is_live(mesh));
        /// # Ok::<(), AllocError>(())
        /// ```
        pub fn is_live(&self, place: Place) -> bool {
            match self.heap_of(&place) {
                None => false,
                Some(heap) => heap.is_live(place.ticket(0)),
            }
        }

        /// The units of the range of a place, or `None` where it is not live.
        ///
        /// ```
        /// # use offset_allocator_heaps::*;
        /// # let alloc = Global;
        /// let limits = Limits { size: 1000, first_size: 1000, max_allocs: 100, first_allocs: 8, most: 2, most_larger: 1 };
        /// let mut heaps = Heaps::<u32>::new(alloc, limits)?;
        /// let mesh = heaps.allocate(300).unwrap().place;
        /// assert_eq!(heaps.size_of(mesh), Some(300));
        /// # Ok::<(), AllocError>(())
        /// ```
        pub fn size_of(&self, place: Place) -> Option<u32> {
            match self.heap_of(&place) {
                None => None,
                Some(heap) => heap.size_of(place.ticket(0)),
            }
        }

        /// Where the range of a place begins, in units from the start of its heap, or `None` where it is not
        /// live.
        ///
        /// ```
        /// # use offset_allocator_heaps::*;
        /// # let alloc = Global;
        /// let limits = Limits { size: 1000, first_size: 1000, max_allocs: 100, first_allocs: 8, most: 2, most_larger: 1 };
        /// let mut heaps = Heaps::<u32>::new(alloc, limits)?;
        /// let mesh = heaps.allocate(300).unwrap().place;
        /// assert_eq!(heaps.offset_of(mesh), Some(0));
        /// # Ok::<(), AllocError>(())
        /// ```
        pub fn offset_of(&self, place: Place) -> Option<u32> {
            match self.heap_of(&place) {
                None => None,
                Some(heap) => heap.offset_of(place.ticket(0)),
            }
        }

        /// Makes the space of each heap one free block again. No earlier place is ever live again. All heaps
        /// stay, for [`drop_empty`](Self::drop_empty).
        ///
        /// ```
        /// # use offset_allocator_heaps::*;
        /// # let alloc = Global;
        /// let limits = Limits { size: 1000, first_size: 1000, max_allocs: 100, first_allocs: 8, most: 2, most_larger: 1 };
        /// let mut heaps = Heaps::<u32>::new(alloc, limits)?;
        /// let mesh = heaps.allocate(300).unwrap().place;
        /// heaps.reset();
        /// assert!(!heaps.is_live(mesh));
        /// assert_eq!(heaps.totals().heaps, 1);
        /// # Ok::<(), AllocError>(())
        /// ```
        pub fn reset(&mut self) {
            reset_all(
                &mut self.slots,
                &mut self.index,
                self.limits,
                &mut self.accesses,
            );
        }
    }
}

mod resize;
mod relocate;
mod compact;
mod drop;
mod extend;
mod walks;
mod foretell;
mod heap_numbers;
mod totals;
mod save;
mod restore;
mod copy;
mod dumping;
mod fresh;
mod heap;
mod heap_mut;
mod index;
#[doc(hidden)]
pub mod laws;
mod limits;
mod marks;
mod maxima;
mod place;
mod refusal;
mod slots;
mod state;

pub use dumping::json_of;
pub use heap_mut::HeapMut;
use index::Index;
pub use limits::Limits;
use offset_allocator::Accesses;
pub use offset_allocator::{
    Allocation, Allocator, AllocatorOf, Block, Blocks, BlocksOf, ByField, ByNode, Move, MovePieces,
    NodeIndex, NodeIndexNonMax, Piece, Progress, ReadError, RoomCost, Scale, Statistics,
    StorageReport, StorageReportFull, StorageReportFullRegion, Tables, vma_json_of,
};
pub use offset_guarded::{Beside, Guarded, GuardedOf, Ticket};
pub use place::{Granted, Place};
pub use refusal::Refusal;
use slots::Slots;
pub use state::{StateFault, StateFaultKind};
use core::fmt;
pub use totals::Totals;

/// Many heaps as one, each with one table of nodes.
pub type Heaps<NI = u32> = HeapsOf<ByNode<NI>>;

/// Many heaps as one.
///
/// It holds a slot for each number, and an index of them: the work of a call is some steps for each bit of
/// the numbers, and that of one heap.
pub struct HeapsOf<T: Tables> {
    alloc: Global,
    slots: Slots<T>,
    index: Index,
    limits: Limits,
    // the realm of the heap that was made last, or the one before the first
    made: u32,
    realm: u32,
    accesses: Accesses,
}

// Makes the space of each heap one free block again.
fn reset_all<T: Tables>(
    slots: &mut Slots<T>,
    index: &mut Index,
    limits: Limits,
    count: &mut Accesses,
) {
    for number in 0..limits.most + limits.most_larger {
        slots.reset(number, count);
        index.note(slots, number, limits, count);
    }
}

impl<T: Tables> HeapsOf<T> {
    // The heap of a place.
    fn heap_of(&self, place: &Place) -> Option<&GuardedOf<T>> {
        let (number, realm, _) = place.split();
        if realm == self.realm {
            self.heap(number)
        } else {
            None
        }
    }
}

/// The text is that of a struct with the realm, the limits, the realm of the heap that was made last, and the
/// totals.
impl<T: Tables> fmt::Debug for HeapsOf<T> {
    fn fmt(&self, f: &mut fmt::Formatter<'_>) -> fmt::Result {
        f.debug_struct("Heaps")
            .field("realm", &self.realm)
            .field("limits", &self.limits)
            .field("made", &self.made)
            .field("totals", &self.totals())
            .finish()
    }
}
