// Printed by rust/erase from crates/offset_allocator/src/lib.rt: change it there.

#![doc = include_str!("../README.md")]
#![no_std]
#![forbid(unsafe_code)]
#![allow(rustdoc::redundant_explicit_links)] // printed links say in full where they lead
#![warn(missing_docs)]
#![expect(clippy::collapsible_if)] // each test has a name of its own in the proof
#![expect(clippy::derivable_impls)] // an `impl Default` is where a contract says what the value is
#![expect(clippy::len_without_is_empty)] // tables are never empty: they have a node from the start
#![expect(clippy::manual_map)] // a `match` needs no closure, whose calls would need a proof
#![expect(clippy::needless_range_loop)] // a loop over places calls no iterator, which might count accesses of its own
#![expect(clippy::question_mark)] // a `match` needs no call, whose contract a proof would need
#![expect(clippy::redundant_pattern_matching)] // the same
#![expect(unused_variables)] // a parameter may be there for a contract only

mod traits;

pub use offset_allocator_memory as memory;
pub use offset_allocator_memory::{AllocError, Global};
pub use nonmax::IsMax;

mod constructors {
    use super::*;

    impl<T: Tables> AllocatorOf<T> {
        /// A space of `size` units, all free, with the smaller of 131072 and `T::Index::MAX - 2` as the node
        /// limit. A node costs as much as in [`with_max_allocs`](Self::with_max_allocs).
        ///
        /// # Errors
        ///
        /// An error is returned only where an allocation failed; then nothing is made.
        ///
        /// ```
        /// # use offset_allocator_proved::*;
        /// # let alloc = Global;
        /// let space = Allocator::<u32>::new(alloc, 1 << 20)?;
        /// assert_eq!(space.free_units(), 1 << 20);
        /// # Ok::<(), AllocError>(())
        /// ```
        #[track_caller]
        pub fn new(alloc: Global, size: u32) -> Result<Self, AllocError> {
            Self::with_max_allocs(alloc, size, 131072u32.min(T::Index::MAX - 2))
        }

        /// A space of `size` units, all free, with `max_allocs` as the node limit: at most `max_allocs - 1`
        /// blocks exist at a time, free ones included. A request is granted only while at most `max_allocs - 2`
        /// exist, and makes one of them live: so at most `max_allocs - 2` grants are live. The limit is 2 to
        /// `T::Index::MAX - 2`: 65533 for `u16`, 4294967293 for `u32`. [`ByNode`](crate::ByNode) and [`ByField`](crate::ByField) reserve 28 bytes a
        /// node with `u32`, 18 with `u16`, all of them here; those of a node are written when it is made, which
        /// [`node_count`](Self::node_count) counts.
        ///
        /// # Errors
        ///
        /// An error is returned only where an allocation failed; then nothing is made.
        ///
        /// # Panics
        ///
        /// It panics unless `max_allocs` is at least 2, and `max_allocs` is at most `NI::MAX - 2`.
        ///
        /// ```
        /// # use offset_allocator_proved::*;
        /// # let alloc = Global;
        /// let mut space = Allocator::<u16>::with_max_allocs(alloc, 1000, 3)?;
        /// assert!(space.allocate(10).is_some());
        /// assert!(space.allocate(10).is_none());
        /// # Ok::<(), AllocError>(())
        /// ```
        #[track_caller]
        pub fn with_max_allocs(alloc: Global, size: u32, max_allocs: u32) -> Result<Self, AllocError> {
            assert!(2 <= max_allocs, "max_allocs must be at least 2");
            assert!(max_allocs < T::Index::MAX - 1, "max_allocs must be at most NI::MAX - 2");
            let tables = T::with_capacity(alloc, max_allocs)?;
            let top_mask = bins::empty_mask(&tables);
            let mut store = Store {
                tables,
                top_mask,
                last: 0,
                spare_count: 0,
                accesses: Accesses::new(),
            };
            steps::start(&mut store, size, max_allocs);
            // a space that is new has counted no access
            store.accesses = Accesses::new();
            Ok(AllocatorOf {
                size,
                max_allocs,
                free_total: size,
                store,
            })
        }
    }
}

mod calls {
    use super::*;

    impl<T: Tables> AllocatorOf<T> {
        /// Grants a range of `size` units, and returns its handle. It takes the first `size` units of the newest
        /// block of the smallest class that has a free block and whose blocks all have at least `size` units; what
        /// remains of the block stays free, directly after the range.
        ///
        /// `None` is returned where `max_allocs - 1` blocks exist, even for an exact fit, or where no free block
        /// is of such a class; then the space is as it was. A request of at least one unit is granted exactly
        /// when it is at most the `largest_free_region` that [`storage_report`](Self::storage_report) returns just before. One of 0 units
        /// takes a node too, and needs a free block of any size. It makes at most 64 accesses to the tables, and
        /// takes no memory.
        ///
        /// ```
        /// # use offset_allocator_proved::*;
        /// # let alloc = Global;
        /// let mut space = Allocator::<u32>::new(alloc, 1000)?;
        /// let mesh = space.allocate(300).unwrap();
        /// assert_eq!(mesh.offset, 0);
        /// assert!(space.allocate(701).is_none());
        /// # Ok::<(), AllocError>(())
        /// ```
        pub fn allocate(&mut self, size: u32) -> Option<Allocation<T::Index>> {
            self.serve(size, 1)
        }

        /// Grants `size` units that begin at a multiple of `align`, which may be any number from 1 on: 256, or 12
        /// for vertices of 12 bytes.
        ///
        /// The block is the one that a request for `size + align - 1` units would take. Its units before the
        /// range (the padding) and after it (the remainder) stay free. `None` is returned if that request finds
        /// no block, if `size + align - 1` is above 4294967295, or if `align` is above 1 and there is no room for
        /// two more blocks, even if fewer would be added. Then the space is as it was. Where padding and
        /// remainder are of one class, the remainder is the newer one. With `align` 1 the call is
        /// `allocate(size)`. It makes at most 128 accesses to the tables, and takes no memory.
        ///
        /// A fresh space of 1,048,576 units grants 64 KiB at a multiple of 256 only 15 times. Where all requests
        /// have one alignment, let a unit be as large as that, and call [`allocate`](Self::allocate): then it grants all 16.
        ///
        /// # Panics
        ///
        /// It panics unless the alignment is at least 1.
        ///
        /// ```
        /// # use offset_allocator_proved::*;
        /// # let alloc = Global;
        /// let mut space = Allocator::<u32>::new(alloc, 1000)?;
        /// space.allocate(10);
        /// let uniforms = space.allocate_aligned(300, 256).unwrap();
        /// assert_eq!(uniforms.offset, 256);
        /// # Ok::<(), AllocError>(())
        /// ```
        #[track_caller]
        pub fn allocate_aligned(&mut self, size: u32, align: u32) -> Option<Allocation<T::Index>> {
            assert!(1 <= align, "the alignment must be at least 1");
            self.serve(size, align)
        }

        /// Frees the range of a live handle. Its units are free at once, in one block with the free blocks
        /// directly before and after it, and that block is the newest of its bin.
        ///
        /// The handle has to be live, which [`is_live`](Self::is_live) reports. Only its name counts, and not its public `offset`:
        /// a stale handle whose name was granted again is live, and frees that range. It makes at most 128
        /// accesses to the tables, and takes no memory.
        ///
        /// # Panics
        ///
        /// It panics unless the handle is live.
        ///
        /// ```
        /// # use offset_allocator_proved::*;
        /// # let alloc = Global;
        /// let mut space = Allocator::<u32>::new(alloc, 1000)?;
        /// let mesh = space.allocate(300).unwrap();
        /// space.free(mesh);
        /// assert_eq!(space.free_units(), 1000);
        /// # Ok::<(), AllocError>(())
        /// ```
        #[track_caller]
        pub fn free(&mut self, allocation: Allocation<T::Index>) {
            assert!(self.is_live(allocation), "the handle must be live: {:?}", { allocation });
            self.release(allocation.name());
        }

        /// Frees the range of any handle, as [`free`](Self::free) does, if it is live, and returns whether it was: so a caller who
        /// does not know asks once. A handle that is not live changes nothing.
        ///
        /// It makes at most 128 accesses to the tables, and those of [`is_live`](Self::is_live), at most 8, which are not counted here;
        /// it takes no memory.
        ///
        /// ```
        /// # use offset_allocator_proved::*;
        /// # let alloc = Global;
        /// let mut space = Allocator::<u32>::new(alloc, 1000)?;
        /// let mesh = space.allocate(300).unwrap();
        /// assert!(space.free_if_live(mesh));
        /// assert!(!space.free_if_live(mesh));
        /// assert_eq!(space.free_units(), 1000);
        /// # Ok::<(), AllocError>(())
        /// ```
        #[inline(always)]
        pub fn free_if_live(&mut self, allocation: Allocation<T::Index>) -> bool {
            let name = allocation.name();
            let live = self.is_live(allocation);
            if live {
                self.release(name);
            }
            live
        }
    }
}

mod tight;
mod at_offset;

mod more_calls {
    use super::*;

    impl<T: Tables> AllocatorOf<T> {
        /// Makes the whole space one free block again, in place. No earlier handle is live then.
        ///
        /// It takes no memory and always succeeds, and the space keeps what [`extend`](Self::extend) added. If at most 5 blocks
        /// exist, it frees each live range; otherwise it forgets all nodes and empties the bins: about 1 KB is
        /// written, whatever the node limit.
        ///
        /// ```
        /// # use offset_allocator_proved::*;
        /// # let alloc = Global;
        /// let mut space = Allocator::<u32>::new(alloc, 1000)?;
        /// let mesh = space.allocate(300).unwrap();
        /// space.reset();
        /// assert!(!space.is_live(mesh));
        /// # Ok::<(), AllocError>(())
        /// ```
        pub fn reset(&mut self) {
            // of at most five blocks at most five are live; to free these takes about as long as to empty the
            // bins
            if self.block_count() <= 5 {
                self.free_all();
            } else {
                self.clear();
            }
        }

        /// The units of the space, with what [`extend`](Self::extend) added.
        ///
        /// ```
        /// # use offset_allocator_proved::*;
        /// # let alloc = Global;
        /// let mut space = Allocator::<u32>::new(alloc, 1000)?;
        /// assert_eq!(space.size(), 1000);
        /// # Ok::<(), AllocError>(())
        /// ```
        pub fn size(&self) -> u32 {
            self.size
        }

        /// The node limit. At most `max_allocs - 1` blocks exist at a time, free ones included.
        ///
        /// ```
        /// # use offset_allocator_proved::*;
        /// # let alloc = Global;
        /// let mut space = Allocator::<u32>::new(alloc, 1000)?;
        /// assert_eq!(space.max_allocs(), 131_072);
        /// # Ok::<(), AllocError>(())
        /// ```
        pub fn max_allocs(&self) -> u32 {
            self.max_allocs
        }

        /// The number of blocks, used and free.
        ///
        /// ```
        /// # use offset_allocator_proved::*;
        /// # let alloc = Global;
        /// let mut space = Allocator::<u32>::new(alloc, 1000)?;
        /// space.allocate(300);
        /// assert_eq!(space.block_count(), 2);
        /// # Ok::<(), AllocError>(())
        /// ```
        pub fn block_count(&self) -> u32 {
            self.store.tables.len() - self.store.spare_count
        }

        /// The number of nodes that were made: one for each block, and those whose names are unused. Each block's
        /// name is below it. A call that adds a block makes a node for it where no name is unused, and only
        /// [`reset`](Self::reset), of more than 5 blocks, forgets some.
        ///
        /// ```
        /// # use offset_allocator_proved::*;
        /// # let alloc = Global;
        /// let mut space = Allocator::<u32>::new(alloc, 1000)?;
        /// space.allocate(300);
        /// assert!(space.node_count() >= space.block_count());
        /// # Ok::<(), AllocError>(())
        /// ```
        pub fn node_count(&self) -> u32 {
            self.store.tables.len()
        }

        /// Whether `max_allocs - 1` blocks exist. Then every request is refused, and the short report is 0, 0,
        /// until blocks coalesce (by [`free`](Self::free), [`reset`](Self::reset), [`compact`](Self::compact) or [`make_room`](Self::make_room), by steps too), or [`grow_in_place`](Self::grow_in_place) or
        /// [`retract`](Self::retract) takes the whole of a free block.
        ///
        /// ```
        /// # use offset_allocator_proved::*;
        /// # let alloc = Global;
        /// let mut space = Allocator::<u32>::with_max_allocs(alloc, 1000, 3)?;
        /// space.allocate(300);
        /// assert!(space.is_full());
        /// # Ok::<(), AllocError>(())
        /// ```
        pub fn is_full(&self) -> bool {
            self.block_count() == self.max_allocs - 1
        }

        /// Whether the handle is live here: its name is the name of a used block. [`free`](Self::free) asks for exactly this.
        ///
        /// A handle whose block was freed is live again where a newer grant has its name. It makes at most 8
        /// accesses to the tables.
        ///
        /// ```
        /// # use offset_allocator_proved::*;
        /// # let alloc = Global;
        /// let mut space = Allocator::<u32>::new(alloc, 1000)?;
        /// let mesh = space.allocate(300).unwrap();
        /// assert!(space.is_live(mesh));
        /// space.free(mesh);
        /// assert!(!space.is_live(mesh));
        /// # Ok::<(), AllocError>(())
        /// ```
        pub fn is_live(&self, allocation: Allocation<T::Index>) -> bool {
            reports::is_live_counted(self, allocation, &mut Accesses::new())
        }

        /// The units of the range that a live handle has: exactly those that its grant, [`shrink`](Self::shrink) or
        /// [`grow_in_place`](Self::grow_in_place) last gave it. It is 0 where the handle is not live, and for a live range
        /// of no units too. It makes at most 8 accesses to the tables.
        ///
        /// ```
        /// # use offset_allocator_proved::*;
        /// # let alloc = Global;
        /// let mut space = Allocator::<u32>::new(alloc, 1000)?;
        /// let mesh = space.allocate(300).unwrap();
        /// assert_eq!(space.allocation_size(mesh), 300);
        /// # Ok::<(), AllocError>(())
        /// ```
        pub fn allocation_size(&self, allocation: Allocation<T::Index>) -> u32 {
            reports::allocation_size_counted(self, allocation, &mut Accesses::new())
        }

        /// Where the range of a live handle begins, in units from the start of the space, or `None` where the
        /// handle is not live.
        ///
        /// The public `offset` of a handle is a copy: a caller may have changed it, [`compact`](Self::compact) leaves it as it
        /// was, and a stale handle keeps it. It makes at most 8 accesses to the tables.
        ///
        /// ```
        /// # use offset_allocator_proved::*;
        /// # let alloc = Global;
        /// let mut space = Allocator::<u32>::new(alloc, 1000)?;
        /// let mesh = space.allocate(300).unwrap();
        /// assert_eq!(space.allocation_offset(mesh), Some(0));
        /// # Ok::<(), AllocError>(())
        /// ```
        pub fn allocation_offset(&self, allocation: Allocation<T::Index>) -> Option<u32> {
            reports::allocation_offset_counted(self, allocation, &mut Accesses::new())
        }

        /// The blocks of the space, used and free, from its end to its start. It takes no memory, and each block
        /// costs at most 5 accesses to the tables.
        ///
        /// ```
        /// # use offset_allocator_proved::*;
        /// # let alloc = Global;
        /// let mut space = Allocator::<u32>::new(alloc, 1000)?;
        /// let mesh = space.allocate(300).unwrap();
        /// let mut blocks = space.blocks();
        /// assert_eq!(blocks.next().unwrap().size, 700);
        /// assert_eq!(blocks.next().unwrap().allocation, Some(mesh));
        /// # Ok::<(), AllocError>(())
        /// ```
        pub fn blocks(&self) -> BlocksOf<'_, T> {
            BlocksOf {
                allocator: self,
                next: Some(self.store.last),
                left: self.block_count(),
            }
        }

        /// The free space in short: the units of all free blocks, and the largest request that would be granted,
        /// or 0 where none of at least one unit would be. Both are 0 where `max_allocs - 1` blocks exist or no
        /// block is free, and then a request of 0 units is refused too. It makes at most 8 accesses to the
        /// tables.
        ///
        /// ```
        /// # use offset_allocator_proved::*;
        /// # let alloc = Global;
        /// let mut space = Allocator::<u32>::new(alloc, 1000)?;
        /// space.allocate(300);
        /// let report = space.storage_report();
        /// assert_eq!((report.total_free_space, report.largest_free_region), (700, 640));
        /// # Ok::<(), AllocError>(())
        /// ```
        pub fn storage_report(&self) -> StorageReport {
            reports::storage_report_counted(self, &mut Accesses::new())
        }

        /// The free blocks, class by class, at the node limit too. It makes at most 512 accesses to the tables,
        /// and 2 for each free block.
        ///
        /// ```
        /// # use offset_allocator_proved::*;
        /// # let alloc = Global;
        /// let mut space = Allocator::<u32>::new(alloc, 1000)?;
        /// let report = space.storage_report_full();
        /// let free: u32 = report.free_regions.iter().map(|class| class.count).sum();
        /// assert_eq!(free, 1);
        /// # Ok::<(), AllocError>(())
        /// ```
        pub fn storage_report_full(&self) -> StorageReportFull {
            reports::storage_report_full_counted(self, &mut Accesses::new())
        }

        /// Why `allocate(size)` would be refused now, or `None` exactly where it would be granted.
        ///
        /// It makes at most 8 accesses to the tables.
        ///
        /// ```
        /// # use offset_allocator_proved::*;
        /// # let alloc = Global;
        /// let mut space = Allocator::<u32>::new(alloc, 1000)?;
        /// assert_eq!(space.refusal(300), None);
        /// assert_eq!(space.refusal(1001), Some(Refusal::TooLarge));
        /// # Ok::<(), AllocError>(())
        /// ```
        pub fn refusal(&self, size: u32) -> Option<Refusal> {
            reports::refusal_counted(self, size, &mut Accesses::new())
        }

        /// Why `allocate_aligned(size, align)` would be refused now, or `None` exactly where it would be granted.
        ///
        /// `align` has to be at least 1. If it is above 1, the request needs room for two more blocks, and a
        /// block for `size + align - 1` units. It makes at most 8 accesses to the tables.
        ///
        /// # Panics
        ///
        /// It panics unless the alignment is at least 1.
        ///
        /// ```
        /// # use offset_allocator_proved::*;
        /// # let alloc = Global;
        /// let mut space = Allocator::<u32>::new(alloc, 1000)?;
        /// assert_eq!(space.refusal_aligned(900, 4), None);
        /// assert_eq!(space.refusal_aligned(900, 256), Some(Refusal::TooLarge));
        /// # Ok::<(), AllocError>(())
        /// ```
        #[track_caller]
        pub fn refusal_aligned(&self, size: u32, align: u32) -> Option<Refusal> {
            assert!(1 <= align, "the alignment must be at least 1");
            reports::refusal_aligned_counted(self, size, align, &mut Accesses::new())
        }

        /// Adds `more` units at the end of the space: to the last block where that is free, or else as a new free
        /// block. That block is then the newest of its bin.
        ///
        /// `false` is returned where the space would have more than 4294967295 units, or where its last block is
        /// used and no further block may exist; then the space is as it was. With 0 units it is `true`, and the
        /// space is as it was too. It makes at most 128 accesses to the tables, and takes no memory.
        ///
        /// ```
        /// # use offset_allocator_proved::*;
        /// # let alloc = Global;
        /// let mut space = Allocator::<u32>::new(alloc, 1000)?;
        /// assert!(space.extend(24));
        /// assert_eq!(space.size(), 1024);
        /// # Ok::<(), AllocError>(())
        /// ```
        pub fn extend(&mut self, more: u32) -> bool {
            let left = self.unused_nodes();
            if more == 0 {
                return true;
            }
            if more > u32::MAX - self.size {
                return false;
            }
            let used = chain::is_used(
                &self.store.tables,
                self.store.last,
                &mut self.store.accesses,
            );
            if !used {
                self.widen(more);
                return true;
            }
            if left < 2 {
                return false;
            }
            self.append(more);
            true
        }
    }
}

mod resize;
mod moves;
mod reports;
mod states;
mod accesses;
mod bins;
mod chain;
pub mod ext;
mod handle;
mod index;
#[doc(hidden)]
pub mod laws;
mod layouts;
mod neighbours;
mod nonmax;
mod scale;
pub mod small_float;
mod steps;
mod store;
mod tables;

#[doc(hidden)]
pub use accesses::Accesses;
pub use handle::Allocation;
pub use index::{NodeIndex, NodeIndexNonMax};
pub use layouts::by_field::ByField;
pub use layouts::by_node::ByNode;
pub use moves::compact_cost::CompactCost;
pub use moves::over_frames::Progress;
pub use moves::pieces::{MovePieces, Piece};
pub use moves::room::RoomCost;
pub use nonmax::{NonMaxU16, NonMaxU32};
pub use reports::blocks::{Block, BlocksOf};
pub use reports::dumping::{json_of, vma_json_of};
pub use reports::statistics::Statistics;
pub use reports::{Refusal, StorageReport, StorageReportFull, StorageReportFullRegion};
pub use scale::Scale;
pub use states::state::{ReadError, StateFault, StateFaultKind};
use core::fmt;
use store::Store;
pub use tables::Tables;

/// The allocator of one space, with one table of nodes: a block's cells are in one or two cache lines.
pub type Allocator<NI = u32> = AllocatorOf<ByNode<NI>>;

/// A range that `compact` or `make_room` moves, by steps too: `size` units from the offset `from` to the offset
/// `to`, which is smaller.
pub use moves::one_move::Move;

/// The blocks of such an allocator.
pub type Blocks<'a, NI = u32> = BlocksOf<'a, ByNode<NI>>;

/// The allocator of one space.
///
/// `T` is the layout of its tables, which changes no answer. The index type of the layout is the type of the
/// links between nodes: it limits how many nodes there can be, and changes no answer either.
pub struct AllocatorOf<T: Tables> {
    // the units of the space
    size: u32,
    // the node limit
    max_allocs: u32,
    // the units of all free blocks
    free_total: u32,
    store: Store<T>,
}

/// The text is that of a struct with the size, the node limit and the statistics.
impl<T: Tables> fmt::Debug for AllocatorOf<T> {
    fn fmt(&self, f: &mut fmt::Formatter<'_>) -> fmt::Result {
        f.debug_struct("Allocator")
            .field("size", &self.size)
            .field("max_allocs", &self.max_allocs)
            .field("statistics", &self.statistics())
            .finish()
    }
}
