// Printed by rust/erase from crates/offset_allocator/src/tight.rt: change it there.

//! Requests that take any free block that is large enough: where the first fit by classes finds none, the
//! bins from the class of the request on are walked. It changes the order of one bin, then grants as
//! `allocate`.

use crate::accesses::Accesses;
use crate::handle::Allocation;
use crate::index::{NodeIndex, number};
use crate::reports::Refusal;
use crate::small_float::uint_to_float_round_down;
use crate::tables::Tables;
use crate::{AllocatorOf, bins};

// Whether a block at this offset, of `whole` units, holds `size` units from a multiple of `align` on.
fn holds(offset: u32, whole: u32, size: u32, align: u32) -> bool {
    let padding = (align - offset % align) % align;
    padding as u64 + size as u64 <= whole as u64
}

// The first name of a bin whose block holds `size` units from a multiple of `align` on.
fn first_of_bin<T: Tables>(
    tables: &T,
    class: u32,
    size: u32,
    align: u32,
    count: &mut Accesses,
) -> Option<u32> {
    let mut name = tables.head(class, count);
    while name != T::Index::MAX {
        let offset = tables.offset(name, count);
        let whole = tables.size(name, count);
        if holds(offset, whole, size, align) {
            return Some(name);
        }
        name = number(tables.older(name, count));
    }
    None
}

// The first name of the bins from the class of `size` units on whose block holds them from a multiple of
// `align` on.
fn choose<T: Tables>(
    tables: &T,
    top_mask: u32,
    size: u32,
    align: u32,
    count: &mut Accesses,
) -> Option<u32> {
    let mut class = uint_to_float_round_down(size);
    while class < 256 {
        match bins::find_at_or_above(tables, top_mask, class, count) {
            None => return None,
            Some(filled) => {
                let first = first_of_bin(tables, filled, size, align, count);
                if first.is_some() {
                    return first;
                }
                class = filled + 1;
            }
        }
    }
    None
}

/// Whether a free block holds `size` units from a multiple of `align` on, however many nodes are unused. The
/// count grows by at most 2, and 6 for each free block of the class of `size` units or above.
///
/// # Panics
///
/// It panics unless the alignment is at least 1.
#[track_caller]
pub fn has_block_for_counted<T: Tables>(
    allocator: &AllocatorOf<T>,
    size: u32,
    align: u32,
    count: &mut Accesses,
) -> bool {
    assert!(1 <= align, "the alignment must be at least 1");
    let store = &allocator.store;
    match choose(&store.tables, store.top_mask, size, align, count) {
        Some(_) => true,
        None => false,
    }
}

/// As `Allocator::refusal_tight_aligned`. The count grows by at most 2, and 6 for each free block of the
/// class of `size` units or above.
///
/// # Panics
///
/// It panics unless the alignment is at least 1.
#[track_caller]
pub fn refusal_tight_aligned_counted<T: Tables>(
    allocator: &AllocatorOf<T>,
    size: u32,
    align: u32,
    count: &mut Accesses,
) -> Option<Refusal> {
    assert!(1 <= align, "the alignment must be at least 1");
    if allocator.unused_nodes() <= align.min(2) {
        return Some(Refusal::Nodes);
    }
    if size > allocator.size {
        return Some(Refusal::TooLarge);
    }
    let store = &allocator.store;
    match choose(&store.tables, store.top_mask, size, align, count) {
        Some(_) => None,
        None => {
            if allocator.free_total < size.max(1) {
                Some(Refusal::Space)
            } else {
                Some(Refusal::Fragmented)
            }
        }
    }
}

/// As `Allocator::refusal_tight`. The count grows by at most 2, and 6 for each free block of the class of
/// `size` units or above.
pub fn refusal_tight_counted<T: Tables>(
    allocator: &AllocatorOf<T>,
    size: u32,
    count: &mut Accesses,
) -> Option<Refusal> {
    refusal_tight_aligned_counted(allocator, size, 1, count)
}

impl<T: Tables> AllocatorOf<T> {
    /// Makes the block of a name, which is free, the newest of its bin, and returns its class.
    pub(crate) fn bring_first(&mut self, name: u32) -> u32 {
        let size = self.store.tables.size(name, &mut self.store.accesses);
        let class = uint_to_float_round_down(size);
        bins::remove(&mut self.store, name, size);
        bins::push(&mut self.store, name, class);
        class
    }

    // Grants `size` units of the first block that holds them.
    fn grant_first(&mut self, name: u32, size: u32, align: u32) -> Allocation<T::Index> {
        let class = self.bring_first(name);
        self.grant(class, size, align)
    }

    // Grants `size` units of the first block that holds them, where there is one.
    fn look_further(&mut self, size: u32, align: u32) -> Option<Allocation<T::Index>> {
        match choose(
            &self.store.tables,
            self.store.top_mask,
            size,
            align,
            &mut self.store.accesses,
        ) {
            None => None,
            Some(name) => Some(self.grant_first(name, size, align)),
        }
    }

    // A request as `serve` takes it, and where that finds no block, one for the first that holds it. It is
    // out of line, so that nothing of it is in a program that calls `allocate` alone.
    #[inline(never)]
    fn serve_tight(&mut self, size: u32, align: u32) -> Option<Allocation<T::Index>> {
        match self.serve(size, align) {
            Some(handle) => Some(handle),
            None => {
                if self.admits_blocks(align.min(2)) {
                    self.look_further(size, align)
                } else {
                    None
                }
            }
        }
    }

    /// Grants a range of `size` units, as [`allocate`](Self::allocate) does, and where that is refused it looks further: it
    /// takes the first block of at least `size` units of the class of `size`, the newest first. So a heap
    /// that is nearly full is filled.
    ///
    /// `None` is returned where `max_allocs - 1` blocks exist, or where no free block has `size` units; then
    /// the space is as it was. A request of at least one unit is granted exactly when it is at most the
    /// `largest_free_block` of [`statistics`](Self::statistics) and there is room for one more block. It takes no memory, and
    /// makes at most 140 accesses to the tables, and 6 for each free block of the class of `size`.
    ///
    /// ```
    /// # use offset_allocator_proved::*;
    /// # let alloc = Global;
    /// let mut space = Allocator::<u32>::new(alloc, 1000)?;
    /// space.allocate(300);
    /// assert!(space.allocate(700).is_none());
    /// assert!(space.allocate_tight(700).is_some());
    /// # Ok::<(), AllocError>(())
    /// ```
    pub fn allocate_tight(&mut self, size: u32) -> Option<Allocation<T::Index>> {
        self.serve_tight(size, 1)
    }

    /// Grants `size` units that begin at a multiple of `align`, from 1 on, as [`allocate_aligned`](Self::allocate_aligned) does,
    /// and where that is refused it looks further: through the free blocks from the class of `size` on, class
    /// by class, in each the newest first, for one that holds `size` units from a multiple of `align` on, at
    /// the offset that it has.
    ///
    /// `None` is returned where no free block holds them, or where there is no room for one more block, or
    /// for two more if `align` is above 1; then the space is as it was. It takes no memory, and makes at most
    /// 140 accesses to the tables, and 6 for each free block of the class of `size` or above.
    ///
    /// # Panics
    ///
    /// It panics unless the alignment is at least 1.
    ///
    /// ```
    /// # use offset_allocator_proved::*;
    /// # let alloc = Global;
    /// let mut space = Allocator::<u32>::new(alloc, 1000)?;
    /// space.allocate(256);
    /// assert!(space.allocate_aligned(700, 256).is_none());
    /// assert_eq!(space.allocate_tight_aligned(700, 256).unwrap().offset, 256);
    /// # Ok::<(), AllocError>(())
    /// ```
    #[track_caller]
    pub fn allocate_tight_aligned(&mut self, size: u32, align: u32) -> Option<Allocation<T::Index>> {
        assert!(1 <= align, "the alignment must be at least 1");
        self.serve_tight(size, align)
    }

    /// Why `allocate_tight(size)` would be refused now, or `None` exactly where it would be granted.
    /// [`TooLarge`](crate::Refusal::TooLarge): the space has fewer units. [`Space`](crate::Refusal::Space): all free units together are fewer, or, for a request of
    /// 0 units, no unit is free. [`Fragmented`](crate::Refusal::Fragmented): they are enough, and after [`compact`](Self::compact) the request is granted. It
    /// makes at most 2 accesses to the tables, and 6 for each free block of the class of `size` or above.
    ///
    /// ```
    /// # use offset_allocator_proved::*;
    /// # let alloc = Global;
    /// let mut space = Allocator::<u32>::new(alloc, 1000)?;
    /// space.allocate(300);
    /// assert_eq!(space.refusal_tight(700), None);
    /// assert_eq!(space.refusal_tight(701), Some(Refusal::Space));
    /// # Ok::<(), AllocError>(())
    /// ```
    pub fn refusal_tight(&self, size: u32) -> Option<Refusal> {
        refusal_tight_counted(self, size, &mut Accesses::new())
    }

    /// Why `allocate_tight_aligned(size, align)` would be refused now, or `None` exactly where it would be
    /// granted. `align` has to be at least 1. The reasons are those of [`refusal_tight`](Self::refusal_tight); but after
    /// [`compact`](Self::compact) the request is granted only if the free block, where it begins then, holds it.
    ///
    /// # Panics
    ///
    /// It panics unless the alignment is at least 1.
    ///
    /// ```
    /// # use offset_allocator_proved::*;
    /// # let alloc = Global;
    /// let mut space = Allocator::<u32>::new(alloc, 1000)?;
    /// space.allocate(300);
    /// assert_eq!(space.refusal_tight_aligned(400, 256), None);
    /// assert_eq!(space.refusal_tight_aligned(700, 256), Some(Refusal::Fragmented));
    /// # Ok::<(), AllocError>(())
    /// ```
    #[track_caller]
    pub fn refusal_tight_aligned(&self, size: u32, align: u32) -> Option<Refusal> {
        assert!(1 <= align, "the alignment must be at least 1");
        refusal_tight_aligned_counted(self, size, align, &mut Accesses::new())
    }
}
