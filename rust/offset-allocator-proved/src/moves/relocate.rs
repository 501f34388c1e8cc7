// Printed by rust/erase from crates/offset_allocator/src/moves/relocate.rt: change it there.

//! A second range for what a live one holds, nearer to the start of the space, so that the end of a heap can
//! be emptied. It reads the tables, and changes them by a grant alone.

use crate::handle::Allocation;
use crate::small_float::uint_to_float_round_up;
use crate::tables::Tables;
use crate::{AllocatorOf, bins};

impl<T: Tables> AllocatorOf<T> {
    // Where the block begins that a request for `size` units would take, if there is one: where it is
    // granted, its range begins there.
    fn block_begin(&mut self, size: u32) -> Option<u32> {
        let smallest = uint_to_float_round_up(size);
        let class = bins::find_at_or_above(
            &self.store.tables,
            self.store.top_mask,
            smallest,
            &mut self.store.accesses,
        )?;
        let name = self.store.tables.head(class, &mut self.store.accesses);
        Some(self.store.tables.offset(name, &mut self.store.accesses))
    }

    /// Grants a second range of as many units as that of a live handle, which begins before it, **at any multiple**
    /// ([`relocate_aligned`](Self::relocate_aligned) keeps an alignment), and returns its handle. The old range stays live until it is freed: so the units can be copied, and the copies do
    /// not overlap, while the old ones are still read. Done for the last ranges of a space ([`last_live`](Self::last_live),
    /// [`live_before`](Self::live_before)), it empties the end. For a range of no units it is granted one of no units.
    ///
    /// The block is the one that [`allocate`](Self::allocate) takes for these units. `None` is returned where that would refuse
    /// them, or where the block begins after the range; then the space is as it was. The handle has to be
    /// live, and only its name counts. It makes at most 67 accesses to the tables, and takes no memory.
    ///
    /// # Panics
    ///
    /// It panics unless the handle is live.
    ///
    /// ```
    /// # use offset_allocator_proved::*;
    /// # let alloc = Global;
    /// let mut space = Allocator::<u32>::new(alloc, 1000)?;
    /// let hole = space.allocate(320).unwrap();
    /// let mesh = space.allocate(320).unwrap();
    /// space.free(hole);
    /// let moved = space.relocate(mesh).unwrap();
    /// assert_eq!((mesh.offset, moved.offset), (320, 0));
    /// space.free(mesh);
    /// # Ok::<(), AllocError>(())
    /// ```
    #[track_caller]
    pub fn relocate(&mut self, allocation: Allocation<T::Index>) -> Option<Allocation<T::Index>> {
        assert!(self.is_live(allocation), "the handle must be live: {:?}", { allocation });
        self.relocate_to(allocation, 1)
    }

    /// As [`relocate`](Self::relocate), and the second range begins at a multiple of `align`, from 1 on: for a range that
    /// was granted so, since it is aligned again where it goes.
    ///
    /// The block is the one that [`allocate_aligned`](Self::allocate_aligned) takes for these units and this alignment, of at least
    /// `size + align - 1` units: where all ranges have one alignment, make that the unit, and call `relocate`.
    /// `None` is returned where that would refuse them, or where the block begins after the range; then the space is as
    /// it was. The handle has to be live, and only its name counts. With `align` 1 the call is `relocate`. It
    /// makes at most 67 accesses to the tables, and takes no memory.
    ///
    /// # Panics
    ///
    /// It panics unless the handle is live, and the alignment is at least 1.
    ///
    /// ```
    /// # use offset_allocator_proved::*;
    /// # let alloc = Global;
    /// let mut space = Allocator::<u32>::new(alloc, 1000)?;
    /// space.allocate(10);
    /// let hole = space.allocate(320).unwrap();
    /// let mesh = space.allocate(64).unwrap();
    /// space.free(hole);
    /// let moved = space.relocate_aligned(mesh, 256).unwrap();
    /// assert_eq!((mesh.offset, moved.offset), (330, 256));
    /// space.free(mesh);
    /// # Ok::<(), AllocError>(())
    /// ```
    #[track_caller]
    pub fn relocate_aligned(
        &mut self,
        allocation: Allocation<T::Index>,
        align: u32,
    ) -> Option<Allocation<T::Index>> {
        assert!(self.is_live(allocation), "the handle must be live: {:?}", { allocation });
        assert!(1 <= align, "the alignment must be at least 1");
        self.relocate_to(allocation, align)
    }

    // A second range from a multiple of `align` on, in a block before the range. With `align` 1, which is a
    // constant where this is inlined into `relocate`, there is no padding.
    #[inline(always)]
    fn relocate_to(
        &mut self,
        allocation: Allocation<T::Index>,
        align: u32,
    ) -> Option<Allocation<T::Index>> {
        let name = allocation.name();
        let size = self.store.tables.size(name, &mut self.store.accesses);
        let old = self.store.tables.offset(name, &mut self.store.accesses);
        if size > u32::MAX - (align - 1) {
            return None;
        }
        let begins = self.block_begin(size + (align - 1))?;
        if begins < old {
            self.serve(size, align)
        } else {
            None
        }
    }
}
