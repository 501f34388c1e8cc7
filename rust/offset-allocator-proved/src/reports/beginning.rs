// Printed by rust/erase from crates/offset_allocator/src/reports/beginning.rt: change it there.

//! Where a request would begin, if it were made now. It reads the tables, and changes nothing.

use crate::accesses::Accesses;
use crate::small_float::uint_to_float_round_up;
use crate::tables::Tables;
use crate::{AllocatorOf, bins};

/// As `Allocator::would_begin`. The count grows by at most 4.
///
/// # Panics
///
/// It panics unless the alignment is at least 1.
#[track_caller]
pub fn would_begin_counted<T: Tables>(
    allocator: &AllocatorOf<T>,
    size: u32,
    align: u32,
    count: &mut Accesses,
) -> Option<u32> {
    assert!(1 <= align, "the alignment must be at least 1");
    let tables = &allocator.store.tables;
    if allocator.unused_nodes() <= align.min(2) {
        return None;
    }
    if size > u32::MAX - (align - 1) {
        return None;
    }
    let smallest = uint_to_float_round_up(size + (align - 1));
    let class = bins::find_at_or_above(tables, allocator.store.top_mask, smallest, count)?;
    let name = tables.head(class, count);
    let offset = tables.offset(name, count);
    Some(offset + (align - offset % align) % align)
}

impl<T: Tables> AllocatorOf<T> {
    /// Where the range would begin that `allocate_aligned(size, align)` would grant now, in units from the
    /// start of the space, or `None` where it would refuse. `align` is at least 1, and 1 asks for
    /// [`allocate`](Self::allocate). Nothing is taken; this request, made next, begins there. It makes at most 4 accesses to the
    /// tables.
    ///
    /// # Panics
    ///
    /// It panics unless the alignment is at least 1.
    ///
    /// ```
    /// # use offset_allocator_proved::*;
    /// # let alloc = Global;
    /// let mut space = Allocator::<u32>::new(alloc, 1000)?;
    /// space.allocate(300);
    /// assert_eq!(space.would_begin(100, 1), Some(300));
    /// assert_eq!(space.would_begin(100, 256), Some(512));
    /// assert_eq!(space.would_begin(700, 256), None);
    /// assert_eq!(space.allocate_aligned(100, 256).unwrap().offset, 512);
    /// # Ok::<(), AllocError>(())
    /// ```
    #[track_caller]
    pub fn would_begin(&self, size: u32, align: u32) -> Option<u32> {
        assert!(1 <= align, "the alignment must be at least 1");
        would_begin_counted(self, size, align, &mut Accesses::new())
    }
}
