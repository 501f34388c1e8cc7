// Printed by rust/erase from crates/offset_heaps/src/foretell.rt: change it there.

//! Why a request would be refused now, without asking. It changes nothing.

use crate::HeapsOf;
use crate::allocate::below;
use crate::index::LARGER_KEY;
use crate::refusal::Refusal;
use offset_allocator::{Accesses, Tables};

/// As `refusal_aligned` of [`Heaps`](crate::Heaps). The count grows by some for each bit of the numbers.
///
/// # Panics
///
/// It panics unless the alignment is at least 1.
#[track_caller]
pub fn refusal_aligned_counted<T: Tables>(
    heaps: &HeapsOf<T>,
    size: u32,
    align: u32,
    count: &mut Accesses,
) -> Option<Refusal> {
    assert!(1 <= align, "the alignment must be at least 1");
    if size == 0 {
        return Some(Refusal::Empty);
    }
    let units = size as u64 + align as u64 - 1;
    if heaps.index.first_fit(units, align, count).is_some() {
        return None;
    }
    heaps.why_none(size, count)
}

impl<T: Tables> HeapsOf<T> {
    // Full, where there is no spare number, or no realm is left.
    fn why_not_made(&self, spare: Option<u32>) -> Option<Refusal> {
        match spare {
            None => Some(Refusal::Full),
            Some(_) => {
                if self.made == u32::MAX {
                    return Some(Refusal::Full);
                }
                None
            }
        }
    }

    // Why no heap is made for a request that none has room for.
    pub(crate) fn why_none(&self, size: u32, count: &mut Accesses) -> Option<Refusal> {
        if self.is_usual(size) {
            let found = self.index.spare.first_at_least(size as u64, count);
            return self.why_not_made(below(found, self.limits.most));
        }
        // what is read recalls that sizes have 32 bits
        let limits = self.limits;
        if limits.most_larger == 0 {
            return Some(Refusal::TooLarge);
        }
        let found = self.index.spare.first_at_least(LARGER_KEY as u64, count);
        self.why_not_made(found)
    }

    /// Why `allocate(size)` would be refused now, or `None` where it would be granted, if memory for another
    /// heap or for more nodes is given: what `refusal_aligned(size, 1)` returns.
    ///
    /// ```
    /// # use offset_allocator_heaps::*;
    /// # let alloc = Global;
    /// let limits = Limits { size: 1000, first_size: 1000, max_allocs: 100, first_allocs: 8, most: 2, most_larger: 1 };
    /// let mut heaps = Heaps::<u32>::new(alloc, limits)?;
    /// assert_eq!(heaps.refusal(300), None);
    /// assert_eq!(heaps.refusal(0), Some(Refusal::Empty));
    /// # Ok::<(), AllocError>(())
    /// ```
    pub fn refusal(&self, size: u32) -> Option<Refusal> {
        self.refusal_aligned(size, 1)
    }

    /// Why `allocate_aligned(size, align)` would be refused now, or `None` where it would be granted: a heap has
    /// room for it, or another may be made for it, whose memory alone may be refused. It is never [`Memory`](crate::Refusal::Memory).
    /// See the law `refusals_are_foretold` of the proved sources.
    ///
    /// It takes some steps for each bit of the numbers, and touches no heap.
    ///
    /// # Panics
    ///
    /// It panics unless the alignment is at least 1.
    ///
    /// ```
    /// # use offset_allocator_heaps::*;
    /// # let alloc = Global;
    /// let limits = Limits { size: 1000, first_size: 1000, max_allocs: 100, first_allocs: 8, most: 2, most_larger: 1 };
    /// let mut heaps = Heaps::<u32>::new(alloc, limits)?;
    /// assert_eq!(heaps.refusal_aligned(900, 256), None);
    /// # Ok::<(), AllocError>(())
    /// ```
    #[track_caller]
    pub fn refusal_aligned(&self, size: u32, align: u32) -> Option<Refusal> {
        assert!(1 <= align, "the alignment must be at least 1");
        refusal_aligned_counted(self, size, align, &mut Accesses::new())
    }
}
