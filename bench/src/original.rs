//! The original.
use crate::traces::REFUSED;
use crate::player::{exported, Space};
use offset_allocator::{Allocation, Allocator, NodeIndex};

impl<NI: NodeIndex + Into<u64>> Space for Allocator<NI> {
    type Slot = Option<Allocation<NI>>;
    const EMPTY: Self::Slot = None;

    #[inline(always)]
    fn make(size: u32, max_allocs: u32) -> Self {
        Allocator::with_max_allocs(size, max_allocs)
    }

    #[inline(always)]
    fn request(&mut self, slot: &mut Self::Slot, size: u32) -> u64 {
        match self.allocate(size) {
            None => REFUSED,
            Some(range) => {
                *slot = Some(range);
                // its offset has the index type
                range.offset.into()
            }
        }
    }

    #[inline(always)]
    fn release(&mut self, slot: &mut Self::Slot) -> bool {
        match *slot {
            None => false,
            Some(range) => {
                *slot = None;
                self.free(range);
                true
            }
        }
    }

    #[inline(always)]
    fn clear(&mut self) {
        self.reset();
    }

    #[inline(always)]
    fn free_units(&self) -> u64 {
        self.storage_report().total_free_space.into()
    }
}

exported! { original_play_32 original_make_32 Allocator<u32> }
exported! { original_play_16 original_make_16 Allocator<u16> }

/// In the tables the original has one call site of each function.
#[cfg(feature = "other-sites")]
mod second {
    use super::Allocator;
    crate::player::second_site! { original_elsewhere_32 Allocator<u32> }
    crate::player::second_site! { original_elsewhere_16 Allocator<u16> }
}
