//! Ours as plain Rust.
use crate::traces::REFUSED;
use crate::player::{exported, Space};
use offset_allocator_proved::{Allocation, Allocator, Global, NodeIndex};

impl<NI: NodeIndex> Space for Allocator<NI> {
    type Slot = Option<Allocation<NI>>;
    const EMPTY: Self::Slot = None;

    #[inline(always)]
    fn make(size: u32, max_allocs: u32) -> Self {
        Allocator::with_max_allocs(Global, size, max_allocs).unwrap()
    }

    #[inline(always)]
    fn request(&mut self, slot: &mut Self::Slot, size: u32) -> u64 {
        match self.allocate(size) {
            None => REFUSED,
            Some(range) => {
                *slot = Some(range);
                range.offset.into()
            }
        }
    }

    #[inline(always)]
    fn release(&mut self, slot: &mut Self::Slot) -> bool {
        match *slot {
            None => false,
            Some(range) => {
                *slot = None;
                self.free(range);
                true
            }
        }
    }

    #[inline(always)]
    fn clear(&mut self) {
        self.reset();
    }

    #[inline(always)]
    fn free_units(&self) -> u64 {
        self.storage_report().total_free_space.into()
    }
}

exported! { erased_play_32 erased_make_32 Allocator<u32> }
exported! { erased_play_16 erased_make_16 Allocator<u16> }

#[cfg(not(feature = "other-sites"))]
mod second {
    use super::Allocator;
    crate::player::second_site! { erased_elsewhere_32 Allocator<u32> }
    crate::player::second_site! { erased_elsewhere_16 Allocator<u16> }
}
