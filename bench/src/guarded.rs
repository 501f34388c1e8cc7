//! Ours as plain Rust, with tickets in place of handles.
use crate::traces::REFUSED;
use crate::player::{exported, Space};
use offset_allocator_guarded::{Global, Guarded, NodeIndex, Ticket};

impl<NI: NodeIndex> Space for Guarded<NI> {
    type Slot = Option<Ticket>;
    const EMPTY: Option<Ticket> = None;

    #[inline(always)]
    fn make(size: u32, max_allocs: u32) -> Self {
        Guarded::with_realm(Global, size, max_allocs, 1).unwrap()
    }

    #[inline(always)]
    fn request(&mut self, slot: &mut Option<Ticket>, size: u32) -> u64 {
        match self.allocate(size) {
            None => REFUSED,
            Some(ticket) => {
                *slot = Some(ticket);
                ticket.offset.into()
            }
        }
    }

    #[inline(always)]
    fn release(&mut self, slot: &mut Option<Ticket>) -> bool {
        match *slot {
            None => false,
            Some(ticket) => {
                *slot = None;
                assert!(self.free(ticket));
                true
            }
        }
    }

    #[inline(always)]
    fn clear(&mut self) {
        self.reset();
    }

    #[inline(always)]
    fn free_units(&self) -> u64 {
        self.allocator().storage_report().total_free_space.into()
    }
}

exported! { guarded_play_32 guarded_make_32 Guarded<u32> }
exported! { guarded_play_16 guarded_make_16 Guarded<u16> }

#[cfg(not(feature = "other-sites"))]
mod second {
    use super::Guarded;
    crate::player::second_site! { guarded_elsewhere_32 Guarded<u32> }
    crate::player::second_site! { guarded_elsewhere_16 Guarded<u16> }
}
