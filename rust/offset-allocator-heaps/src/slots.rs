// Printed by rust/erase from crates/offset_heaps/src/slots.rt: change it there.

//! The heaps by their numbers: no other module finds one. Each function counts the slots that it touches or lends.

use crate::heap::{
    alignment_in, compact_numbered_in, free_in, grant_in, grant_tight_aligned_in, holds,
    is_empty_heap, is_fuller, must_raise, raise_in, reset_in, room_at, units_for,
};
use crate::limits::Limits;
use offset_allocator::{Accesses, Move, Tables};
use offset_guarded::{GuardedOf, Ticket};
use crate::memory::Vec;
use crate::memory::{AllocError, Global};

/// The heap of each number, where there is one.
pub(crate) struct Slots<T: Tables> {
    heaps: Vec<Option<GuardedOf<T>>>,
}

// The heap of a slot that has one, to be changed.
fn heap_in<H>(slot: &mut Option<H>) -> &mut H {
    match slot {
        Some(heap) => heap,
        None => unreachable!(),
    }
}

// The emptiest heap so far, and its live units, with those of one more heap.
fn with_live(found: Option<(u32, u32)>, number: u32, live: Option<u32>) -> Option<(u32, u32)> {
    match (found, live) {
        (_, None) => found,
        (None, Some(units)) => Some((number, units)),
        (Some((_, fewest)), Some(units)) => {
            if units <= fewest {
                Some((number, units))
            } else {
                found
            }
        }
    }
}

impl<T: Tables> Slots<T> {
    /// Memory for `count` numbers, none of which has a heap.
    pub(crate) fn with_room(alloc: Global, count: u32) -> Result<Self, AllocError> {
        let mut heaps = Vec::with_capacity(alloc, count as usize)?;
        for _number in 0..count {
            heaps.push(None)?;
        }
        Ok(Slots { heaps })
    }

    /// The heap of a number.
    pub(crate) fn at(&self, number: u32, count: &mut Accesses) -> Option<&GuardedOf<T>> {
        count.tick();
        match self.heaps.get(number as usize) {
            Some(Some(heap)) => Some(heap),
            _ => None,
        }
    }

    /// The heap of a number that has one, to be changed.
    pub(crate) fn heap_mut(&mut self, number: u32, count: &mut Accesses) -> &mut GuardedOf<T> {
        count.tick();
        heap_in(&mut self.heaps[number as usize])
    }

    /// Whether a number has a heap.
    pub(crate) fn has(&self, number: u32, count: &mut Accesses) -> bool {
        match self.at(number, count) {
            Some(_) => true,
            None => false,
        }
    }

    /// Puts a heap at a number, or none.
    pub(crate) fn put(&mut self, number: u32, heap: Option<GuardedOf<T>>, count: &mut Accesses) {
        count.tick();
        self.heaps[number as usize] = heap;
    }

    /// Doubles the node limit of the heap of a number, where it has to be raised for a grant that may add `blocks`
    /// blocks.
    pub(crate) fn raise(
        &mut self,
        alloc: Global,
        number: u32,
        limits: Limits,
        blocks: u32,
        count: &mut Accesses,
    ) -> Result<(), AllocError> {
        count.tick();
        raise_in(
            alloc,
            &mut self.heaps[number as usize],
            number,
            limits,
            blocks,
        )
    }

    /// Grants a request in the heap of a number, which has room for it.
    pub(crate) fn grant(
        &mut self,
        number: u32,
        size: u32,
        align: u32,
        count: &mut Accesses,
    ) -> Ticket {
        count.tick();
        grant_in(&mut self.heaps[number as usize], size, align)
    }

    /// Grants a request in the heap of a number, a free block of which holds it.
    pub(crate) fn fill(
        &mut self,
        number: u32,
        size: u32,
        align: u32,
        count: &mut Accesses,
    ) -> Ticket {
        count.tick();
        grant_tight_aligned_in(&mut self.heaps[number as usize], size, align)
    }

    // Whether a free block of the heap of a number holds a request.
    fn holds_at(
        &self,
        number: u32,
        limits: Limits,
        size: u32,
        align: u32,
        count: &mut Accesses,
    ) -> bool {
        match self.at(number, count) {
            None => false,
            Some(heap) => holds(heap, number, limits, size, align),
        }
    }

    /// The first heap, a free block of which holds a request. Where none does, none has room for it.
    pub(crate) fn first_holding(
        &self,
        numbers: u32,
        limits: Limits,
        size: u32,
        align: u32,
        count: &mut Accesses,
    ) -> Option<u32> {
        for number in 0..numbers {
            if self.holds_at(number, limits, size, align, count) {
                return Some(number);
            }
        }
        None
    }

    /// Frees the range of a ticket in the heap of a number, where it is live.
    pub(crate) fn free(&mut self, number: u32, ticket: Ticket, count: &mut Accesses) -> bool {
        count.tick();
        if number as usize >= self.heaps.len() {
            return false;
        }
        free_in(&mut self.heaps[number as usize], ticket)
    }

    /// Slides live ranges of the heap of a number to the front of its space by its step, where there is one, and returns
    /// whether it was done, `true` where there is no heap. It calls the closure with the number too.
    pub(crate) fn compact_numbered<F: FnMut(u32, Move<T::Index>)>(
        &mut self,
        number: u32,
        moved: &mut F,
        count: &mut Accesses,
    ) -> bool {
        count.tick();
        compact_numbered_in(&mut self.heaps[number as usize], number, moved)
    }

    /// Makes the space of the heap of a number one free block again.
    pub(crate) fn reset(&mut self, number: u32, count: &mut Accesses) {
        count.tick();
        reset_in(&mut self.heaps[number as usize]);
    }

    /// The first number, from one on, that has a heap.
    pub(crate) fn heap_from(&self, start: u32, numbers: u32, count: &mut Accesses) -> Option<u32> {
        for number in start..numbers {
            if self.has(number, count) {
                return Some(number);
            }
        }
        None
    }

    /// Whether the heap of a number has no live range.
    pub(crate) fn is_empty_at(&self, number: u32, count: &mut Accesses) -> bool {
        is_empty_heap(self.at(number, count))
    }

    /// The units of the range of a ticket in the heap of a number, where it is live, and the units that are live
    /// there.
    pub(crate) fn units_at(
        &self,
        number: u32,
        ticket: Ticket,
        count: &mut Accesses,
    ) -> Option<(u32, u32)> {
        match self.at(number, count) {
            None => None,
            Some(heap) => match heap.size_of(ticket) {
                None => None,
                Some(size) => Some((size, heap.allocator().live_units())),
            },
        }
    }

    /// The alignment that the range of a ticket has in the heap of a number, as `alignment_in` says.
    pub(crate) fn alignment_at(
        &self,
        number: u32,
        ticket: Ticket,
        count: &mut Accesses,
    ) -> Option<u32> {
        match self.at(number, count) {
            None => None,
            Some(heap) => alignment_in(heap, ticket),
        }
    }

    // Whether the heap of a number takes a range of `size` units of the heap `own`, which has `live` live units.
    fn takes(
        &self,
        number: u32,
        limits: Limits,
        own: u32,
        size: u32,
        align: u32,
        live: u32,
        count: &mut Accesses,
    ) -> bool {
        match self.at(number, count) {
            None => false,
            Some(heap) => {
                let room = room_at(heap, number, limits, align) as u64;
                number != own
                    && room >= units_for(size, align)
                    && is_fuller(size, own, live, number, heap.allocator().live_units())
                    && !must_raise(heap, number, limits, align.min(2))
            }
        }
    }

    /// The first heap, from a number on, that takes a range of `size` units of the heap `own`, which has `live`
    /// live units.
    pub(crate) fn taker(
        &self,
        from: u32,
        numbers: u32,
        limits: Limits,
        own: u32,
        size: u32,
        align: u32,
        live: u32,
        count: &mut Accesses,
    ) -> Option<u32> {
        for number in from..numbers {
            if self.takes(number, limits, own, size, align, live, count) {
                return Some(number);
            }
        }
        None
    }

    // The live units of the heap of a number, or `None` where nothing is live in it.
    fn live_units_at(&self, number: u32, count: &mut Accesses) -> Option<u32> {
        match self.at(number, count) {
            None => None,
            Some(heap) => {
                let space = heap.allocator();
                if space.is_empty() {
                    None
                } else {
                    Some(space.live_units())
                }
            }
        }
    }

    /// The heap with the fewest live units, of the first `numbers` numbers whose heaps have a live range, and the
    /// last such.
    pub(crate) fn emptiest(&self, numbers: u32, count: &mut Accesses) -> Option<u32> {
        let mut found = None;
        for number in 0..numbers {
            let live = self.live_units_at(number, count);
            found = with_live(found, number, live);
        }
        match found {
            None => None,
            Some((number, _)) => Some(number),
        }
    }
}
