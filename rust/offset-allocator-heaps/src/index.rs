// Printed by rust/erase from crates/offset_heaps/src/index.rt: change it there.

//! Which heaps have room, which are empty, and which numbers have no heap. It touches its own rows alone, and
//! reads one slot.

use crate::heap::{is_empty_heap, rooms};
use crate::limits::{Limits, usual_room};
use crate::marks::Marks;
use crate::maxima::{Maxima, levels_for};
use crate::slots::Slots;
use offset_allocator::{Accesses, Tables};
use offset_guarded::GuardedOf;
use crate::memory::{AllocError, Global};

/// Four keys of each number: the largest requests that its heap grants where it may add one and two blocks,
/// or 0; where it has no heap, the largest request that one made for it would grant; and whether its heap is
/// empty.
pub(crate) struct Index {
    pub(crate) one: Maxima,
    pub(crate) two: Maxima,
    pub(crate) spare: Maxima,
    pub(crate) empty: Marks,
}

/// The key of a number for a larger heap that has none: no heap grants that much.
pub(crate) const LARGER_KEY: u32 = 4294967295;

// The key of a number that has no heap, or 0 where it has one.
fn spare<T: Tables>(heap: Option<&GuardedOf<T>>, number: u32, limits: Limits) -> u32 {
    if heap.is_some() {
        0
    } else if number < limits.most {
        usual_room(limits, number)
    } else if (number as u64) < limits.most as u64 + limits.most_larger as u64 {
        LARGER_KEY
    } else {
        0
    }
}

impl Index {
    /// Keys for `count` numbers, each 0.
    pub(crate) fn with_room(alloc: Global, count: u32) -> Result<Self, AllocError> {
        let (height, places) = levels_for(count);
        Ok(Index {
            one: Maxima::with_height(alloc, height, places)?,
            two: Maxima::with_height(alloc, height, places)?,
            spare: Maxima::with_height(alloc, height, places)?,
            empty: Marks::with_height(alloc, height, places)?,
        })
    }

    /// Notes what the heap of a number is.
    pub(crate) fn note<T: Tables>(
        &mut self,
        slots: &Slots<T>,
        number: u32,
        limits: Limits,
        count: &mut Accesses,
    ) {
        let heap = slots.at(number, count);
        let (one, two) = rooms(heap, number, limits);
        self.one.set(number, one, count);
        self.two.set(number, two, count);
        self.spare.set(number, spare(heap, number, limits), count);
        self.empty.set(number, is_empty_heap(heap), count);
    }

    /// The first number whose heap has room for a request of these units at a multiple of `align`.
    #[inline]
    pub(crate) fn first_fit(&self, units: u64, align: u32, count: &mut Accesses) -> Option<u32> {
        if align == 1 {
            self.one.first_at_least(units, count)
        } else {
            self.two.first_at_least(units, count)
        }
    }
}
