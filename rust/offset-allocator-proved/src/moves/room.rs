// Printed by rust/erase from crates/offset_allocator/src/moves/room.rt: change it there.

//! What has to move at least to make room for a request, where the ranges of some neighbouring blocks slide
//! together. It reads the tables, and changes nothing.

use crate::accesses::Accesses;
use crate::moves::runs::cheapest;
use crate::small_float::{float_to_uint, uint_to_float_round_down, uint_to_float_round_up};
use crate::tables::Tables;
use crate::{AllocatorOf, bins};

/// What has to move at least, so that a request finds its block.
#[derive(Clone, Copy, PartialEq, Debug)]
pub struct RoomCost {
    /// The units of the ranges that move.
    pub units: u32,
    /// How many ranges move, those of no units too.
    pub ranges: u32,
}

/// As `Allocator::room_cost`. The count grows by at most 6 for each block, and 2.
pub fn room_cost_counted<T: Tables>(
    allocator: &AllocatorOf<T>,
    size: u32,
    count: &mut Accesses,
) -> Option<RoomCost> {
    let tables = &allocator.store.tables;
    let class = uint_to_float_round_up(size);
    if bins::find_at_or_above(tables, allocator.store.top_mask, class, count).is_some() {
        return Some(RoomCost {
            units: 0,
            ranges: 0,
        });
    }
    // where no block is free, or the class of all free units in one block is too small
    if size == 0 || uint_to_float_round_down(allocator.free_total) < class {
        return None;
    }
    let run = cheapest(tables, allocator.store.last, float_to_uint(class), count)?;
    Some(run.cost)
}

impl<T: Tables> AllocatorOf<T> {
    /// What has to move at least so that `allocate(size)` finds its block: the units and the number of the
    /// ranges in some run of blocks, from one free block to another. Slid to the front of the run, they leave
    /// after them one free block that is large enough. Of all such runs it is one whose ranges have the
    /// fewest units, and of these one that has the fewest ranges.
    ///
    /// `None` is returned where all free units together are not enough: [`refusal`](Self::refusal) says [`TooLarge`](crate::Refusal::TooLarge) or [`Space`](crate::Refusal::Space)
    /// then. Both numbers are 0 where one free block is large enough: nothing has to move then, though the
    /// request is refused at the node limit. For an aligned request ask with `size + align - 1`. It makes at
    /// most 6 accesses to the tables for each block, and 2.
    ///
    /// ```
    /// # use offset_allocator_proved::*;
    /// # let alloc = Global;
    /// let mut space = Allocator::<u32>::new(alloc, 1000)?;
    /// let hole = space.allocate(300).unwrap();
    /// space.allocate(100);
    /// space.free(hole);
    /// assert_eq!(space.room_cost(800), Some(RoomCost { units: 100, ranges: 1 }));
    /// assert_eq!(space.room_cost(1000), None);
    /// # Ok::<(), AllocError>(())
    /// ```
    pub fn room_cost(&self, size: u32) -> Option<RoomCost> {
        room_cost_counted(self, size, &mut Accesses::new())
    }
}
