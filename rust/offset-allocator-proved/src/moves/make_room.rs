// Printed by rust/erase from crates/offset_allocator/src/moves/make_room.rt: change it there.

//! Makes room for a request: slides the live ranges of a run of blocks to its front, so that its free units
//! are one block after them. It changes the chain by `gap`, and the bins of the blocks of the run.

use crate::moves::room::RoomCost;
use crate::moves::runs::{cheapest, cheapest_by};
use crate::moves::slide::{slide_run, to_front};
use crate::small_float::{float_to_uint, uint_to_float_round_down, uint_to_float_round_up};
use crate::tables::Tables;
use crate::{AllocatorOf, Move, bins};

impl<T: Tables> AllocatorOf<T> {
    /// Makes room for a request of `size` units by ranges that move, **and keep no alignment**: [`make_room_by`](Self::make_room_by) keeps
    /// those that divide its step. It moves as few as possible, and none where none has to move: it slides the live ranges of a run of blocks to its front, so that its free units are one block
    /// after them, which is large enough. The run is one that costs what `room_cost(size)` returns, which
    /// this returns too: ask that first where a budget has to be kept. `moved` is called for each range that
    /// moves, in space order, as by [`compact`](Self::compact): the units from `from` on are to be copied to `to`.
    ///
    /// Every handle stays live, with its name and its size; only the public `offset` of a moved one is that
    /// of before, and [`allocation_offset`](Self::allocation_offset) returns the new one. Nothing
    /// changes, and `moved` is not called, where no range has to move: where `None` is returned, since all
    /// free units together are not enough, and where the cost has no ranges, since one free block is large
    /// enough. Else the request is granted afterwards, also at the node limit. For an aligned request ask
    /// with `size + align - 1`: it is granted where the limit admits two blocks more. Of several runs that
    /// cost as much it is the last in space, and its free block keeps the name of its first one. If `moved`
    /// panics, the allocator must not be used any more: drop it. It makes at most 6 accesses to the tables for
    /// each block, 40 for each range that moves, and 20, and takes no memory.
    ///
    /// ```
    /// # use offset_allocator_proved::*;
    /// # let alloc = Global;
    /// let mut space = Allocator::<u32>::new(alloc, 1000)?;
    /// let hole = space.allocate(300).unwrap();
    /// space.allocate(100);
    /// space.free(hole);
    /// assert!(space.allocate(800).is_none());
    /// let cost = space.make_room(800, |it| assert_eq!((it.from, it.to, it.size), (300, 0, 100)));
    /// assert_eq!(cost, Some(RoomCost { units: 100, ranges: 1 }));
    /// assert!(space.allocate(800).is_some());
    /// # Ok::<(), AllocError>(())
    /// ```
    pub fn make_room<F: FnMut(Move<T::Index>)>(
        &mut self,
        size: u32,
        mut moved: F,
    ) -> Option<RoomCost> {
        let class = uint_to_float_round_up(size);
        let found = bins::find_at_or_above(
            &self.store.tables,
            self.store.top_mask,
            class,
            &mut self.store.accesses,
        );
        if found.is_some() {
            return Some(RoomCost {
                units: 0,
                ranges: 0,
            });
        }
        // where no block is free, or the class of all free units in one block is too small
        if size == 0 || uint_to_float_round_down(self.free_total) < class {
            return None;
        }
        let run = cheapest(
            &self.store.tables,
            self.store.last,
            float_to_uint(class),
            &mut self.store.accesses,
        )?;
        if run.cost.ranges == 0 {
            return Some(run.cost);
        }
        let first = self.store.tables.size(run.first, &mut self.store.accesses);
        bins::remove(&mut self.store, run.first, first);
        let hole = to_front(
            &mut self.store,
            run.first,
            first,
            Some(run.end),
            1,
            true,
            &mut moved,
        );
        let class = uint_to_float_round_down(hole.size);
        bins::push(&mut self.store, hole.name, class);
        Some(run.cost)
    }

    /// As [`make_room`](Self::make_room), by whole steps: makes room for `allocate_aligned(size, align)` where ranges have to move
    /// for it, and then as few units as possible. For [`allocate`](Self::allocate) ask with `align` 1. The live ranges of a run of blocks
    /// slide to its front as by [`compact_by`](Self::compact_by), each by a multiple of `step` units, so that it keeps its alignment
    /// where that divides `step`; what the free blocks of the run give up is one free block at its end, which is
    /// large enough. The run is one that costs what `room_cost_by(size, align, step)` returns, which this returns
    /// too: ask that first where a budget has to be kept. `moved` is called for each range that gets another
    /// offset, in space order, as by [`compact`](Self::compact).
    ///
    /// Wherever a cost is returned, the request is granted afterwards, also at the node limit: there the run has
    /// free blocks that are used up, and the request takes their nodes. Every handle stays live, with its name
    /// and its size; only the public `offset` of a moved one is that of before, and [`allocation_offset`](Self::allocation_offset) returns
    /// the new one. Nothing changes, and `moved` is not called, where `None` is returned, since no run of
    /// blocks gives up enough units and nodes by such steps, and where the cost has no ranges, since the request
    /// is granted as it is. Of several runs that cost as much it is the last in space.
    /// At the node limit a cost may count ranges of the run that stay, since the free blocks before them have no
    /// units. If `moved` panics, the allocator must not be used any more: drop it.
    ///
    /// The step and `align` have to be at least 1. It makes at most 7 accesses to the tables for
    /// each block, 36 for each range of the run, and 60, and takes no memory.
    ///
    /// # Panics
    ///
    /// It panics unless the alignment is at least 1, and the step is at least 1.
    ///
    /// ```
    /// # use offset_allocator_proved::*;
    /// # let alloc = Global;
    /// let mut space = Allocator::<u32>::new(alloc, 1000)?;
    /// let hole = space.allocate(300).unwrap();
    /// space.allocate_aligned(100, 4);
    /// space.free(hole);
    /// assert!(space.allocate_aligned(800, 4).is_none());
    /// // 18 steps: the first 12 units stay free
    /// let cost = space.make_room_by(800, 4, 16, |it| assert_eq!((it.from, it.to, it.size), (300, 12, 100)));
    /// assert_eq!(cost, Some(RoomCost { units: 100, ranges: 1 }));
    /// assert!(space.allocate_aligned(800, 4).is_some());
    /// # Ok::<(), AllocError>(())
    /// ```
    #[track_caller]
    pub fn make_room_by<F: FnMut(Move<T::Index>)>(
        &mut self,
        size: u32,
        align: u32,
        step: u32,
        mut moved: F,
    ) -> Option<RoomCost> {
        assert!(1 <= align, "the alignment must be at least 1");
        assert!(1 <= step, "the step must be at least 1");
        if size > u32::MAX - (align - 1) {
            return None;
        }
        let blocks = align.min(2);
        let unused = self.unused_nodes();
        let class = uint_to_float_round_up(size + (align - 1));
        let found = bins::find_at_or_above(
            &self.store.tables,
            self.store.top_mask,
            class,
            &mut self.store.accesses,
        );
        if unused > blocks && found.is_some() {
            return Some(RoomCost {
                units: 0,
                ranges: 0,
            });
        }
        // where the class of all free units in one block is too small
        if uint_to_float_round_down(self.free_total) < class {
            return None;
        }
        let short = (blocks + 2).saturating_sub(unused);
        let run = cheapest_by(
            &self.store.tables,
            self.store.last,
            step,
            float_to_uint(class),
            short,
            &mut self.store.accesses,
        )?;
        if run.cost.ranges == 0 {
            return Some(run.cost);
        }
        slide_run(&mut self.store, run.first, run.end, step, &mut moved);
        Some(run.cost)
    }
}
