// Printed by rust/erase from crates/offset_allocator/src/moves/compact.rt: change it there.

//! Slides every live range to the front of the space: plainly, so that all free units are one block at its end, and
//! the bins are made anew; or by whole steps, as a pass of `over_frames` that no budget ends.

use crate::accesses::Accesses;
use crate::moves::slide::to_front;
use crate::small_float::uint_to_float_round_down;
use crate::tables::Tables;
use crate::{AllocatorOf, Move, bins, chain};

// The most bins that are looked into for a free block near the start of the space.
const MOST_BINS: u32 = 32;

// A block to begin the search for the first free one at, which is this one or before it: of the newest blocks
// of the first bins that have some, the first in space, or the last block of the space where none is free.
fn search_start<T: Tables>(tables: &T, top_mask: u32, last: u32, count: &mut Accesses) -> u32 {
    let masks = bins::masks(tables, count);
    let mut start = last;
    // above each offset
    let mut lowest = u64::MAX;
    let mut class = 0;
    for _ in 0..MOST_BINS {
        if class > 255 {
            return start;
        }
        let Some(found) = bins::find_in_masks(&masks, top_mask, class) else {
            return start;
        };
        let name = tables.head(found, count);
        let offset = tables.offset(name, count) as u64;
        if offset < lowest {
            lowest = offset;
            start = name;
        }
        class = found + 1;
    }
    start
}

// The name of the first free block, if there is one. It is found by a walk back from `start`, since the first
// block of the space is not known.
fn first_free<T: Tables>(tables: &T, last: u32, start: u32, count: &mut Accesses) -> Option<u32> {
    let mut first = None;
    let mut at = Some(start);
    while let Some(name) = at {
        if !chain::is_used(tables, name, count) {
            first = Some(name);
        }
        at = chain::before(tables, name, count);
    }
    first
}

impl<T: Tables> AllocatorOf<T> {
    /// Slides every live range to the front of the space, **where it keeps no alignment**: [`compact_by`](Self::compact_by) keeps those
    /// that divide its step. The ranges keep their order, and all free units are one block behind them. `moved` is
    /// called for each range that gets another offset, in space order: the units from `from` on are to be copied to
    /// `to`, as `copy_within` does. In this order no copy writes on a unit that a later one reads.
    ///
    /// Every handle stays live, with its name and its size; only the public `offset` of a moved one is that
    /// of before, and [`allocation_offset`](Self::allocation_offset) returns the new one. The free block at the end has the name of the first
    /// one that there was. `moved` has to be callable with any move: its contract may require nothing of it but what every
    /// move is, to a smaller offset and within the offsets that there are. If `moved` panics, the allocator must
    /// not be used any more: drop it. It makes at most 10 accesses to the tables for each block, and 384, and
    /// takes no memory.
    ///
    /// ```
    /// # use offset_allocator_proved::*;
    /// # let alloc = Global;
    /// let mut space = Allocator::<u32>::new(alloc, 1000)?;
    /// let hole = space.allocate(300).unwrap();
    /// let mesh = space.allocate(100).unwrap();
    /// space.free(hole);
    /// space.compact(|it| assert_eq!((it.from, it.to, it.size), (300, 0, 100)));
    /// assert_eq!(space.allocation_offset(mesh), Some(0));
    /// # Ok::<(), AllocError>(())
    /// ```
    pub fn compact<F: FnMut(Move<T::Index>)>(&mut self, mut moved: F) {
        let start = search_start(
            &self.store.tables,
            self.store.top_mask,
            self.store.last,
            &mut self.store.accesses,
        );
        let Some(first) = first_free(
            &self.store.tables,
            self.store.last,
            start,
            &mut self.store.accesses,
        ) else {
            return;
        };
        let size = self.store.tables.size(first, &mut self.store.accesses);
        bins::empty(&mut self.store);
        let hole = to_front(&mut self.store, first, size, None, 1, false, &mut moved);
        let class = uint_to_float_round_down(hole.size);
        bins::push(&mut self.store, hole.name, class);
    }

    /// As [`compact`](Self::compact), by whole steps: each live range moves to the front by a multiple of `step` units, by as
    /// many as the free blocks before it have, and so keeps its alignment where that divides `step`. An
    /// engine passes the least common multiple of the alignments that it uses. What whole steps leave of a
    /// free block stays a free block, and all that the others give up is one free block at the end of the
    /// space. `moved` is called for each range that gets another offset, in space order, as by `compact`.
    ///
    /// Every handle stays live, with its name and its size; only the public `offset` of a moved one is that
    /// of before, and [`allocation_offset`](Self::allocation_offset) returns the new one. Nothing changes where no free block before
    /// another block has a whole step. `false` is returned, and nothing changes, where there is such a block
    /// but the free block at the end would need a node that there is not: the node limit admits no further
    /// block, and none of the free ones from that one on is used up, which would give its node back, as one of
    /// whole steps is, and a last one. So where the step is 1 it is never refused, as `compact` is not. If
    /// `moved` panics, the allocator must not be used any more: drop it.
    ///
    /// The step has to be at least 1. It makes at most 21 accesses to the tables for each block, and 40, and
    /// takes no memory.
    ///
    /// # Panics
    ///
    /// It panics unless the step is at least 1.
    ///
    /// ```
    /// # use offset_allocator_proved::*;
    /// # let alloc = Global;
    /// let mut space = Allocator::<u32>::new(alloc, 1000)?;
    /// let hole = space.allocate(300).unwrap();
    /// let mesh = space.allocate_aligned(256, 256).unwrap();
    /// space.free(hole);
    /// assert!(space.compact_by(256, |it| assert_eq!((it.from, it.to, it.size), (512, 0, 256))));
    /// assert_eq!(space.allocation_offset(mesh), Some(0));
    /// # Ok::<(), AllocError>(())
    /// ```
    #[track_caller]
    pub fn compact_by<F: FnMut(Move<T::Index>)>(&mut self, step: u32, mut moved: F) -> bool {
        assert!(1 <= step, "the step must be at least 1");
        self.compact_within(step, 0, u32::MAX, u32::MAX, &mut moved)
            .is_some()
    }
}
