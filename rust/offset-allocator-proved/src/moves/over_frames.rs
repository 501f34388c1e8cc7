// Printed by rust/erase from crates/offset_allocator/src/moves/over_frames.rt: change it there.

//! A compaction by whole steps that goes on from an offset, and stops within a budget, so that it can be done
//! over several frames. It changes what `compact_by` changes, for a run of blocks.

use crate::accesses::Accesses;
use crate::index::linked;
use crate::moves::slide::slide_run;
use crate::tables::Tables;
use crate::{AllocatorOf, Move, chain};

/// How far a call of `compact_within` came.
#[derive(Clone, Copy, PartialEq, Debug)]
pub struct Progress {
    /// The units of the ranges that moved.
    pub units: u32,
    /// How many ranges moved, those of no units too.
    pub ranges: u32,
    /// Where the next call goes on, or `None` where this one came to the end of the space.
    pub next: Option<u32>,
}

// The last block of a run, whether it is used, and how far it comes.
#[derive(Clone, Copy)]
struct Reach {
    end: u32,
    end_used: bool,
    // whether the node limit admits a free block after it, or one before the last block is used up
    follows: bool,
    progress: Progress,
}

// Whether a block of `size` units is free and has at least `step` of them.
fn has_step<T: Tables>(tables: &T, name: u32, size: u32, step: u32, count: &mut Accesses) -> bool {
    if chain::is_used(tables, name, count) {
        return false;
    }
    size >= step
}

// Whether there is a node already, or a free block of `size` units before another one is used up.
fn is_freed(freed: bool, size: u32, step: u32) -> bool {
    freed || size % step == 0
}

// The same of a free block by its name.
fn is_freed_by<T: Tables>(
    tables: &T,
    freed: bool,
    name: u32,
    step: u32,
    count: &mut Accesses,
) -> bool {
    freed || tables.size(name, count) % step == 0
}

/// The name of the first free block of at least `step` units that ends at the offset `from` or behind it and has
/// a block after it, if there is one. The walk goes back from the last block, as far as `from`.
pub(crate) fn first_from<T: Tables>(
    tables: &T,
    last: u32,
    step: u32,
    from: u32,
    count: &mut Accesses,
) -> Option<u32> {
    let mut first = None;
    let mut at = chain::before(tables, last, count);
    while let Some(name) = at {
        let size = tables.size(name, count);
        let end = tables.offset(name, count) + size;
        if end < from {
            return first;
        }
        if has_step(tables, name, size, step, count) {
            first = Some(name);
        }
        at = chain::before(tables, name, count);
    }
    first
}

// Whether one range more is beyond a budget: the first one never is.
fn is_beyond(moved: Progress, size: u32, most_units: u32, most_ranges: u32) -> bool {
    moved.ranges > 0
        && (moved.units as u64 + size as u64 > most_units as u64 || moved.ranges >= most_ranges)
}

// Whether a free block can follow a run: one that ends in a free block has a node for it.
fn can_follow(reach: Reach) -> bool {
    !reach.end_used || reach.follows
}

// The run from the free block `first` on, as far as a budget goes.
#[inline(always)]
fn run_from<T: Tables>(
    tables: &T,
    first: u32,
    step: u32,
    admits: bool,
    most_units: u32,
    most_ranges: u32,
    count: &mut Accesses,
) -> Reach {
    let mut reach = Reach {
        end: first,
        end_used: false,
        follows: is_freed_by(tables, admits, first, step, count),
        progress: Progress {
            units: 0,
            ranges: 0,
            next: None,
        },
    };
    let mut at = linked(tables.after(first, count));
    while let Some(name) = at {
        let size = tables.size(name, count);
        let used = chain::is_used(tables, name, count);
        if used {
            if is_beyond(reach.progress, size, most_units, most_ranges) {
                reach.progress.next = Some(tables.offset(name, count));
                return reach;
            }
            reach.progress.units += size;
            reach.progress.ranges += 1;
        } else {
            reach.follows = is_freed(reach.follows, size, step);
        }
        reach.end = name;
        reach.end_used = used;
        at = linked(tables.after(name, count));
    }
    reach
}

impl<T: Tables> AllocatorOf<T> {
    /// As [`compact_by`](Self::compact_by), for a part of the space: moves the live ranges behind the first free block of at least a
    /// step that ends at the offset `from` or later, in space order, until the next one would take more than
    /// `most_units` units, or more than `most_ranges` ranges, in all. The first one moves in any case, so that
    /// each call comes further. So a compaction can be done over several frames: begin at 0, and go on from
    /// where `next` of the result says, whatever was granted and freed between the calls; free blocks that end
    /// before `from` wait for the next pass. All that the free blocks give up is one free block behind the last
    /// range that moved.
    ///
    /// The result says how many units and ranges moved, each by at least a step, and `next`. That is the same
    /// offset again where a range of no units began there, and `None` where the end of the space was reached: a
    /// pass is done, and the next one begins at 0. Where nothing has to move, these are 0, 0 and `None`. `None`
    /// is returned, and nothing changes, where the free block behind the last range that would move needs a node
    /// that there is not, as by `compact_by`: the node limit admits no further block, and no free block of the
    /// run is used up. With a larger budget one may be; where the step is 1 it is never refused. `moved`, handles
    /// and alignments are as of `compact_by`. If `moved` panics, the allocator must not be used any more: drop it.
    ///
    /// The step has to be at least 1. It walks from the last block back to `from`, also where nothing moves: it
    /// makes at most 4 accesses to the tables for each block, 42 for each range that the budget allows, and 60,
    /// and never more than 21 for each block, and 40. It takes no memory.
    ///
    /// # Panics
    ///
    /// It panics unless the step is at least 1.
    ///
    /// ```
    /// # use offset_allocator_proved::*;
    /// # let alloc = Global;
    /// let mut space = Allocator::<u32>::new(alloc, 1000)?;
    /// let hole = space.allocate(300).unwrap();
    /// let mesh = space.allocate(100).unwrap();
    /// space.allocate(100);
    /// space.free(hole);
    /// let progress = space.compact_within(1, 0, 150, 8, |_| {}).unwrap();
    /// assert_eq!(progress, Progress { units: 100, ranges: 1, next: Some(400) });
    /// assert_eq!(space.allocation_offset(mesh), Some(0));
    /// let progress = space.compact_within(1, 400, 150, 8, |_| {}).unwrap();
    /// assert_eq!(progress, Progress { units: 100, ranges: 1, next: None });
    /// # Ok::<(), AllocError>(())
    /// ```
    #[track_caller]
    pub fn compact_within<F: FnMut(Move<T::Index>)>(
        &mut self,
        step: u32,
        from: u32,
        most_units: u32,
        most_ranges: u32,
        mut moved: F,
    ) -> Option<Progress> {
        assert!(1 <= step, "the step must be at least 1");
        let last = self.store.last;
        let Some(first) = first_from(
            &self.store.tables,
            last,
            step,
            from,
            &mut self.store.accesses,
        ) else {
            return Some(Progress {
                units: 0,
                ranges: 0,
                next: None,
            });
        };
        let admits = self.admits_blocks(1);
        let reach = run_from(
            &self.store.tables,
            first,
            step,
            admits,
            most_units,
            most_ranges,
            &mut self.store.accesses,
        );
        if !can_follow(reach) {
            return None;
        }
        slide_run(&mut self.store, first, reach.end, step, &mut moved);
        Some(reach.progress)
    }
}
