// Printed by rust/erase from crates/offset_allocator/src/moves/compact_cost.rt: change it there.

//! What a compaction by whole steps would copy, and what would be granted after it. It reads the tables, and changes
//! nothing.

use crate::accesses::Accesses;
use crate::index::linked;
use crate::moves::over_frames::first_from;
use crate::moves::slide::kept;
use crate::reports::statistics::largest_region_counted;
use crate::small_float::{float_to_uint, uint_to_float_round_down};
use crate::tables::Tables;
use crate::{AllocatorOf, chain};

/// What a compaction by whole steps would copy, and what would be granted after it.
#[derive(Clone, Copy, PartialEq, Debug)]
pub struct CompactCost {
    /// The units of the ranges that would move.
    pub units: u32,
    /// How many ranges would move, those of no units too.
    pub ranges: u32,
    /// The largest request that would be granted then, where the node limit admits one block more.
    pub largest: u32,
}

// Neighbouring blocks that would slide: the units of their ranges, and how many these are, the units that the free ones
// give up, and whether one of these gives up all.
#[derive(Clone, Copy)]
struct Totals {
    units: u32,
    ranges: u32,
    given: u32,
    empties: bool,
}

impl Totals {
    // With one more block, which keeps so many units where it is free.
    fn and(self, size: u32, used: bool, keep: u32) -> Self {
        if used {
            Totals {
                units: self.units + size,
                ranges: self.ranges + 1,
                ..self
            }
        } else {
            Totals {
                given: self.given + (size - keep),
                empties: self.empties || keep == 0,
                ..self
            }
        }
    }
}

// These of the blocks from the one of a name on, to the end of the space.
fn sums_from<T: Tables>(tables: &T, first: u32, step: u32, count: &mut Accesses) -> Totals {
    let mut sums = Totals {
        units: 0,
        ranges: 0,
        given: 0,
        empties: false,
    };
    let mut at = Some(first);
    while let Some(name) = at {
        let size = tables.size(name, count);
        let used = chain::is_used(tables, name, count);
        at = linked(tables.after(name, count));
        sums = sums.and(size, used, kept(size, step, at));
    }
    sums
}

/// As `compact_cost_by` of [`Allocator`](crate::Allocator). The count grows by at most 7 for each block, and 8.
///
/// # Panics
///
/// It panics unless the step is at least 1.
#[track_caller]
pub fn compact_cost_by_counted<T: Tables>(
    allocator: &AllocatorOf<T>,
    step: u32,
    count: &mut Accesses,
) -> Option<CompactCost> {
    assert!(1 <= step, "the step must be at least 1");
    let tables = &allocator.store.tables;
    let Some(first) = first_from(tables, allocator.store.last, step, 0, count) else {
        return Some(CompactCost {
            units: 0,
            ranges: 0,
            largest: largest_region_counted(allocator, count),
        });
    };
    let sums = sums_from(tables, first, step, count);
    if !allocator.admits_blocks(1) && !sums.empties {
        return None;
    }
    Some(CompactCost {
        units: sums.units,
        ranges: sums.ranges,
        largest: float_to_uint(uint_to_float_round_down(sums.given)),
    })
}

impl<T: Tables> AllocatorOf<T> {
    /// What `compact_by(step, ..)` would copy now, and what would be granted after it, without moving anything: the
    /// units and the number of the ranges that would move, and the largest request. `None` is returned exactly where
    /// [`compact_by`](Self::compact_by) would return `false`. Ask it first where copies have a budget, or where one request has to be granted.
    ///
    /// The step has to be at least 1. It makes at most 7 accesses to the tables for each block, and 8.
    ///
    /// # Panics
    ///
    /// It panics unless the step is at least 1.
    ///
    /// ```
    /// # use offset_allocator_proved::*;
    /// # let alloc = Global;
    /// let mut space = Allocator::<u32>::new(alloc, 1000)?;
    /// let hole = space.allocate(300).unwrap();
    /// space.allocate(100);
    /// space.free(hole);
    /// assert_eq!(space.compact_cost_by(1), Some(CompactCost { units: 100, ranges: 1, largest: 896 }));
    /// assert!(space.compact_by(1, |_| {}));
    /// assert!(space.refusal(896).is_none() && space.refusal(897).is_some());
    /// # Ok::<(), AllocError>(())
    /// ```
    #[track_caller]
    pub fn compact_cost_by(&self, step: u32) -> Option<CompactCost> {
        assert!(1 <= step, "the step must be at least 1");
        compact_cost_by_counted(self, step, &mut Accesses::new())
    }
}
