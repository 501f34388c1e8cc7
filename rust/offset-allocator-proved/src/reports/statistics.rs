// Printed by rust/erase from crates/offset_allocator/src/reports/statistics.rt: change it there.

//! What is live and what is free, exactly, at the node limit too. It reads the tables, and changes nothing.

use crate::accesses::Accesses;
use crate::index::{NodeIndex, number};
use crate::reports::storage_report_full_counted;
use crate::small_float::float_to_uint;
use crate::tables::Tables;
use crate::{AllocatorOf, bins, chain};

/// What is live and what is free, exactly.
///
/// It differs from a report where `max_allocs - 1` blocks exist: there a report has 0 and 0, since nothing is
/// granted.
#[derive(Clone, Copy, PartialEq, Debug)]
pub struct Statistics {
    /// The number of live ranges, those of no units too.
    pub live_ranges: u32,
    /// The units of all live ranges together.
    pub live_units: u32,
    /// The number of free blocks.
    pub free_blocks: u32,
    /// The units of all free blocks together.
    pub free_units: u32,
    /// The units of the largest free block, or 0 where no block is free.
    pub largest_free_block: u32,
    /// The value of the class of that block: with room for one more block, a request of at least one unit is
    /// granted exactly when it is at most this. `allocate_tight` grants up to `largest_free_block`.
    pub largest_free_region: u32,
    /// The nodes that no block has, made or not: `max_allocs` less the number of blocks. A block is added
    /// only while there are at least 2.
    pub unused_nodes: u32,
}

// The units of the largest block of a class, or 0 where its bin is empty.
fn largest_of_class<T: Tables>(tables: &T, class: u32, count: &mut Accesses) -> u32 {
    let mut largest = 0;
    let mut name = tables.head(class, count);
    while name != T::Index::MAX {
        largest = largest.max(tables.size(name, count));
        name = number(tables.older(name, count));
    }
    largest
}

/// As `Allocator::is_empty`. The count grows by at most 8.
pub fn is_empty_counted<T: Tables>(allocator: &AllocatorOf<T>, count: &mut Accesses) -> bool {
    allocator.block_count() == 1
        && !chain::is_used(&allocator.store.tables, allocator.store.last, count)
}

// How many blocks are free.
fn free_blocks<T: Tables>(allocator: &AllocatorOf<T>, count: &mut Accesses) -> u32 {
    let report = storage_report_full_counted(allocator, count);
    let mut blocks = 0;
    for class in 0..256usize {
        blocks += report.free_regions[class].count;
    }
    blocks
}

// The units of the largest free block, and the value of its class, or 0 and 0 where no block is free.
fn largest_free<T: Tables>(allocator: &AllocatorOf<T>, count: &mut Accesses) -> (u32, u32) {
    let tables = &allocator.store.tables;
    match bins::largest(tables, allocator.store.top_mask, count) {
        None => (0, 0),
        Some(class) => (largest_of_class(tables, class, count), float_to_uint(class)),
    }
}

/// The `largest_free_region` of `Allocator::statistics`, alone. The count grows by at most 8.
pub fn largest_region_counted<T: Tables>(allocator: &AllocatorOf<T>, count: &mut Accesses) -> u32 {
    match bins::largest(&allocator.store.tables, allocator.store.top_mask, count) {
        None => 0,
        Some(class) => float_to_uint(class),
    }
}

/// As `Allocator::statistics`. The count grows by at most 520, and 4 for each free block.
pub fn statistics_counted<T: Tables>(allocator: &AllocatorOf<T>, count: &mut Accesses) -> Statistics {
    let free_blocks = free_blocks(allocator, count);
    let (largest_free_block, largest_free_region) = largest_free(allocator, count);
    Statistics {
        live_ranges: allocator.block_count() - free_blocks,
        live_units: allocator.live_units(),
        free_blocks,
        free_units: allocator.free_units(),
        largest_free_block,
        largest_free_region,
        unused_nodes: allocator.unused_nodes(),
    }
}

impl<T: Tables> AllocatorOf<T> {
    /// The units of all free blocks together, at the node limit too, where a report has 0. It makes no access
    /// to the tables.
    ///
    /// ```
    /// # use offset_allocator_proved::*;
    /// # let alloc = Global;
    /// let mut space = Allocator::<u32>::new(alloc, 1000)?;
    /// space.allocate(300);
    /// assert_eq!(space.free_units(), 700);
    /// # Ok::<(), AllocError>(())
    /// ```
    pub fn free_units(&self) -> u32 {
        self.free_total
    }

    /// The units of all live ranges together. With [`free_units`](Self::free_units) they add up to [`size`](Self::size). It makes no access to
    /// the tables.
    ///
    /// ```
    /// # use offset_allocator_proved::*;
    /// # let alloc = Global;
    /// let mut space = Allocator::<u32>::new(alloc, 1000)?;
    /// space.allocate(300);
    /// assert_eq!(space.live_units(), 300);
    /// # Ok::<(), AllocError>(())
    /// ```
    pub fn live_units(&self) -> u32 {
        self.size - self.free_total
    }

    /// Whether no range is live, not even one of no units. It is right at every node limit, and makes at most
    /// 8 accesses to the tables.
    ///
    /// ```
    /// # use offset_allocator_proved::*;
    /// # let alloc = Global;
    /// let mut space = Allocator::<u32>::new(alloc, 1000)?;
    /// let nothing = space.allocate(0).unwrap();
    /// assert!(!space.is_empty());
    /// space.free(nothing);
    /// assert!(space.is_empty());
    /// # Ok::<(), AllocError>(())
    /// ```
    pub fn is_empty(&self) -> bool {
        is_empty_counted(self, &mut Accesses::new())
    }

    /// What is live and what is free, exactly, at the node limit too. It makes at most 520 accesses to the
    /// tables, and 4 for each free block.
    ///
    /// ```
    /// # use offset_allocator_proved::*;
    /// # let alloc = Global;
    /// let mut space = Allocator::<u32>::new(alloc, 1000)?;
    /// space.allocate(300);
    /// let statistics = space.statistics();
    /// assert_eq!((statistics.live_ranges, statistics.largest_free_block), (1, 700));
    /// # Ok::<(), AllocError>(())
    /// ```
    pub fn statistics(&self) -> Statistics {
        statistics_counted(self, &mut Accesses::new())
    }
}
