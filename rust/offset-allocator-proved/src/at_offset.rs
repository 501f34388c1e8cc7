// Printed by rust/erase from crates/offset_allocator/src/at_offset.rt: change it there.

//! Requests at an offset that the caller names, and what is there. It walks the blocks back from the last one,
//! then grants of one block, by `neighbours` and `bins`.

use crate::accesses::Accesses;
use crate::handle::Allocation;
use crate::neighbours::Parts;
use crate::reports::blocks::next_block_counted;
use crate::steps::handle_of;
use crate::tables::Tables;
use crate::{AllocatorOf, bins, chain, neighbours};

// The name of the last free block that begins at an offset or before it, if there is one.
fn last_free_to<T: Tables>(tables: &T, last: u32, offset: u32, count: &mut Accesses) -> Option<u32> {
    let mut at = Some(last);
    while let Some(name) = at {
        if !chain::is_used(tables, name, count) {
            if tables.offset(name, count) <= offset {
                return Some(name);
            }
        }
        at = chain::before(tables, name, count);
    }
    None
}

// Whether a block of `size` units from `begin` on has one of the `units` from an offset on, or lies among them.
fn is_in_the_way(offset: u32, units: u32, begin: u32, size: u32) -> bool {
    (begin as u64) < offset as u64 + units as u64 && (offset as u64) < begin as u64 + size as u64
}

// The parts of a block of `whole` units where `size` of them are taken after the first `padding`, if it has
// them.
fn parts_of(padding: u32, size: u32, whole: u32) -> Option<Parts> {
    let left = whole.checked_sub(padding)?;
    let remainder = left.checked_sub(size)?;
    Some(Parts {
        padding,
        size,
        remainder,
    })
}

impl<T: Tables> AllocatorOf<T> {
    // Grants a part of the newest block of a class, which begins at `start`.
    fn grant_part(&mut self, class: u32, start: u32, parts: Parts) -> Allocation<T::Index> {
        let name = bins::pop(&mut self.store, class);
        neighbours::divide(&mut self.store, name, start, parts);
        self.free_total -= parts.size;
        handle_of(start, name)
    }

    // Grants the units from an offset on of the last free block that begins there or before, where it holds
    // them and there is room.
    fn fill_at(&mut self, name: u32, offset: u32, size: u32) -> Option<Allocation<T::Index>> {
        let begin = self.store.tables.offset(name, &mut self.store.accesses);
        let whole = self.store.tables.size(name, &mut self.store.accesses);
        let parts = match parts_of(offset - begin, size, whole) {
            None => return None,
            Some(parts) => parts,
        };
        let more = (parts.padding.min(1) + parts.remainder.min(1)).max(1);
        if !self.admits_blocks(more) {
            return None;
        }
        let class = self.bring_first(name);
        Some(self.grant_part(class, offset, parts))
    }

    /// Grants the `size` units that begin at `offset`, where one free block holds them all, and returns their
    /// handle: for addresses that were captured, or that are reserved. The units of that block before the
    /// range and after it stay free, each the newest of its bin; where both are of one class, those after it
    /// are the newer ones. A range of no units is taken of the last free block that begins at `offset` or
    /// before.
    ///
    /// `None` is returned where no free block holds them, or where there is no room for the blocks that are
    /// added: one for the units before the range, one for those after it, and at least one. Then the space is
    /// as it was. Where live ranges are in the way, [`in_the_way`](Self::in_the_way) returns the last of them; there is none where
    /// the units end after the space, or where there is only no room for blocks. Which block it is is found by
    /// a walk back from the end of the space: it makes at most 80 accesses to the tables, and 3 for each
    /// block, and takes no memory.
    ///
    /// ```
    /// # use offset_allocator_proved::*;
    /// # let alloc = Global;
    /// let mut space = Allocator::<u32>::new(alloc, 1000)?;
    /// let prefix = space.allocate_at(0, 16).unwrap();
    /// let captured = space.allocate_at(512, 256).unwrap();
    /// assert_eq!(captured.offset, 512);
    /// assert!(space.allocate_at(700, 100).is_none());
    /// space.free(prefix);
    /// # Ok::<(), AllocError>(())
    /// ```
    pub fn allocate_at(&mut self, offset: u32, size: u32) -> Option<Allocation<T::Index>> {
        match last_free_to(
            &self.store.tables,
            self.store.last,
            offset,
            &mut self.store.accesses,
        ) {
            None => None,
            Some(name) => self.fill_at(name, offset, size),
        }
    }

    /// Whether one free block holds the `size` units that begin at `offset`: so [`allocate_at`](Self::allocate_at) grants them,
    /// with room for the blocks that it adds. It walks back from the end of the space, and makes at most 3
    /// accesses to the tables for each block, and 2.
    ///
    /// ```
    /// # use offset_allocator_proved::*;
    /// # let alloc = Global;
    /// let mut space = Allocator::<u32>::new(alloc, 1000)?;
    /// space.allocate(300);
    /// assert!(space.is_free_at(300, 700));
    /// assert!(!space.is_free_at(299, 1));
    /// # Ok::<(), AllocError>(())
    /// ```
    pub fn is_free_at(&self, offset: u32, size: u32) -> bool {
        is_free_at_counted(self, offset, size, &mut Accesses::new())
    }

    /// The handle of the live range that has the unit at `offset`, or `None` where that unit is free or not
    /// in the space. So a range can be freed by a place in it. It walks back from the end of the space, and
    /// makes at most 5 accesses to the tables for each block, and 5.
    ///
    /// ```
    /// # use offset_allocator_proved::*;
    /// # let alloc = Global;
    /// let mut space = Allocator::<u32>::new(alloc, 1000)?;
    /// let mesh = space.allocate(300).unwrap();
    /// assert_eq!(space.live_at(299), Some(mesh));
    /// assert_eq!(space.live_at(300), None);
    /// # Ok::<(), AllocError>(())
    /// ```
    pub fn live_at(&self, offset: u32) -> Option<Allocation<T::Index>> {
        in_the_way_counted(self, offset, 1, &mut Accesses::new())
    }

    /// The handle of the last live range that is in the way of the `size` units that begin at `offset`: it
    /// has one of them, or lies among them, as a range of no units may; for a `size` of 0, a range that has
    /// units on both sides of `offset`. `None` where there is none. It walks
    /// back from the end of the space, and makes at most 5 accesses to the tables for each block, and 5.
    ///
    /// ```
    /// # use offset_allocator_proved::*;
    /// # let alloc = Global;
    /// let mut space = Allocator::<u32>::new(alloc, 1000)?;
    /// let mesh = space.allocate(300).unwrap();
    /// assert_eq!(space.in_the_way(200, 500), Some(mesh));
    /// assert_eq!(space.in_the_way(300, 500), None);
    /// # Ok::<(), AllocError>(())
    /// ```
    pub fn in_the_way(&self, offset: u32, size: u32) -> Option<Allocation<T::Index>> {
        in_the_way_counted(self, offset, size, &mut Accesses::new())
    }
}

/// As `Allocator::is_free_at`. The count grows by at most 3 for each block, and 2.
pub fn is_free_at_counted<T: Tables>(
    allocator: &AllocatorOf<T>,
    offset: u32,
    size: u32,
    count: &mut Accesses,
) -> bool {
    let tables = &allocator.store.tables;
    match last_free_to(tables, allocator.store.last, offset, count) {
        None => false,
        Some(name) => {
            let begin = tables.offset(name, count);
            let whole = tables.size(name, count);
            parts_of(offset - begin, size, whole).is_some()
        }
    }
}

/// As `Allocator::in_the_way`. The count grows by at most 5 for each block, and 5.
pub fn in_the_way_counted<T: Tables>(
    allocator: &AllocatorOf<T>,
    offset: u32,
    size: u32,
    count: &mut Accesses,
) -> Option<Allocation<T::Index>> {
    let mut blocks = allocator.blocks();
    while let Some(block) = next_block_counted(&mut blocks, count) {
        if block.allocation.is_some() && is_in_the_way(offset, size, block.offset, block.size) {
            return block.allocation;
        }
    }
    None
}
