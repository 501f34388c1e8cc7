// Printed by rust/erase from crates/offset_allocator/src/reports/walks.rt: change it there.

//! The live ranges beside one another in space. It reads tables, and counts each cell.

use crate::accesses::Accesses;
use crate::handle::Allocation;
use crate::steps::handle_of;
use crate::tables::Tables;
use crate::{AllocatorOf, chain};

// The handle of a block, or of the one before it where it is free: no two neighbours are.
fn live_up_to<T: Tables>(
    tables: &T,
    name: u32,
    count: &mut Accesses,
) -> Option<Allocation<T::Index>> {
    if chain::is_used(tables, name, count) {
        return Some(handle_of(tables.offset(name, count), name));
    }
    let previous = chain::before(tables, name, count)?;
    Some(handle_of(tables.offset(previous, count), previous))
}

// The handle of a block, or of the one after it where it is free.
fn live_from<T: Tables>(tables: &T, name: u32, count: &mut Accesses) -> Option<Allocation<T::Index>> {
    if chain::is_used(tables, name, count) {
        return Some(handle_of(tables.offset(name, count), name));
    }
    let following = chain::after(tables, name, count)?;
    Some(handle_of(tables.offset(following, count), following))
}

// The name of the first used block, if there is one. It is found by a walk back from the last block,
// since the first block of the space is not known.
fn first_used<T: Tables>(tables: &T, last: u32, count: &mut Accesses) -> Option<u32> {
    let mut first = None;
    let mut at = Some(last);
    while let Some(name) = at {
        if chain::is_used(tables, name, count) {
            first = Some(name);
        }
        at = chain::before(tables, name, count);
    }
    first
}

/// As `Allocator::first_live`. The count grows by 2 for each block, and 1 where there is such a range.
pub fn first_live_counted<T: Tables>(
    allocator: &AllocatorOf<T>,
    count: &mut Accesses,
) -> Option<Allocation<T::Index>> {
    let tables = &allocator.store.tables;
    let name = first_used(tables, allocator.store.last, count)?;
    Some(handle_of(tables.offset(name, count), name))
}

/// As `Allocator::last_live`. The count grows by at most 8.
pub fn last_live_counted<T: Tables>(
    allocator: &AllocatorOf<T>,
    count: &mut Accesses,
) -> Option<Allocation<T::Index>> {
    live_up_to(&allocator.store.tables, allocator.store.last, count)
}

/// As `Allocator::live_before`. The count grows by at most 8.
pub fn live_before_counted<T: Tables>(
    allocator: &AllocatorOf<T>,
    allocation: Allocation<T::Index>,
    count: &mut Accesses,
) -> Option<Allocation<T::Index>> {
    let name = allocation.name();
    if !allocator.is_name_live(name, count) {
        return None;
    }
    let previous = chain::before(&allocator.store.tables, name, count)?;
    live_up_to(&allocator.store.tables, previous, count)
}

/// As `Allocator::live_after`. The count grows by at most 8.
pub fn live_after_counted<T: Tables>(
    allocator: &AllocatorOf<T>,
    allocation: Allocation<T::Index>,
    count: &mut Accesses,
) -> Option<Allocation<T::Index>> {
    let name = allocation.name();
    if !allocator.is_name_live(name, count) {
        return None;
    }
    let following = chain::after(&allocator.store.tables, name, count)?;
    live_from(&allocator.store.tables, following, count)
}

impl<T: Tables> AllocatorOf<T> {
    /// The handle of the live range that is the first one in space, or `None` where none is live. It
    /// makes 2 accesses to the tables for each block, and one more: the first block of a space is not
    /// known, so it walks back from the last one. With [`live_after`](Self::live_after) a walk from here meets each live
    /// range once, as one with [`live_before`](Self::live_before) does from [`last_live`](Self::last_live): see
    /// the law `each_live_range_is_met_once` of the proved sources.
    ///
    /// ```
    /// # use offset_allocator_proved::*;
    /// # let alloc = Global;
    /// let mut space = Allocator::<u32>::new(alloc, 1000)?;
    /// let mesh = space.allocate(300);
    /// space.allocate(100);
    /// assert_eq!(space.first_live(), mesh);
    /// # Ok::<(), AllocError>(())
    /// ```
    pub fn first_live(&self) -> Option<Allocation<T::Index>> {
        first_live_counted(self, &mut Accesses::new())
    }

    /// The handle of the live range that is the last one in space, or `None` where none is live. It makes at
    /// most 8 accesses to the tables.
    ///
    /// ```
    /// # use offset_allocator_proved::*;
    /// # let alloc = Global;
    /// let mut space = Allocator::<u32>::new(alloc, 1000)?;
    /// space.allocate(300);
    /// let texture = space.allocate(100);
    /// assert_eq!(space.last_live(), texture);
    /// # Ok::<(), AllocError>(())
    /// ```
    pub fn last_live(&self) -> Option<Allocation<T::Index>> {
        last_live_counted(self, &mut Accesses::new())
    }

    /// The handle of the live range directly before that of a handle, with at most a free block between them.
    /// `None` where there is none, or where the handle is not live, of which only the name counts. It makes
    /// at most 8 accesses to the tables.
    ///
    /// From [`last_live`](Self::last_live) on, this walks all live ranges; they may be freed on the way, after the next one is
    /// asked for.
    ///
    /// ```
    /// # use offset_allocator_proved::*;
    /// # let alloc = Global;
    /// let mut space = Allocator::<u32>::new(alloc, 1000)?;
    /// let mesh = space.allocate(300);
    /// let texture = space.allocate(100).unwrap();
    /// assert_eq!(space.live_before(texture), mesh);
    /// # Ok::<(), AllocError>(())
    /// ```
    pub fn live_before(&self, allocation: Allocation<T::Index>) -> Option<Allocation<T::Index>> {
        live_before_counted(self, allocation, &mut Accesses::new())
    }

    /// The handle of the live range directly after that of a handle, with at most a free block between them.
    /// `None` where there is none, or where the handle is not live, of which only the name counts. It makes
    /// at most 8 accesses to the tables.
    ///
    /// ```
    /// # use offset_allocator_proved::*;
    /// # let alloc = Global;
    /// let mut space = Allocator::<u32>::new(alloc, 1000)?;
    /// let mesh = space.allocate(300).unwrap();
    /// let texture = space.allocate(100);
    /// assert_eq!(space.live_after(mesh), texture);
    /// # Ok::<(), AllocError>(())
    /// ```
    pub fn live_after(&self, allocation: Allocation<T::Index>) -> Option<Allocation<T::Index>> {
        live_after_counted(self, allocation, &mut Accesses::new())
    }
}
