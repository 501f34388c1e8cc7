// Printed by rust/erase from crates/offset_allocator/src/moves/gap.rt: change it there.

//! A free block that is out of the chain while the blocks after it slide to the front of its units, whole or
//! in part, and the units of the others go into it: so each node is written once. It touches the chain, and
//! leaves the bins as they are.

use crate::accesses::Accesses;
use crate::chain::{point_back, point_on};
use crate::index::{NodeIndex, link_to};
use crate::store::Store;
use crate::tables::Tables;

/// The free block: its units are between those of the blocks before and after it.
#[derive(Clone, Copy)]
pub(crate) struct Gap<NI: NodeIndex> {
    pub(crate) name: u32,
    pub(crate) offset: u32,
    pub(crate) size: u32,
    // the link to the block before it
    pub(crate) before: NI,
}

/// Takes a free block out of the chain: nothing is written.
pub(crate) fn open<T: Tables>(
    tables: &T,
    name: u32,
    size: u32,
    count: &mut Accesses,
) -> Gap<T::Index> {
    Gap {
        name,
        offset: tables.offset(name, count),
        size,
        before: tables.before(name, count),
    }
}

/// Slides the first `keep` of the `more` units of the block `next`, which is directly after the gap, to its
/// front; the others go into the gap.
#[inline(always)]
pub(crate) fn pass_part<T: Tables>(
    store: &mut Store<T>,
    gap: &mut Gap<T::Index>,
    next: u32,
    more: u32,
    keep: u32,
) {
    store
        .tables
        .set_start(next, gap.offset, keep, gap.before, &mut store.accesses);
    point_on(&mut store.tables, gap.before, next, &mut store.accesses);
    gap.before = store.tables.link_to(next);
    gap.offset += keep;
    gap.size += more - keep;
}

/// Slides the block `next` of `more` units, which is directly after the gap, to its front.
pub(crate) fn pass<T: Tables>(store: &mut Store<T>, gap: &mut Gap<T::Index>, next: u32, more: u32) {
    pass_part(store, gap, next, more, more);
}

/// Coalesces the free block `next` of `more` units, which is directly after the gap and in no bin, with it.
pub(crate) fn gather<T: Tables>(store: &mut Store<T>, gap: &mut Gap<T::Index>, next: u32, more: u32) {
    store
        .tables
        .set_spare(store.spare_count, link_to(next), &mut store.accesses);
    store.spare_count += 1;
    gap.size += more;
}

/// Puts the free block back into the chain, before the one that the link `after` names.
pub(crate) fn close<T: Tables>(store: &mut Store<T>, gap: Gap<T::Index>, after: T::Index) {
    store.tables.set_block(
        gap.name,
        gap.offset,
        gap.size,
        gap.before,
        after,
        &mut store.accesses,
    );
    point_on(&mut store.tables, gap.before, gap.name, &mut store.accesses);
    point_back(
        &mut store.tables,
        &mut store.last,
        after,
        gap.name,
        &mut store.accesses,
    );
}
