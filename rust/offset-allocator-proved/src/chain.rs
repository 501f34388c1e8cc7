// Printed by rust/erase from crates/offset_allocator/src/chain.rt: change it there.

//! The blocks of the space, linked in space order, and the stack of unused names. It touches these alone, but
//! that `set_used` writes the link to a newer node, which says of a node in no bin whether its block is used.

use crate::accesses::Accesses;
use crate::index::{link_to, linked, no_link, number};
use crate::store::Store;
use crate::tables::Tables;

/// Makes the whole space one free block, under the name of the only node.
pub(crate) fn start<T: Tables>(tables: &mut T, size: u32, max_allocs: u32, count: &mut Accesses) {
    tables.set_block(0, 0, size, no_link(), no_link(), count);
}

/// The node that a link names, if any.
#[inline(always)]
pub(crate) fn named<T: Tables>(tables: &T, link: T::Index) -> Option<u32> {
    let name = number(link);
    if tables.has(name) { Some(name) } else { None }
}

/// Whether a block is used.
pub(crate) fn is_used<T: Tables>(tables: &T, name: u32, count: &mut Accesses) -> bool {
    tables.used(name, count)
}

/// Whether any given name is that of a used block. It counts one access for a name that no node has, too.
pub(crate) fn is_live<T: Tables>(tables: &T, name: u32, count: &mut Accesses) -> bool {
    if tables.has(name) {
        is_used(tables, name, count)
    } else {
        count.tick();
        false
    }
}

/// The name of the block directly before a block, if there is one.
pub(crate) fn before<T: Tables>(tables: &T, name: u32, count: &mut Accesses) -> Option<u32> {
    linked(tables.before(name, count))
}

/// The name of the block directly after a block, if there is one.
pub(crate) fn after<T: Tables>(tables: &T, name: u32, count: &mut Accesses) -> Option<u32> {
    linked(tables.after(name, count))
}

// Makes `name` the block before the one that `link` names; where that names none, `name` becomes the last block.
pub(crate) fn point_back<T: Tables>(
    tables: &mut T,
    last: &mut u32,
    link: T::Index,
    name: u32,
    count: &mut Accesses,
) {
    match named(tables, link) {
        Some(after) => {
            let back = tables.link_to(name);
            tables.set_before(after, back, count)
        }
        None => *last = name,
    }
}

// Makes `name` the block after the one that `link` names, if any.
pub(crate) fn point_on<T: Tables>(tables: &mut T, link: T::Index, name: u32, count: &mut Accesses) {
    if let Some(before) = named(tables, link) {
        let on = tables.link_to(name);
        tables.set_after(before, on, count);
    }
}

/// Splits a block, which has this offset and `whole` units, after `size` units. The remainder becomes a free
/// block directly after it, under the name that is returned. The caller has read the offset and the units.
pub(crate) fn split<T: Tables>(
    store: &mut Store<T>,
    name: u32,
    offset: u32,
    whole: u32,
    size: u32,
) -> u32 {
    let tables = &mut store.tables;
    let count = &mut store.accesses;
    store.spare_count -= 1;
    let rest = number(tables.spare(store.spare_count, count));
    let next = tables.after(name, count);
    let back = tables.link_to(name);
    let on = tables.link_to(rest);
    tables.set_block(rest, offset + size, whole - size, back, next, count);
    tables.set_end(name, size, on, count);
    point_back(tables, &mut store.last, next, rest, count);
    rest
}

/// Coalesces the free block `following` into the block directly before it; `whole` is the size of both. The
/// name `following` is unused again.
pub(crate) fn coalesce_after<T: Tables>(store: &mut Store<T>, name: u32, following: u32, whole: u32) {
    let tables = &mut store.tables;
    let count = &mut store.accesses;
    let next = tables.after(following, count);
    tables.set_end(name, whole, next, count);
    point_back(tables, &mut store.last, next, name, count);
    tables.set_spare(store.spare_count, link_to(following), count);
    store.spare_count += 1;
}

/// Coalesces the free block `previous` into the block directly after it; `whole` is the size of both. The
/// name `previous` is unused again.
pub(crate) fn coalesce_before<T: Tables>(store: &mut Store<T>, previous: u32, name: u32, whole: u32) {
    let tables = &mut store.tables;
    let count = &mut store.accesses;
    let offset = tables.offset(previous, count);
    let link = tables.before(previous, count);
    tables.set_start(name, offset, whole, link, count);
    point_on(tables, link, name, count);
    tables.set_spare(store.spare_count, link_to(previous), count);
    store.spare_count += 1;
}

/// Makes a block, which is in no bin, used or free.
pub(crate) fn set_used<T: Tables>(tables: &mut T, name: u32, used: bool, count: &mut Accesses) {
    tables.set_used(name, used, count);
}

/// Splits the first `cut` units off a block. They become a free block directly before it, under the name that
/// is returned.
pub(crate) fn split_before<T: Tables>(store: &mut Store<T>, name: u32, cut: u32) -> u32 {
    let tables = &mut store.tables;
    let count = &mut store.accesses;
    store.spare_count -= 1;
    let front = number(tables.spare(store.spare_count, count));
    let offset = tables.offset(name, count);
    let size = tables.size(name, count);
    let link = tables.before(name, count);
    let on = tables.link_to(name);
    let back = tables.link_to(front);
    tables.set_block(front, offset, cut, link, on, count);
    tables.set_start(name, offset + cut, size - cut, back, count);
    point_on(tables, link, front, count);
    front
}

/// Adds units to the last block.
pub(crate) fn grow<T: Tables>(tables: &mut T, last: u32, more: u32, count: &mut Accesses) {
    let size = tables.size(last, count);
    tables.set_size(last, size + more, count);
}

/// Leaves the last block fewer units.
pub(crate) fn trim<T: Tables>(tables: &mut T, last: u32, size: u32, count: &mut Accesses) {
    tables.set_size(last, size, count);
}

/// Takes the last block, which is free, off the end; `previous` is the last one then.
pub(crate) fn drop_end<T: Tables>(store: &mut Store<T>, previous: u32, size: u32) {
    let end = store.last;
    let kept = store.tables.size(previous, &mut store.accesses);
    coalesce_after(store, previous, end, kept + size);
    trim(&mut store.tables, previous, kept, &mut store.accesses);
}
