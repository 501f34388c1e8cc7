// Printed by rust/erase from crates/offset_allocator/src/neighbours.rt: change it there.

//! A block and its neighbours: it is coalesced with the free ones, divided or resized, by `chain` and `bins`
//! together; of the tables it reads sizes and offsets itself.

use crate::accesses::Accesses;
use crate::small_float::uint_to_float_round_down;
use crate::store::{Store, ensure_spare};
use crate::tables::Tables;
use crate::{bins, chain};

// The name of a free block directly before a block, if there is one.
#[inline(always)]
fn free_before<T: Tables>(tables: &T, name: u32, count: &mut Accesses) -> Option<u32> {
    let link = tables.before(name, count);
    if let Some(previous) = chain::named(tables, link) {
        if !chain::is_used(tables, previous, count) {
            return Some(previous);
        }
    }
    None
}

/// The name of a free block directly after a block, if there is one.
#[inline(always)]
pub(crate) fn free_after<T: Tables>(tables: &T, name: u32, count: &mut Accesses) -> Option<u32> {
    let link = tables.after(name, count);
    if let Some(following) = chain::named(tables, link) {
        if !chain::is_used(tables, following, count) {
            return Some(following);
        }
    }
    None
}

// Removes the free block directly before a block, if there is one, from its bin, and coalesces it into the
// block. The size of the whole is returned.
#[inline(always)]
fn with_before<T: Tables>(store: &mut Store<T>, name: u32, size: u32) -> u32 {
    if let Some(previous) = free_before(&store.tables, name, &mut store.accesses) {
        let more = store.tables.size(previous, &mut store.accesses);
        let whole = more + size;
        bins::remove(store, previous, more);
        chain::coalesce_before(store, previous, name, whole);
        return whole;
    }
    size
}

// Removes the free block `next` directly after a block, if there is one, from its bin, and coalesces it into
// the block. The size of the whole is returned.
#[inline(always)]
fn with_after<T: Tables>(store: &mut Store<T>, name: u32, size: u32, next: Option<u32>) -> u32 {
    match next {
        None => size,
        Some(following) => {
            let more = store.tables.size(following, &mut store.accesses);
            let whole = size + more;
            bins::remove(store, following, more);
            chain::coalesce_after(store, name, following, whole);
            whole
        }
    }
}

/// Coalesces a block of this size, which is in no bin, with the free blocks beside it, and pushes the whole
/// onto its bin. If the neighbour that is coalesced last is the newest of this bin, the block takes its place
/// there.
#[inline(always)]
pub(crate) fn coalesce<T: Tables>(store: &mut Store<T>, name: u32, size: u32) {
    // `gone` is the neighbour that is coalesced last: it is in its bin until the exchange
    let next = free_after(&store.tables, name, &mut store.accesses);
    let (gone, more, whole) = if let Some(following) = next {
        let size = with_before(store, name, size);
        let more = store.tables.size(following, &mut store.accesses);
        let whole = size + more;
        chain::coalesce_after(store, name, following, whole);
        (following, more, whole)
    } else if let Some(previous) = free_before(&store.tables, name, &mut store.accesses) {
        let more = store.tables.size(previous, &mut store.accesses);
        let whole = more + size;
        chain::coalesce_before(store, previous, name, whole);
        (previous, more, whole)
    } else {
        bins::push(store, name, uint_to_float_round_down(size));
        return;
    };
    bins::exchange(store, gone, more, name, uint_to_float_round_down(whole));
}

// Splits the first units off a block: they become a free block in its bin, under the name that is returned.
// Where there are none, nothing changes, and the name returned is that of the block.
#[inline(always)]
fn split_padding<T: Tables>(store: &mut Store<T>, name: u32, units: u32) -> u32 {
    if units == 0 {
        return name;
    }
    ensure_spare(
        &mut store.tables,
        &mut store.spare_count,
        &mut store.accesses,
    );
    let front = chain::split_before(store, name, units);
    bins::push(store, front, uint_to_float_round_down(units));
    front
}

// Splits a block, of this offset, after `size` units: the units that are left become a free block in its bin,
// under the name that is returned. Where none are left, nothing changes, and the name returned is that of the
// block.
#[inline(always)]
fn split_remainder<T: Tables>(
    store: &mut Store<T>,
    name: u32,
    offset: u32,
    size: u32,
    left: u32,
) -> u32 {
    if left == 0 {
        return name;
    }
    ensure_spare(
        &mut store.tables,
        &mut store.spare_count,
        &mut store.accesses,
    );
    let rest = chain::split(store, name, offset, size + left, size);
    bins::push(store, rest, uint_to_float_round_down(left));
    rest
}

/// The units of a block that is split: of the padding, of the grant, and of the remainder.
#[derive(Clone, Copy)]
pub(crate) struct Parts {
    pub(crate) padding: u32,
    pub(crate) size: u32,
    pub(crate) remainder: u32,
}

/// Splits a block into a free padding, the granted units from `start` on, which are used and keep its name,
/// and a free remainder. The names of the padding and of the remainder are returned, where these have units.
#[inline(always)]
pub(crate) fn divide<T: Tables>(
    store: &mut Store<T>,
    name: u32,
    start: u32,
    parts: Parts,
) -> (u32, u32) {
    let padding_name = split_padding(store, name, parts.padding);
    chain::set_used(&mut store.tables, name, true, &mut store.accesses);
    let remainder_name = split_remainder(store, name, start, parts.size, parts.remainder);
    (padding_name, remainder_name)
}

/// Makes a block of `old_size` units one of `size` units, from the same offset on. What remains of it and of
/// the free block directly after it, whose name is `next`, becomes one free block in its bin, under the name
/// that is returned.
#[inline(always)]
pub(crate) fn resize<T: Tables>(
    store: &mut Store<T>,
    name: u32,
    old_size: u32,
    next: Option<u32>,
    size: u32,
) -> u32 {
    let whole = with_after(store, name, old_size, next);
    let offset = store.tables.offset(name, &mut store.accesses);
    split_remainder(store, name, offset, size, whole - size)
}
