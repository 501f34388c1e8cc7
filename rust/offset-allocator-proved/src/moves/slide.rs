// Printed by rust/erase from crates/offset_allocator/src/moves/slide.rt: change it there.

//! Slides live ranges to the front by whole steps, of a run of blocks or of the space: each keeps what its offset
//! leaves of a step, and with it its alignment. By steps of one unit the free blocks on the way keep nothing, and
//! are one block after the ranges. It changes the chain by `gap`, and the bins of the free blocks that it passes,
//! where they are in bins.

use crate::index::{NodeIndex, linked};
use crate::moves::gap::Gap;
use crate::moves::{gap, one_move};
use crate::small_float::uint_to_float_round_down;
use crate::store::{Store, ensure_spare};
use crate::tables::Tables;
use crate::{Move, bins, chain};

// Calls the closure with the move of a block, where it gets another offset.
fn report<NI: NodeIndex, F: FnMut(Move<NI>)>(
    moved: &mut F,
    name: u32,
    from: u32,
    to: u32,
    size: u32,
) {
    if from == to {
        return;
    }
    moved(one_move::Move::make(NI::from_u32(name).to_name(), from, to, size));
}

/// What a free block of `size` units keeps, which has the block after it that a link names: what whole steps
/// leave of it, and nothing at the end.
pub(crate) fn kept(size: u32, step: u32, after: Option<u32>) -> u32 {
    match after {
        None => 0,
        Some(_) => size % step,
    }
}

// The block after `next`, which `after` names, of blocks up to `end`: that has none.
fn within(next: u32, end: Option<u32>, after: Option<u32>) -> Option<u32> {
    match end {
        None => after,
        Some(end) => { if next == end { None } else { after } }
    }
}

// Removes a free block from its bin, where free blocks are in bins.
#[inline(always)]
fn take_out<T: Tables>(store: &mut Store<T>, name: u32, size: u32, filed: bool) {
    if filed {
        bins::remove(store, name, size);
    }
}

// Slides the used blocks after a free block of `size` units to its front by whole steps, up to the block `end`,
// or all of them. The free block comes last, with the units that those on the way give up; the blocks after
// `end` stay. Where the blocks are filed, each free one on the way leaves its bin, and what it keeps becomes the
// newest block of the bin for its new size. Where they are in no bin, the step is 1, and the bins stay. Callers
// pass constants, so that the loop is compiled for each closure; inlined, it would have fewer registers.
#[inline(never)]
pub(crate) fn to_front<T: Tables, F: FnMut(Move<T::Index>)>(
    store: &mut Store<T>,
    name: u32,
    size: u32,
    end: Option<u32>,
    step: u32,
    filed: bool,
    moved: &mut F,
) -> Gap<T::Index> {
    let mut gap = gap::open(&store.tables, name, size, &mut store.accesses);
    let mut after = store.tables.after(name, &mut store.accesses);
    let mut at = linked(after);
    while let Some(next) = at {
        let more = store.tables.size(next, &mut store.accesses);
        after = store.tables.after(next, &mut store.accesses);
        at = within(next, end, linked(after));
        if chain::is_used(&store.tables, next, &mut store.accesses) {
            report(moved, next, gap.offset + gap.size, gap.offset, more);
            gap::pass(store, &mut gap, next, more);
        } else {
            take_out(store, next, more, filed);
            let keep = kept(more, step, at);
            if keep == 0 {
                gap::gather(store, &mut gap, next, more);
            } else {
                gap::pass_part(store, &mut gap, next, more, keep);
                bins::push(store, next, uint_to_float_round_down(keep));
            }
        }
    }
    gap::close(store, gap, after);
    gap
}

// Slides the used blocks of a run, from the block `first` to the block `end`, to its front by whole steps. What
// its free blocks give up is one free block at its end, the newest of its bin.
pub(crate) fn slide_run<T: Tables, F: FnMut(Move<T::Index>)>(
    store: &mut Store<T>,
    first: u32,
    end: u32,
    step: u32,
    moved: &mut F,
) {
    ensure_spare(
        &mut store.tables,
        &mut store.spare_count,
        &mut store.accesses,
    );
    let name = chain::split_before(store, first, 0);
    let hole = to_front(store, name, 0, Some(end), step, true, moved);
    bins::push(store, hole.name, uint_to_float_round_down(hole.size));
}
