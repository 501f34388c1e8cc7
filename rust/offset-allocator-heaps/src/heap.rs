// Printed by rust/erase from crates/offset_heaps/src/heap.rt: change it there.

//! What is asked of one heap, and done in it or in its slot, under the limits of its number. It finds no slot by a number
//! and counts none, and touches no row of the index.

use crate::limits::Limits;
use offset_allocator::laws::unused_nodes;
use offset_allocator::{Accesses, Move, NodeIndex, Tables};
use offset_guarded::{GuardedOf, Ticket};
use crate::memory::{AllocError, Global};

/// Whether a serial is left for one more grant.
pub(crate) fn has_serial_left<T: Tables>(heap: &GuardedOf<T>) -> bool {
    !heap.is_spent()
}

/// One more than the number of blocks that may still be added to the heap of a number, under its largest node
/// limit.
pub(crate) fn nodes_left<T: Tables>(heap: &GuardedOf<T>, number: u32, limits: Limits) -> u32 {
    let space = heap.allocator();
    let own = space.max_allocs();
    let blocks = own - unused_nodes(space);
    let top = if number < limits.most {
        limits.max_allocs
    } else {
        own
    };
    if top < blocks { 0 } else { top - blocks }
}

/// The largest requests that the heap of a number grants where it may add one block, and two, or 0.
pub(crate) fn rooms<T: Tables>(
    heap: Option<&GuardedOf<T>>,
    number: u32,
    limits: Limits,
) -> (u32, u32) {
    let Some(heap) = heap else { return (0, 0) };
    let left = nodes_left(heap, number, limits);
    if !has_serial_left(heap) || left <= 1 {
        return (0, 0);
    }
    let largest = offset_allocator::laws::largest_region_counted(
        heap.allocator(),
        &mut Accesses::new(),
    );
    if left == 2 {
        return (largest, 0);
    }
    (largest, largest)
}

/// The largest request at a multiple of `align` that the heap of a number grants, or 0.
pub(crate) fn room_at<T: Tables>(
    heap: &GuardedOf<T>,
    number: u32,
    limits: Limits,
    align: u32,
) -> u32 {
    let (one, two) = rooms(Some(heap), number, limits);
    if align == 1 { one } else { two }
}

/// Whether there is a heap, and it has no live range.
pub(crate) fn is_empty_heap<T: Tables>(heap: Option<&GuardedOf<T>>) -> bool {
    match heap {
        None => false,
        Some(heap) => heap.allocator().is_empty(),
    }
}

/// Whether the node limit of the heap of a number has to be raised for a call that may add `blocks` blocks.
#[inline]
pub(crate) fn must_raise<T: Tables>(
    heap: &GuardedOf<T>,
    number: u32,
    limits: Limits,
    blocks: u32,
) -> bool {
    let space = heap.allocator();
    number < limits.most && space.max_allocs() < limits.max_allocs && unused_nodes(space) <= blocks
}

// Doubles the node limit of a heap, up to the largest one.
fn double_limit<T: Tables>(
    alloc: Global,
    heap: &mut GuardedOf<T>,
    limits: Limits,
) -> Result<(), AllocError> {
    let limit = heap.allocator().max_allocs();
    let most = limits.max_allocs;
    let twice = if most - limit < limit {
        most
    } else {
        2 * limit
    };
    *heap = heap.raised(alloc, twice)?;
    Ok(())
}

// Doubles the node limit of the heap of a number, where it has to be raised for `blocks` more blocks.
#[inline]
fn raise_heap<T: Tables>(
    alloc: Global,
    heap: &mut GuardedOf<T>,
    number: u32,
    limits: Limits,
    blocks: u32,
) -> Result<(), AllocError> {
    if must_raise(heap, number, limits, blocks) {
        double_limit(alloc, heap, limits)?;
    }
    Ok(())
}

/// The same, where the number has a heap.
#[inline]
pub(crate) fn raise_in<T: Tables>(
    alloc: Global,
    slot: &mut Option<GuardedOf<T>>,
    number: u32,
    limits: Limits,
    blocks: u32,
) -> Result<(), AllocError> {
    match slot {
        Some(heap) => raise_heap(alloc, heap, number, limits, blocks),
        None => Ok(()),
    }
}

/// Grants a request in a heap that has room for it, and for one unit.
pub(crate) fn grant_in<T: Tables>(slot: &mut Option<GuardedOf<T>>, size: u32, align: u32) -> Ticket {
    match slot {
        Some(heap) => {
            match heap.allocate_aligned(size, align) {
                Some(ticket) => ticket,
                None => unreachable!(),
            }
        }
        None => unreachable!(),
    }
}

/// Grants the first request of a heap, which has room for it, where it begins at 0: a multiple of `align`, which the
/// step takes in.
pub(crate) fn grant_first_in<T: Tables>(
    slot: &mut Option<GuardedOf<T>>,
    size: u32,
    align: u32,
) -> Ticket {
    match slot {
        Some(heap) => {
            match heap.allocate_aligned(size, 1) {
                Some(ticket) => {
                    heap.raise_step(align);
                    ticket
                }
                None => unreachable!(),
            }
        }
        None => unreachable!(),
    }
}

/// The same of a heap that has a free block for it.
pub(crate) fn grant_tight_in<T: Tables>(
    slot: &mut Option<GuardedOf<T>>,
    size: u32,
    align: u32,
) -> Ticket {
    match slot {
        Some(heap) => match heap.allocate_tight(size) {
            Some(ticket) => {
                heap.raise_step(align);
                ticket
            }
            None => unreachable!(),
        },
        None => unreachable!(),
    }
}

/// Grants a request in a heap, a free block of which holds it.
pub(crate) fn grant_tight_aligned_in<T: Tables>(
    slot: &mut Option<GuardedOf<T>>,
    size: u32,
    align: u32,
) -> Ticket {
    match slot {
        Some(heap) => match heap.allocate_tight_aligned(size, align) {
            Some(ticket) => ticket,
            None => unreachable!(),
        },
        None => unreachable!(),
    }
}

/// Whether a free block of the heap of a number holds a request. Where none does, the heap has no room for it either.
pub(crate) fn holds<T: Tables>(
    heap: &GuardedOf<T>,
    number: u32,
    limits: Limits,
    size: u32,
    align: u32,
) -> bool {
    let space = heap.allocator();
    if !has_serial_left(heap) || nodes_left(heap, number, limits) <= align.min(2) {
        return false;
    }
    offset_allocator::laws::has_block_for_counted(space, size, align, &mut Accesses::new())
}

/// Frees the range of a ticket, where it is live. It is out of line, so that the code around it has more registers.
#[inline(never)]
pub(crate) fn free_in<T: Tables>(slot: &mut Option<GuardedOf<T>>, ticket: Ticket) -> bool {
    match slot {
        Some(heap) => heap.free(ticket),
        None => false,
    }
}

/// Makes the space of a heap one free block again.
pub(crate) fn reset_in<T: Tables>(slot: &mut Option<GuardedOf<T>>) {
    match slot {
        Some(heap) => heap.reset(),
        None => {}
    }
}

// Whether the last block of a heap is free.
fn ends_free<T: Tables>(heap: &GuardedOf<T>) -> bool {
    let mut blocks = heap.allocator().blocks();
    match offset_allocator::laws::next_block_counted(&mut blocks, &mut Accesses::new()) {
        None => false,
        Some(block) => match block.allocation {
            None => true,
            Some(_) => false,
        },
    }
}

// Whether the node limit of the heap of a number has to be raised for `more` units.
fn must_extend<T: Tables>(heap: &GuardedOf<T>, number: u32, limits: Limits, more: u32) -> bool {
    more > 0 && must_raise(heap, number, limits, 1) && !ends_free(heap)
}

// Doubles the node limit of the heap of a number, where it has to be raised for `more` units.
fn raise_for<T: Tables>(
    alloc: Global,
    heap: &mut GuardedOf<T>,
    number: u32,
    limits: Limits,
    more: u32,
) -> Result<(), AllocError> {
    if must_extend(heap, number, limits, more) {
        double_limit(alloc, heap, limits)?;
    }
    Ok(())
}

/// Adds units at the end of the heap of a number, whose node limit is raised first where they need that, and returns whether
/// it did.
pub(crate) fn extend_heap<T: Tables>(
    alloc: Global,
    heap: &mut GuardedOf<T>,
    number: u32,
    limits: Limits,
    more: u32,
) -> Result<bool, AllocError> {
    if more > u32::MAX - heap.allocator().size() {
        return Ok(false);
    }
    raise_for(alloc, heap, number, limits, more)?;
    Ok(heap.extend(more))
}

// Slides live ranges of a heap to the front of its space by its step, and returns whether it was done.
fn compact_one<NI: NodeIndex, T: Tables<Index = NI>, F: FnMut(Move<NI>)>(
    heap: &mut GuardedOf<T>,
    moved: &mut F,
) -> bool {
    heap.compact(moved)
}

// The same, and calls the closure with the number of the heap too. The index type is a parameter too, which keeps the
// proof short.
fn compact_numbered<NI: NodeIndex, T: Tables<Index = NI>, F: FnMut(u32, Move<NI>)>(
    heap: &mut GuardedOf<T>,
    number: u32,
    moved: &mut F,
) -> bool {
    compact_one(heap, &mut |range: Move<NI>| moved(number, range))
}

/// Slides live ranges of a heap to the front of its space by its step, where there is one, and returns whether it was done,
/// `true` where there is no heap. It calls the closure with the number of the heap too.
pub(crate) fn compact_numbered_in<T: Tables, F: FnMut(u32, Move<T::Index>)>(
    slot: &mut Option<GuardedOf<T>>,
    number: u32,
    moved: &mut F,
) -> bool {
    match slot {
        Some(heap) => compact_numbered(heap, number, moved),
        None => true,
    }
}

/// The units of room that a heap needs for a range of `size` units from a multiple of `align` on: one at least, also
/// where the range has none.
pub(crate) fn units_for(size: u32, align: u32) -> u64 {
    let units = size as u64 + align as u64 - 1;
    if units == 0 { 1 } else { units }
}

// The greatest common divisor, by Euclid.
fn common_divisor(first: u32, second: u32) -> u32 {
    let mut divisor = first;
    let mut rest = second;
    while rest != 0 {
        let next = divisor % rest;
        divisor = rest;
        rest = next;
    }
    divisor
}

/// What the offset of the range of a ticket, where it is live, and the step of its heap have in common, or `None` where
/// the heap has no step.
pub(crate) fn alignment_in<T: Tables>(heap: &GuardedOf<T>, ticket: Ticket) -> Option<u32> {
    let step = heap.step()?;
    let offset = heap.offset_of(ticket)?;
    Some(common_divisor(offset, step))
}

/// Whether a heap with `full` live units may take a range of `size` units of the heap `own`, which has `live`.
pub(crate) fn is_fuller(size: u32, own: u32, live: u32, number: u32, full: u32) -> bool {
    live < full || (live == full && (size > 0 || number < own))
}
