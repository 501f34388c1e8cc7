// Printed by rust/erase from crates/offset_heaps/src/dumping.rt: change it there.

//! All heaps as JSON, for tools that draw or count what is in them. It only reads them.

use crate::HeapsOf;
use crate::slots::Slots;
use crate::totals::Totals;
use offset_allocator::{Accesses, Tables};
use offset_guarded::GuardedOf;
use crate::memory::String;
use crate::memory::{AllocError, Global};

// Appends what is live and what is free, and where the heaps begin.
fn put_totals(text: &mut String, totals: &Totals) -> Result<(), AllocError> {
    let heaps = totals.heaps;
    let units = totals.units;
    let live = totals.live_units;
    let free = totals.free_units;
    let region = totals.largest_free_region;
    write!(
        text,
        "{{\"totals\":{{\"heaps\":{heaps},\"units\":{units},\"live_units\":{live},\"free_units\":{free},\"largest_free_region\":{region}}},\"heaps\":["
    )
}

// Appends a comma, but not before the first.
fn put_comma(text: &mut String, first: bool) -> Result<(), AllocError> {
    if first {
        return Ok(());
    }
    write!(text, ",")
}

// Appends a heap.
fn put_heap<T: Tables>(
    alloc: Global,
    text: &mut String,
    number: u32,
    heap: &GuardedOf<T>,
) -> Result<(), AllocError> {
    let space = offset_allocator::json_of(alloc, heap.allocator())?;
    write!(text, "{{\"number\":{number},\"space\":{space}}}")
}

// Appends the heap of a number, where there is one, and returns whether none was appended yet.
fn put_slot<T: Tables>(
    alloc: Global,
    text: &mut String,
    number: u32,
    heap: Option<&GuardedOf<T>>,
    first: bool,
) -> Result<bool, AllocError> {
    match heap {
        None => Ok(first),
        Some(heap) => {
            put_comma(text, first)?;
            put_heap(alloc, text, number, heap)?;
            Ok(false)
        }
    }
}

// Appends the heaps of the first numbers.
fn put_slots<T: Tables>(
    alloc: Global,
    text: &mut String,
    slots: &Slots<T>,
    count: u32,
) -> Result<(), AllocError> {
    let mut first = true;
    for number in 0..count {
        first = put_slot(
            alloc,
            text,
            number,
            slots.at(number, &mut Accesses::new()),
            first,
        )?;
    }
    Ok(())
}

/// All heaps as JSON: an object with `totals`, the fields of [`Totals`](crate::Totals) by their names, and `heaps`, by number:
/// each with its `number` and `space`, the object that `json_of` of the allocator's crate writes.
///
/// It returns the text, or [`AllocError`](crate::AllocError) where an allocation fails.
///
/// ```
/// # use offset_allocator_heaps::*;
/// # let alloc = Global;
/// let limits = Limits { size: 1000, first_size: 1000, max_allocs: 100, first_allocs: 8, most: 2, most_larger: 1 };
/// let mut heaps = Heaps::<u32>::new(alloc, limits)?;
/// let text = json_of(alloc, &heaps)?;
/// assert!(text.starts_with("{\"totals\":{\"heaps\":0,"));
/// # Ok::<(), AllocError>(())
/// ```
pub fn json_of<T: Tables>(alloc: Global, heaps: &HeapsOf<T>) -> Result<String, AllocError> {
    let limits = heaps.limits;
    let mut text = String::new(alloc);
    put_totals(&mut text, &heaps.totals())?;
    put_slots(
        alloc,
        &mut text,
        &heaps.slots,
        limits.most + limits.most_larger,
    )?;
    write!(text, "]}}")?;
    Ok(text)
}
