// Printed by rust/erase from crates/offset_heaps/src/fresh.rt: change it there.

//! Heaps that are made for a request, which they grant at once, and whose alignment their step takes in. It touches
//! nothing else.

use crate::heap;
use crate::limits::{Limits, usual_size};
use offset_allocator::Tables;
use offset_guarded::{GuardedOf, Ticket};
use crate::memory::{AllocError, Global};

/// The node limit of a larger heap: two ranges may be live in it.
pub(crate) const LARGER_LIMIT: u32 = 4;

/// The usual heap of a number, and its first grant, which it has room for.
pub(crate) fn usual<T: Tables>(
    alloc: Global,
    limits: Limits,
    number: u32,
    realm: u32,
    size: u32,
    align: u32,
) -> Result<(Option<GuardedOf<T>>, Ticket), AllocError> {
    let mut slot = Some(GuardedOf::with_realm(
        alloc,
        usual_size(limits, number),
        limits.first_allocs,
        realm,
    )?);
    let ticket = heap::grant_first_in(&mut slot, size, align);
    Ok((slot, ticket))
}

/// A heap of the size of the request, which is its first grant: all of it.
pub(crate) fn larger<T: Tables>(
    alloc: Global,
    realm: u32,
    size: u32,
    align: u32,
) -> Result<(Option<GuardedOf<T>>, Ticket), AllocError> {
    let mut slot = Some(GuardedOf::with_realm(alloc, size, LARGER_LIMIT, realm)?);
    let ticket = heap::grant_tight_in(&mut slot, size, align);
    Ok((slot, ticket))
}
