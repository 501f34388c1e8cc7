//! Spaces with a realm of their own, from one counter of the process. Written by hand.

use core::sync::atomic::{AtomicU32, Ordering};

use crate::GuardedOf;
use crate::memory::{AllocError, Global};
use offset_allocator::{NodeIndex, Tables};

// realms of spaces are below this one: `offset-allocator-heaps` has those of heaps from it on
const HALF: u32 = 1 << 31;

// how many realms were given
static GIVEN: AtomicU32 = AtomicU32::new(0);

/// The next realm of this process: 1, then 2, and so on, another one at each call. `GuardedOf::new` and
/// `GuardedOf::with_max_allocs` take one, and `HeapsOf::new` of `offset-allocator-heaps`. After 2,147,483,647 of
/// them they begin again with 1; the larger ones are for the heaps of `HeapsOf`.
///
/// It counts for one copy of this crate: where a program and a library that it loads each have one, both count
/// from 1.
///
/// ```
/// use offset_allocator_guarded::next_realm;
/// assert_ne!(next_realm(), next_realm());
/// ```
pub fn next_realm() -> u32 {
    loop {
        let realm = GIVEN.fetch_add(1, Ordering::Relaxed).wrapping_add(1) % HALF;
        if realm != 0 {
            return realm;
        }
    }
}

impl<T: Tables> GuardedOf<T> {
    /// A space of `size` units, all free, with the smaller of 131,072 and `T::Index::MAX - 2` as the node limit,
    /// and with the next realm of this process: so no ticket of another space that was made so is live here.
    ///
    /// # Errors
    ///
    /// An error is returned only where an allocation failed; then nothing is made.
    ///
    /// ```
    /// use offset_allocator_guarded::*;
    /// let mut vertices = Guarded::<u32>::new(Global, 1 << 20)?;
    /// let indices = Guarded::<u32>::new(Global, 1 << 20)?;
    /// let mesh = vertices.allocate(3000).unwrap();
    /// assert!(vertices.is_live(mesh) && !indices.is_live(mesh));
    /// # Ok::<(), AllocError>(())
    /// ```
    #[track_caller]
    pub fn new(alloc: Global, size: u32) -> Result<Self, AllocError> {
        Self::with_max_allocs(alloc, size, 131_072.min(T::Index::MAX - 2))
    }

    /// A space of `size` units, all free, with `max_allocs` as the node limit, 2 to `T::Index::MAX - 2`, and with
    /// the next realm of this process. It reserves what [`with_realm`](Self::with_realm) does.
    ///
    /// # Errors
    ///
    /// An error is returned only where an allocation failed; then nothing is made.
    ///
    /// ```
    /// use offset_allocator_guarded::*;
    /// let mut small = Guarded::<u16>::with_max_allocs(Global, 1000, 3)?;
    /// assert!(small.allocate(10).is_some());
    /// assert!(small.allocate(10).is_none());
    /// # Ok::<(), AllocError>(())
    /// ```
    #[track_caller]
    pub fn with_max_allocs(alloc: Global, size: u32, max_allocs: u32) -> Result<Self, AllocError> {
        Self::with_realm(alloc, size, max_allocs, next_realm())
    }
}
