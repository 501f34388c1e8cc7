//! Heaps with realms of their own, from counters of the process. Written by hand.

use core::sync::atomic::{AtomicU32, Ordering};

use crate::memory::{AllocError, Global};
use crate::{HeapsOf, Limits};
use offset_allocator::Tables;
use offset_guarded::next_realm;

// realms from here on are those of heaps; spaces have those below
const FIRST: u32 = 1 << 31;

// how many realms each `Heaps` has for the heaps that it makes, before it goes on in those of the next one
const BLOCK: u32 = 1 << 16;

// how many blocks there are: behind the last one 2^30 realms are left
const BLOCKS: u32 = 1 << 14;

// how many blocks were given
static GIVEN: AtomicU32 = AtomicU32::new(0);

// The realm before the first one of the next block.
fn next_block() -> u32 {
    FIRST - 1 + BLOCK * (GIVEN.fetch_add(1, Ordering::Relaxed) % BLOCKS)
}

impl<T: Tables> HeapsOf<T> {
    /// No heap, and memory for the numbers of all that may be made: some 1.2 KB each. A heap is made by the
    /// first request that none has room for.
    ///
    /// Its realm is the next one of this process, `next_realm` of `offset-allocator-guarded`, and that of each
    /// heap that it makes is one of 65,536 that it has for itself: so no place or ticket of other heaps, or of
    /// a space with tickets, that were made so is live here. Where it makes more heaps than that, it goes on with
    /// the realms of the next [`Heaps`](crate::Heaps); and after 16,384 `Heaps` these begin again. A place has the realm of its
    /// `Heaps` too, which keeps it apart from theirs.
    ///
    /// # Errors
    ///
    /// An error is returned only where an allocation failed; then nothing is made.
    ///
    /// ```
    /// use offset_allocator_heaps::*;
    /// let limits =
    ///     Limits { size: 1 << 24, first_size: 1 << 18, max_allocs: 65536, first_allocs: 64, most: 64, most_larger: 16 };
    /// let (mut meshes, textures) = (Heaps::<u32>::new(Global, limits)?, Heaps::<u32>::new(Global, limits)?);
    /// let mesh = meshes.allocate(300).unwrap().place;
    /// assert!(meshes.is_live(mesh) && !textures.is_live(mesh));
    /// # Ok::<(), AllocError>(())
    /// ```
    #[track_caller]
    pub fn new(alloc: Global, limits: Limits) -> Result<Self, AllocError> {
        Self::with_realms(alloc, limits, next_realm(), next_block())
    }

    /// The same with a realm that you choose; its heaps have the realms 1, 2, and so on. Places of two [`Heaps`](crate::Heaps)
    /// with one realm may be taken for each other.
    ///
    /// # Errors
    ///
    /// An error is returned only where an allocation failed; then nothing is made.
    ///
    /// ```
    /// use offset_allocator_heaps::*;
    /// let limits = Limits { size: 1000, first_size: 1000, max_allocs: 100, first_allocs: 8, most: 2, most_larger: 1 };
    /// let mut heaps = Heaps::<u32>::with_realm(Global, limits, 7)?;
    /// let place = heaps.allocate(300).unwrap().place;
    /// assert_eq!((place.realm, place.heap_realm()), (7, 1));
    /// # Ok::<(), AllocError>(())
    /// ```
    #[track_caller]
    pub fn with_realm(alloc: Global, limits: Limits, realm: u32) -> Result<Self, AllocError> {
        Self::with_realms(alloc, limits, realm, 0)
    }
}
