// Printed by rust/erase from crates/offset_heaps/src/save.rt: change it there.

//! The bytes of the state of many heaps. It changes nothing.

use crate::HeapsOf;
use crate::slots::Slots;
use crate::state::{FORM, VERSION};
use offset_allocator::{Accesses, Tables};
use offset_guarded::GuardedOf;
use offset_guarded::numbers::bytes_with_checksum;
use crate::memory::Vec;
use crate::memory::{AllocError, Global};

// Adds the state of a heap, or nothing where there is none.
fn push_state<T: Tables>(
    alloc: Global,
    states: &mut Vec<u8>,
    heap: Option<&GuardedOf<T>>,
) -> Result<(), AllocError> {
    if let Some(heap) = heap {
        states.extend_from_slice(&heap.write_state(alloc)?)?;
    }
    Ok(())
}

// Where the state of each heap begins, and where the last one ends; and the states, one behind another.
fn states_of<T: Tables>(
    alloc: Global,
    slots: &Slots<T>,
    count: u32,
) -> Result<(Vec<u64>, Vec<u8>), AllocError> {
    let mut states = Vec::new(alloc);
    let mut places = Vec::new(alloc);
    places.push(0)?;
    for number in 0..count {
        push_state(alloc, &mut states, slots.at(number, &mut Accesses::new()))?;
        places.push(states.len() as u64)?;
    }
    Ok((places, states))
}

impl<T: Tables> HeapsOf<T> {
    /// The bytes of the state, which [`read_state`](Self::read_state) reads: 96, 8 for each number, and those of
    /// `GuardedOf::write_state` for each heap. The first are numbers of 64 bits, the lowest byte of each
    /// first: the letters OAHS, the version 3, the six limits, the last heap's realm, the realm; where the
    /// state of each number's heap begins behind these numbers, and where the last one ends, so that a number
    /// without a heap has no bytes; and a checksum. The index of the heaps is not stored.
    ///
    /// It takes time for the numbers, and for the nodes that were made.
    ///
    /// # Errors
    ///
    /// An error is returned only where an allocation failed.
    ///
    /// ```
    /// # use offset_allocator_heaps::*;
    /// # let alloc = Global;
    /// let limits = Limits { size: 1000, first_size: 1000, max_allocs: 100, first_allocs: 8, most: 2, most_larger: 1 };
    /// let mut heaps = Heaps::<u32>::new(alloc, limits)?;
    /// let bytes = heaps.write_state(alloc)?;
    /// let same = Heaps::<u32>::read_state(alloc, &bytes, 100, 1000).unwrap();
    /// assert_eq!(same.limits(), heaps.limits());
    /// # Ok::<(), AllocError>(())
    /// ```
    pub fn write_state(&self, alloc: Global) -> Result<Vec<u8>, AllocError> {
        let limits = self.limits;
        let count = limits.most + limits.most_larger;
        let (places, states) = states_of(alloc, &self.slots, count)?;
        let head = [
            FORM,
            VERSION,
            limits.size as u64,
            limits.first_size as u64,
            limits.max_allocs as u64,
            limits.first_allocs as u64,
            limits.most as u64,
            limits.most_larger as u64,
            self.made as u64,
            self.realm as u64,
        ];
        let mut bytes = bytes_with_checksum(alloc, &head, &places)?;
        bytes.extend_from_slice(&states)?;
        Ok(bytes)
    }
}
