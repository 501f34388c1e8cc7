// Printed by rust/erase from crates/offset_guarded/src/save.rt: change it there.

//! The bytes of the state of a guarded allocator. It changes nothing.

use crate::GuardedOf;
use crate::numbers::bytes_with_checksum;
use crate::state::{FORM, VERSION};
use offset_allocator::Tables;
use crate::memory::Vec;
use crate::memory::{AllocError, Global};

impl<T: Tables> GuardedOf<T> {
    /// The bytes of the state, which [`read_state`](Self::read_state) reads: 56, 8 for each serial that is stored, one for each
    /// node that was ever made, and behind them those of `Allocator::write_state`. The first are numbers of
    /// 64 bits, the lowest byte of each first: the letters OATK, the version 2, how many serials are stored and
    /// how many were given, the realm, the step, or 0 where there is none, the serials by name, and a checksum.
    ///
    /// It takes time for the nodes that were made.
    ///
    /// # Errors
    ///
    /// An error is returned only where an allocation failed.
    ///
    /// ```
    /// # use offset_allocator_guarded::*;
    /// # let alloc = Global;
    /// let mut guarded = Guarded::<u32>::new(alloc, 1000)?;
    /// let bytes = guarded.write_state(alloc)?;
    /// let same = Guarded::<u32>::read_state(alloc, &bytes, 131_072).unwrap();
    /// assert_eq!(same.realm(), guarded.realm());
    /// # Ok::<(), AllocError>(())
    /// ```
    pub fn write_state(&self, alloc: Global) -> Result<Vec<u8>, AllocError> {
        let serials = self.serials.cells();
        let head = [
            FORM,
            VERSION,
            serials.len() as u64,
            self.serials.count(),
            self.realm as u64,
            self.step as u64,
        ];
        let mut bytes = bytes_with_checksum(alloc, &head, serials)?;
        bytes.extend_from_slice(&self.space.write_state(alloc)?)?;
        Ok(bytes)
    }
}
