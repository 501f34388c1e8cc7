// Printed by rust/erase from crates/offset_calls/src/numbers.rt: change it there.

//! The numbers of grants, by their names. It touches its own list alone.

use offset_allocator::{Allocation, NodeIndex};
use crate::memory::Vec;
use crate::memory::{AllocError, Global};

/// The numbers of the grants that it has read, by their names. It is empty, and takes no memory, until it
/// reads the first; then 8 bytes for each name. A grant is read once, so all reading costs what the grants
/// did.
pub(crate) struct Numbers {
    // at a name the number of the last grant that had it when it was read, or 0 where none had
    by_name: Vec<u64>,
    // how many grants it has read
    grants: usize,
}

impl Numbers {
    // No grants.
    pub(crate) fn new(alloc: Global) -> Self {
        Numbers {
            by_name: Vec::new(alloc),
            grants: 0,
        }
    }

    // The number at a name, or 0.
    pub(crate) fn of(&self, name: u32) -> u64 {
        self.by_name.get(name as usize).copied().unwrap_or(0)
    }

    // Makes room for this many names at once. Where that is refused, room is made as they come.
    fn reserve(&mut self, names: usize) {
        let len = self.by_name.len();
        if len < names && self.by_name.reserve_exact(names - len).is_ok() {
            let _is_made = self.by_name.resize(names, 0);
        }
    }

    // Puts a number at a name.
    fn set(&mut self, name: u32, number: u64) -> Result<(), AllocError> {
        let at = name as usize;
        if self.by_name.len() <= at {
            self.by_name.resize(at + 1, 0)?;
        }
        self.by_name[at] = number;
        Ok(())
    }

    // Reads the grants that it has not read yet. A name is below `names`.
    pub(crate) fn read<NI: NodeIndex>(
        &mut self,
        handles: &[Option<Allocation<NI>>],
        names: u32,
    ) -> Result<(), AllocError> {
        self.reserve(names as usize);
        for i in self.grants..handles.len() {
            if let Some(handle) = handles[i] {
                self.set(handle.to_parts().1, i as u64 + 1)?;
            }
        }
        self.grants = handles.len();
        Ok(())
    }
}
