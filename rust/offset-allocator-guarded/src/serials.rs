// Printed by rust/erase from crates/offset_guarded/src/serials.rt: change it there.

//! The serials of grants, by name. It touches its own numbers alone.

use crate::numbers::number;
use crate::memory::Vec;
use crate::memory::{AllocError, Global};

/// The serial that each name was last granted with, 0 before its first grant, and the number of serials given
/// so far.
pub(crate) struct Serials {
    cells: Vec<u64>,
    given: u64,
}

// Adds a cell at the end of a table that has room for it. `push_reserved`, unlike `push`, promises that the
// memory stays the same. It is inlined: out of line a step takes 1 to 2% more instructions by `lto`, though each
// cell is made once.
#[inline(always)]
fn push_within(cells: &mut Vec<u64>, serial: u64) {
    cells.push_reserved(serial);
}

impl Serials {
    /// No serial, and memory for those of this many names.
    pub(crate) fn with_room(alloc: Global, names: u32) -> Result<Self, AllocError> {
        Ok(Serials {
            cells: Vec::with_capacity(alloc, names as usize)?,
            given: 0,
        })
    }

    /// A copy, with memory for at least this many names.
    pub(crate) fn try_clone(&self, alloc: Global, names: u32) -> Result<Self, AllocError> {
        let mut cells = Vec::with_capacity(alloc, self.cells.len().max(names as usize))?;
        for name in 0..self.cells.len() {
            push_within(&mut cells, self.cells[name]);
        }
        Ok(Serials {
            cells,
            given: self.given,
        })
    }

    /// The serials of these bytes, of so many grants, and memory for at least this many names.
    pub(crate) fn of_bytes(
        alloc: Global,
        bytes: &[u8],
        grants: u64,
        names: u32,
    ) -> Result<Self, AllocError> {
        let count = bytes.len() / 8;
        let mut cells = Vec::with_capacity(alloc, count.max(names as usize))?;
        for place in 0..count {
            push_within(&mut cells, number(bytes, place));
        }
        Ok(Serials {
            cells,
            given: grants,
        })
    }

    /// The serials by name.
    pub(crate) fn cells(&self) -> &[u64] {
        &self.cells
    }

    /// The first name whose serial is above the number that is given.
    pub(crate) fn first_above(&self) -> Option<usize> {
        for name in 0..self.cells.len() {
            if self.cells[name] > self.given {
                return Some(name);
            }
        }
        None
    }

    /// Makes the cells of all names below a number.
    #[inline]
    pub(crate) fn cover(&mut self, names: u32) {
        while self.cells.len() < names as usize {
            push_within(&mut self.cells, 0);
        }
    }

    /// The serial that a name was last granted with, or 0.
    #[inline]
    pub(crate) fn at(&self, name: u32) -> u64 {
        match self.cells.get(name as usize) {
            None => 0,
            Some(serial) => *serial,
        }
    }

    /// Whether a name was last granted with a serial.
    #[inline]
    pub(crate) fn is_last(&self, name: u32, serial: u64) -> bool {
        match self.cells.get(name as usize) {
            None => serial == 0,
            Some(last) => serial == *last,
        }
    }

    /// How many serials are given.
    pub(crate) fn count(&self) -> u64 {
        self.given
    }

    /// Whether all serials are given.
    #[inline]
    pub(crate) fn is_spent(&self) -> bool {
        self.given == u64::MAX
    }

    /// Gives the next serial to a name.
    #[inline]
    pub(crate) fn give(&mut self, name: u32) -> u64 {
        let serial = self.given + 1;
        self.given = serial;
        self.cells[name as usize] = serial;
        serial
    }
}
