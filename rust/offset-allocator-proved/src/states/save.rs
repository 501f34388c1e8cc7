// Printed by rust/erase from crates/offset_allocator/src/states/save.rt: change it there.

//! The bytes of the state of a space. It reads the tables, and changes nothing.

use crate::AllocatorOf;
use crate::accesses::Accesses;
use crate::index::{NodeIndex, linked, number};
use crate::states::state::{FORM, VERSION, checksum};
use crate::tables::Tables;
use crate::memory::Vec;
use crate::memory::{AllocError, Global};

// Adds the names of a bin, the newest first.
fn push_bin<T: Tables>(
    names: &mut Vec<u32>,
    tables: &T,
    class: u32,
    count: &mut Accesses,
) -> Result<(), AllocError> {
    let mut name = tables.head(class, count);
    while name != T::Index::MAX {
        names.push(name)?;
        name = number(tables.older(name, count));
    }
    Ok(())
}

// The names in the bins, class by class.
fn names_in_bins<T: Tables>(
    alloc: Global,
    tables: &T,
    count: &mut Accesses,
) -> Result<Vec<u32>, AllocError> {
    let mut names = Vec::with_capacity(alloc, 0)?;
    for class in 0..256 {
        push_bin(&mut names, tables, class, count)?;
    }
    Ok(names)
}

// Adds name and size of each block, from the end of the space to its start.
fn push_blocks<T: Tables>(
    words: &mut Vec<u32>,
    tables: &T,
    last: u32,
    blocks: u32,
    count: &mut Accesses,
) -> Result<(), AllocError> {
    let mut name = last;
    for i in 0..blocks {
        let _ = i;
        words.push(name)?;
        words.push(tables.size(name, count))?;
        if let Some(before) = linked(tables.before(name, count)) {
            name = before;
        }
    }
    Ok(())
}

// Adds the unused names, from the bottom of their stack on.
fn push_unused<T: Tables>(
    words: &mut Vec<u32>,
    tables: &T,
    spare_count: u32,
    count: &mut Accesses,
) -> Result<(), AllocError> {
    for place in 0..spare_count {
        words.push(number(tables.spare(place, count)))?;
    }
    Ok(())
}

// The bytes of numbers.
fn bytes_of(alloc: Global, words: &[u32]) -> Result<Vec<u8>, AllocError> {
    let mut bytes = Vec::new(alloc);
    for word in words {
        let [a, b, c, d] = word.to_le_bytes();
        bytes.push(a)?;
        bytes.push(b)?;
        bytes.push(c)?;
        bytes.push(d)?;
    }
    Ok(bytes)
}

impl<T: Tables> AllocatorOf<T> {
    // The numbers of the state.
    fn state_numbers(&self, alloc: Global) -> Result<Vec<u32>, AllocError> {
        let tables = &self.store.tables;
        let mut count = Accesses::new();
        let names = names_in_bins(alloc, tables, &mut count)?;
        let mut words = Vec::new(alloc);
        words.extend_from_slice(&[
            FORM,
            VERSION,
            self.size,
            self.max_allocs,
            self.block_count(),
            names.len() as u32,
            self.store.spare_count,
        ])?;
        push_blocks(
            &mut words,
            tables,
            self.store.last,
            self.block_count(),
            &mut count,
        )?;
        words.extend_from_slice(&names)?;
        push_unused(&mut words, tables, self.store.spare_count, &mut count)?;
        Ok(words)
    }

    /// The bytes of the state of the space, which [`read_state`](Self::read_state) reads: 32 bytes, 8 for each block, 4 more for
    /// each free one, and 4 for each unused node that was made. They are numbers of 32 bits, the lowest byte
    /// of each first: 1414742351 and the version 1, the size, the node limit, the numbers of blocks, of free
    /// ones and of unused names; name and size of each block, from the end of the space to its start; the
    /// names of free blocks, bin by bin, the newest first; the unused names, the next one last; and a
    /// checksum. So the bytes follow from the space, and two that differ are of two spaces.
    ///
    /// It takes time for the nodes that were made.
    ///
    /// # Errors
    ///
    /// An error is returned only where an allocation failed.
    ///
    /// ```
    /// # use offset_allocator_proved::*;
    /// # let alloc = Global;
    /// let mut space = Allocator::<u32>::new(alloc, 1000)?;
    /// let bytes = space.write_state(alloc)?;
    /// assert_eq!(bytes.len(), 44);
    /// # Ok::<(), AllocError>(())
    /// ```
    pub fn write_state(&self, alloc: Global) -> Result<Vec<u8>, AllocError> {
        let mut words = self.state_numbers(alloc)?;
        let sum = checksum(&words);
        words.push(sum)?;
        bytes_of(alloc, &words)
    }
}
