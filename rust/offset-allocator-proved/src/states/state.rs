// Printed by rust/erase from crates/offset_allocator/src/states/state.rt: change it there.

//! The numbers of a state: bytes as numbers, their checksum, and their faults. It touches no space.

use crate::memory::Vec;
use crate::memory::{AllocError, Global};
use core::fmt;

/// The number that a state begins with: its bytes are the letters OAST.
pub(crate) const FORM: u32 = 1414742351;

/// The version of the form.
pub(crate) const VERSION: u32 = 1;

/// What is wrong with the bytes of a state, and where.
#[derive(Clone, Copy, PartialEq, Debug)]
pub struct StateFault {
    /// The place of the byte from which on the bytes are wrong; or their number, where there are too few or
    /// too many.
    pub at: usize,
    /// What is wrong there.
    pub kind: StateFaultKind,
}

/// What is wrong with the bytes of a state: the first that applies of `Length`, `Form`, `Limit`, `Counts`,
/// `Length` again, for the counts, and `Checksum`; then of the first list that is wrong, [`Block`](crate::Block), `Unused`,
/// `Free` or `Neighbours`; and then `Counts` again, for live blocks.
///
/// A state is numbers of 4 bytes. The place is that of the number that is wrong, if nothing else is said.
#[derive(Clone, Copy, PartialEq, Debug)]
pub enum StateFaultKind {
    /// They are not as many as their counts say, or no multiple of 4.
    Length,
    /// They do not begin as a state does, or are of another version: the place is 0.
    Form,
    /// The node limit is above that which the caller or the index type admits.
    Limit,
    /// There is no block, or more blocks and unused names than the node limit admits; or more than
    /// `max_allocs - 2` of the blocks are live. The place is that of the number of blocks.
    Counts,
    /// The checksum is not that of the bytes.
    Checksum,
    /// A block: its name is that of no node or of an earlier block, or the sizes are not that of the space.
    /// The place is that of the name, of the size with which the sizes are more than the space has, or, where
    /// all are less, of the last size. Blocks are listed from the end of the space back.
    Block,
    /// An unused name: it is that of no node or of a block, or is listed twice. It is the first that is
    /// wrong: the second of two that are the same.
    Unused,
    /// The name of a free block: it is that of no block, is listed twice, or is not in the order of bins: its
    /// size class is above that of the next one. It is the last that is wrong: the first of two that are the
    /// same.
    Free,
    /// This block and the one after it in space are both free: the last such block of the space. The place is
    /// that of its name in the list of blocks.
    Neighbours,
}

/// Why bytes were not read as a state.
#[derive(Clone, Copy, PartialEq, Debug)]
pub enum ReadError<F> {
    /// An allocation failed: the bytes may be those of a state.
    Memory,
    /// The bytes are not those of a state that is accepted, and this is wrong with them.
    Fault(F),
}

impl<F> From<AllocError> for ReadError<F> {
    fn from(_error: AllocError) -> Self {
        ReadError::Memory
    }
}

impl fmt::Display for StateFaultKind {
    fn fmt(&self, f: &mut fmt::Formatter<'_>) -> fmt::Result {
        let words = match self {
            StateFaultKind::Length => "another number of bytes than the counts say",
            StateFaultKind::Form => "no state, or one of another version",
            StateFaultKind::Limit => "a node limit that is not admitted",
            StateFaultKind::Counts => "counts that the node limit does not admit",
            StateFaultKind::Checksum => "a checksum that is not that of the bytes",
            StateFaultKind::Block => "a block with a wrong name or size",
            StateFaultKind::Unused => "an unused name that is wrong",
            StateFaultKind::Free => "a name that is not that of one block more",
            StateFaultKind::Neighbours => "two free blocks side by side",
        };
        write!(f, "{words}")
    }
}

/// The bytes as numbers of 32 bits, the lowest byte of each first.
pub(crate) fn words_of(alloc: Global, bytes: &[u8]) -> Result<Vec<u32>, AllocError> {
    let mut words = Vec::with_capacity(alloc, bytes.len() / 4)?;
    for i in 0..bytes.len() / 4 {
        let at = 4 * i;
        let word = u32::from_le_bytes([bytes[at], bytes[at + 1], bytes[at + 2], bytes[at + 3]]);
        words.push(word)?;
    }
    Ok(words)
}

/// The checksum of numbers.
pub(crate) fn checksum(words: &[u32]) -> u32 {
    let mut sum = 0;
    for word in words {
        sum = ((sum as u64 * 16777619 + *word as u64) % 4294967296) as u32;
    }
    sum
}
