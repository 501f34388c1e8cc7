// Printed by rust/erase from crates/offset_allocator/src/reports/blocks.rt: change it there.

//! An iterator over the blocks of a space, from its end to its start. It reads the tables, and counts each
//! cell.

use crate::accesses::Accesses;
use crate::handle::Allocation;
use crate::index::{NodeIndex, NodeIndexNonMax};
use crate::steps::handle_of;
use crate::tables::Tables;
use crate::{AllocatorOf, chain};
use core::fmt;
use core::iter::FusedIterator;

/// A block of a space.
#[derive(Clone, Copy, PartialEq, Debug)]
pub struct Block<NI: NodeIndex = u32, N: NodeIndexNonMax = <NI as NodeIndex>::NonMax> {
    /// Where it begins, in units from the start of the space.
    pub offset: u32,
    /// The number of its units.
    pub size: u32,
    /// The handle of its range, or `None` where the block is free.
    pub allocation: Option<Allocation<NI, N>>,
}

/// The blocks of a space, from its end to its start, seen as the list of those that are left.
pub struct BlocksOf<'a, T: Tables> {
    pub(crate) allocator: &'a AllocatorOf<T>,
    // the name of the next block
    pub(crate) next: Option<u32>,
    // how many blocks are left: the first ones of the space
    pub(crate) left: u32,
}

impl<'a, T: Tables> Clone for BlocksOf<'a, T> {
    fn clone(&self) -> Self {
        BlocksOf {
            allocator: self.allocator,
            next: self.next,
            left: self.left,
        }
    }
}

impl<'a, T: Tables> Iterator for BlocksOf<'a, T> {
    type Item = Block<T::Index>;

    fn next(&mut self) -> Option<Block<T::Index>> {
        next_block_counted(self, &mut Accesses::new())
    }

    fn size_hint(&self) -> (usize, Option<usize>) {
        (self.left as usize, Some(self.left as usize))
    }
}

impl<'a, T: Tables> ExactSizeIterator for BlocksOf<'a, T> {
    fn len(&self) -> usize {
        self.left as usize
    }
}

impl<'a, T: Tables> FusedIterator for BlocksOf<'a, T> {}

impl<'a, T: Tables> fmt::Debug for BlocksOf<'a, T> {
    fn fmt(&self, f: &mut fmt::Formatter<'_>) -> fmt::Result {
        f.debug_struct("Blocks")
            .field("remaining", &self.len())
            .finish()
    }
}

/// As `next` of [`Blocks`](crate::Blocks). The count grows by at most 5.
pub fn next_block_counted<T: Tables>(
    blocks: &mut BlocksOf<'_, T>,
    count: &mut Accesses,
) -> Option<Block<T::Index>> {
    let name = blocks.next?;
    let allocator = blocks.allocator;
    let tables = &allocator.store.tables;
    let offset = tables.offset(name, count);
    let size = tables.size(name, count);
    let allocation = if chain::is_used(tables, name, count) {
        Some(handle_of(offset, name))
    } else {
        None
    };
    blocks.next = chain::before(tables, name, count);
    blocks.left -= 1;
    Some(Block {
        offset,
        size,
        allocation,
    })
}
