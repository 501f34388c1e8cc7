// Printed by rust/erase from crates/offset_allocator/src/moves/one_move.rt: change it there.

//! One range that slides to a smaller offset, as closures get it. It touches no table.

use crate::handle::Allocation;
use crate::index::{NodeIndex, NodeIndexNonMax};
use core::marker::PhantomData;

/// A range that moves, whose name is of a type `N`: `size` units from the offset `from` to the offset `to`.
///
/// Every move is one to a smaller offset, with all its units below 4294967295: a closure that gets one may
/// rely on that, as `pieces` does.
#[derive(Copy, Debug, PartialEq)]
pub struct Move<NI: NodeIndex = u32, N: NodeIndexNonMax = <NI as NodeIndex>::NonMax> {
    name: N,
    /// The offset that the range had.
    pub from: u32,
    /// The offset that it has after the move.
    pub to: u32,
    /// Its units.
    pub size: u32,
    index: PhantomData<NI>,
}

impl<NI: NodeIndex, N: NodeIndexNonMax> Clone for Move<NI, N> {
    fn clone(&self) -> Self {
        *self
    }
}

impl<NI: NodeIndex, N: NodeIndexNonMax> Move<NI, N> {
    // The move of a range of this name.
    pub(crate) fn make(name: N, from: u32, to: u32, size: u32) -> Self {
        Move {
            name,
            from,
            to,
            size,
            index: PhantomData,
        }
    }

    /// The handle of the range as it is after the move. Every older handle of the range is live too; only its
    /// `offset` is that of before.
    ///
    /// ```
    /// # use offset_allocator_proved::*;
    /// # let alloc = Global;
    /// let mut space = Allocator::<u32>::new(alloc, 1000)?;
    /// let hole = space.allocate(300).unwrap();
    /// let mesh = space.allocate(100).unwrap();
    /// space.free(hole);
    /// space.compact(|it| assert_eq!(it.allocation().name(), mesh.name()));
    /// # Ok::<(), AllocError>(())
    /// ```
    pub fn allocation(&self) -> Allocation<NI, N> {
        Allocation::make(self.to, self.name)
    }
}
