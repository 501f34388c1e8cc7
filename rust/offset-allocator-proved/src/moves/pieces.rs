// Printed by rust/erase from crates/offset_allocator/src/moves/pieces.rt: change it there.

//! The copies of a move, for devices whose copies may not overlap. It touches no table.

use crate::index::{NodeIndex, NodeIndexNonMax};
use crate::moves::one_move::Move;
use core::iter::FusedIterator;

/// A piece of a move: `size` units from the offset `from` to the offset `to`. The two ranges have no unit in
/// common.
#[derive(Clone, Copy, Debug, PartialEq)]
pub struct Piece {
    /// Where the units are read.
    pub from: u32,
    /// Where they are written, below `from`.
    pub to: u32,
    /// How many they are.
    pub size: u32,
}

/// The pieces of a move, the lowest first, seen as the list of those that are left.
pub struct MovePieces {
    // where the next piece begins
    from: u32,
    to: u32,
    // the units that are left to copy
    left: u32,
    // the most units of a piece
    most: u32,
}

impl Clone for MovePieces {
    fn clone(&self) -> Self {
        MovePieces {
            from: self.from,
            to: self.to,
            left: self.left,
            most: self.most,
        }
    }
}

impl Iterator for MovePieces {
    type Item = Piece;

    fn next(&mut self) -> Option<Piece> {
        if self.left == 0 {
            return None;
        }
        let size = self.most.min(self.left);
        let piece = Piece {
            from: self.from,
            to: self.to,
            size,
        };
        self.from += size;
        self.to += size;
        self.left -= size;
        Some(piece)
    }
}

impl FusedIterator for MovePieces {}

impl MovePieces {
    /// As `pieces` of a move of `size` units from the offset `from` to the offset `to`.
    ///
    /// # Panics
    ///
    /// It panics unless a piece has at least 1 unit, and a move goes to a smaller offset, and a move
    /// ends at 4294967295 or before.
    ///
    /// ```
    /// # use offset_allocator_proved::*;
    /// # let alloc = Global;
    /// let mut pieces = MovePieces::of(300, 0, 100, 64);
    /// assert_eq!(pieces.next(), Some(Piece { from: 300, to: 0, size: 64 }));
    /// assert_eq!(pieces.next(), Some(Piece { from: 364, to: 64, size: 36 }));
    /// # Ok::<(), AllocError>(())
    /// ```
    #[track_caller]
    pub fn of(from: u32, to: u32, size: u32, most: u32) -> Self {
        assert!(0 < most, "a piece must have at least 1 unit");
        assert!(to < from, "a move must go to a smaller offset");
        assert!(from.checked_add(size).is_some(), "a move must end at 4294967295 or before");
        MovePieces {
            from,
            to,
            left: size,
            most: most.min(from - to),
        }
    }
}

impl<NI: NodeIndex, N: NodeIndexNonMax> Move<NI, N> {
    /// Whether the units that are read and those that are written have none in common. Then one copy makes
    /// the move on a device whose copies may not overlap; [`pieces`](Self::pieces) are for all moves.
    ///
    /// ```
    /// # use offset_allocator_proved::*;
    /// # let alloc = Global;
    /// let mut space = Allocator::<u32>::new(alloc, 1000)?;
    /// let hole = space.allocate(300).unwrap();
    /// space.allocate(100);
    /// space.free(hole);
    /// space.compact(|it| assert!(it.is_apart()));
    /// # Ok::<(), AllocError>(())
    /// ```
    pub fn is_apart(&self) -> bool {
        if self.to <= self.from {
            self.from - self.to >= self.size
        } else {
            self.to - self.from >= self.size
        }
    }

    /// Copies of at most `most` units that together make the move, one after the other: each is apart in
    /// itself, and none is written on units that a later one reads. Each has as many units as it can: `most`,
    /// or as many as lie between `to` and `from`, the last one fewer.
    ///
    /// `most` has to be at least 1. A move whose fields were written since has to go to a smaller offset still,
    /// with all its units below 4294967295. It takes no memory.
    ///
    /// # Panics
    ///
    /// It panics unless a piece has at least 1 unit.
    ///
    /// ```
    /// # use offset_allocator_proved::*;
    /// # let alloc = Global;
    /// let mut space = Allocator::<u32>::new(alloc, 1000)?;
    /// let hole = space.allocate(300).unwrap();
    /// space.allocate(100);
    /// space.free(hole);
    /// space.compact(|it| assert_eq!(it.pieces(64).map(|piece| piece.size).sum::<u32>(), 100));
    /// # Ok::<(), AllocError>(())
    /// ```
    #[track_caller]
    pub fn pieces(&self, most: u32) -> MovePieces {
        assert!(0 < most, "a piece must have at least 1 unit");
        MovePieces::of(self.from, self.to, self.size, most)
    }
}
