// Printed by rust/erase from crates/offset_guarded/src/refusal.rt: change it there.

//! Why a request is refused. It touches no space.

use core::fmt;

/// Why a request is refused: the first of these that applies. All but the first are those of [`Allocator`](crate::Allocator).
#[derive(Clone, Copy, Debug, PartialEq)]
pub enum Refusal {
    /// All serials are given. Use another space.
    Serials,
    /// There is no room for one more block, or for two more where an aligned request needs them. Put a copy
    /// with a larger node limit in its place (`raised`), free ranges that have free neighbours, or compact a
    /// space of several free blocks.
    Nodes,
    /// A fresh space of this size would refuse the request too. Extend the space, or use a larger one; but
    /// where the size, with `align - 1` more for an aligned request, is above 4026531840, no space grants it.
    TooLarge,
    /// All free units in one block would not be enough, so `compact` does not help. Free ranges, or extend
    /// the space.
    Space,
    /// All free units in one block would be enough, but no free block is. After `compact` the request is
    /// granted.
    Fragmented,
}

impl Refusal {
    // The reason of the allocator, where it is one.
    fn of_space(self) -> Option<offset_allocator::Refusal> {
        match self {
            Refusal::Serials => None,
            Refusal::Nodes => Some(offset_allocator::Refusal::Nodes),
            Refusal::TooLarge => Some(offset_allocator::Refusal::TooLarge),
            Refusal::Space => Some(offset_allocator::Refusal::Space),
            Refusal::Fragmented => Some(offset_allocator::Refusal::Fragmented),
        }
    }
}

/// A reason of the allocator is one here.
impl From<offset_allocator::Refusal> for Refusal {
    fn from(why: offset_allocator::Refusal) -> Refusal {
        match why {
            offset_allocator::Refusal::Nodes => Refusal::Nodes,
            offset_allocator::Refusal::TooLarge => Refusal::TooLarge,
            offset_allocator::Refusal::Space => Refusal::Space,
            offset_allocator::Refusal::Fragmented => Refusal::Fragmented,
        }
    }
}

impl fmt::Display for Refusal {
    fn fmt(&self, f: &mut fmt::Formatter<'_>) -> fmt::Result {
        match self.of_space() {
            None => write!(f, "all serials are given"),
            Some(why) => write!(f, "{why}"),
        }
    }
}
