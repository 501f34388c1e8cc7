// Printed by rust/erase from crates/offset_script/src/scripts.rt: change it there.

//! Scripts, and their commands, as plain data. It touches nothing.

use crate::memory::Vec;

/// One line of a script after its header. Sizes are in units of the space.
#[derive(Clone, Copy, PartialEq, Debug)]
pub enum Command {
    /// Requests this number of units.
    Alloc(u32),
    /// Frees the range of the grant of this number.
    Free(u32),
    /// Asks for the size of the grant of this number.
    Size(u32),
    /// Asks for the free units in all, and the largest free region, which is the largest request that is
    /// granted. Both are 0 where the space has as many blocks as its limit allows.
    Report,
    /// Asks for the classes that have a free block.
    Full,
    /// Frees the whole space.
    Reset,
    /// Requests this number of units, from a multiple of the second number on, which is at least 1. (In a text it
    /// is a power of two.)
    Align(u32, u32),
    /// Adds this number of units at the end of the space.
    Extend(u32),
}

/// How many bits the allocator's node indices have.
#[derive(Clone, Copy, PartialEq, Debug)]
pub enum IndexWidth {
    /// `u16`.
    Bits16,
    /// `u32`.
    Bits32,
}

/// The first line of a script that is neither empty nor a comment.
#[derive(Clone, Copy, PartialEq, Debug)]
pub struct Header {
    /// The units of the space.
    pub size: u32,
    /// The node limit.
    pub max_allocs: u32,
    /// The width of node indices.
    pub index: IndexWidth,
}

/// A whole script: the space of its header, of `size` units, its node limit, the width of its node indices,
/// and its commands.
///
/// The limit is at least 2 and admitted for the width, and each alignment is at least 1.
pub struct Script {
    /// The units of the space.
    pub size: u32,
    /// The node limit.
    pub max_allocs: u32,
    /// The width of node indices.
    pub index: IndexWidth,
    /// The commands, in order.
    pub commands: Vec<Command>,
}
