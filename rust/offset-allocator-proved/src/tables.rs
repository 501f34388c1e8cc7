// Printed by rust/erase from crates/offset_allocator/src/tables.rt: change it there.

//! What every layout of the tables does: only the layouts, `by_node` and `by_field`, touch cells. A function
//! on single cells counts each that it touches; `with_capacity` makes tables, `clear` empties them, and
//! neither counts.

use crate::accesses::Accesses;
use crate::index::NodeIndex;
use crate::memory::{AllocError, Global};

/// The nodes that were made, the stack of unused names, the newest name of each bin, and the masks of the
/// bins. A node is made when its name is needed for the first time; the memory for all is reserved before.
///
/// A layout is lawful that keeps these contracts: a cell has what was last written, the others stay, and each
/// access is counted.
pub trait Tables: Sized {
    /// The type of the links. A link is the number of a node, or the largest number, which names none.
    type Index: NodeIndex;

    /// Tables with one node, which is blank, and memory for `capacity` nodes.
    #[doc(hidden)]
    fn with_capacity(alloc: Global, capacity: u32) -> Result<Self, AllocError>;

    /// Leaves one node, which is blank, and the memory. The bins may still name others: `bins::empty` has to
    /// follow.
    #[doc(hidden)]
    fn clear(&mut self);

    /// The number of nodes that were made.
    #[doc(hidden)]
    fn len(&self) -> u32;

    /// Whether a number is the name of a node that was made. Where it is not, as with the largest number,
    /// it is no place in the tables either: so one test is both.
    #[doc(hidden)]
    fn has(&self, name: u32) -> bool;

    /// Makes one more node, which is blank. The stack of unused names becomes one entry longer, and the new
    /// name is written there, at its end, and at the index `place` too.
    #[doc(hidden)]
    fn add(&mut self, place: u32, count: &mut Accesses);

    /// The link to a node: its name is below the largest number.
    #[doc(hidden)]
    fn link_to(&self, name: u32) -> Self::Index;

    /// The offset of a node.
    #[doc(hidden)]
    fn offset(&self, name: u32, count: &mut Accesses) -> u32;

    /// The size of a node.
    #[doc(hidden)]
    fn size(&self, name: u32, count: &mut Accesses) -> u32;

    /// Writes the size of a node.
    #[doc(hidden)]
    fn set_size(&mut self, name: u32, size: u32, count: &mut Accesses);

    /// Whether a node is used.
    #[doc(hidden)]
    fn used(&self, name: u32, count: &mut Accesses) -> bool;

    /// Writes whether a node, which is in no bin, is used: its link to a newer node says so.
    #[doc(hidden)]
    fn set_used(&mut self, name: u32, used: bool, count: &mut Accesses);

    /// The link to the node of the block before.
    #[doc(hidden)]
    fn before(&self, name: u32, count: &mut Accesses) -> Self::Index;

    /// Writes the link to the node of the block before.
    #[doc(hidden)]
    fn set_before(&mut self, name: u32, link: Self::Index, count: &mut Accesses);

    /// The link to the node of the block after.
    #[doc(hidden)]
    fn after(&self, name: u32, count: &mut Accesses) -> Self::Index;

    /// Writes the link to the node of the block after.
    #[doc(hidden)]
    fn set_after(&mut self, name: u32, link: Self::Index, count: &mut Accesses);

    /// Writes the cells of a node that is not used, for a free block between two links.
    #[doc(hidden)]
    fn set_block(
        &mut self,
        name: u32,
        offset: u32,
        size: u32,
        before: Self::Index,
        after: Self::Index,
        count: &mut Accesses,
    );

    /// Writes where a block begins, its size, and the link to the node of the block before.
    #[doc(hidden)]
    fn set_start(
        &mut self,
        name: u32,
        offset: u32,
        size: u32,
        link: Self::Index,
        count: &mut Accesses,
    );

    /// Writes the size of a node, and the link to the node of the block after.
    #[doc(hidden)]
    fn set_end(&mut self, name: u32, size: u32, link: Self::Index, count: &mut Accesses);

    /// An entry of the stack of unused names.
    #[doc(hidden)]
    fn spare(&self, place: u32, count: &mut Accesses) -> Self::Index;

    /// Writes an entry of the stack of unused names.
    #[doc(hidden)]
    fn set_spare(&mut self, place: u32, name: Self::Index, count: &mut Accesses);

    /// The link to the next newer node of a node's bin.
    #[doc(hidden)]
    fn newer(&self, name: u32, count: &mut Accesses) -> Self::Index;

    /// Writes the link to the next newer node of a node's bin. The node is not used.
    #[doc(hidden)]
    fn set_newer(&mut self, name: u32, link: Self::Index, count: &mut Accesses);

    /// The link to the next older node of a node's bin.
    #[doc(hidden)]
    fn older(&self, name: u32, count: &mut Accesses) -> Self::Index;

    /// Writes the link to the next older node of a node's bin.
    #[doc(hidden)]
    fn set_older(&mut self, name: u32, link: Self::Index, count: &mut Accesses);

    /// Writes both links of a node in its bin. The node is not used.
    #[doc(hidden)]
    fn set_links(&mut self, name: u32, newer: Self::Index, older: Self::Index, count: &mut Accesses);

    /// The newest name of a bin, or `MAX`.
    #[doc(hidden)]
    fn head(&self, class: u32, count: &mut Accesses) -> u32;

    /// Writes the newest name of a bin, or `MAX`.
    #[doc(hidden)]
    fn set_head(&mut self, class: u32, name: u32, count: &mut Accesses);

    /// A word of the masks: bit `c % 64` of word `c / 64` says whether the bin of class c is not empty.
    #[doc(hidden)]
    fn mask(&self, word: u32, count: &mut Accesses) -> u64;

    /// Writes a word of the masks.
    #[doc(hidden)]
    fn set_mask(&mut self, word: u32, mask: u64, count: &mut Accesses);
}
