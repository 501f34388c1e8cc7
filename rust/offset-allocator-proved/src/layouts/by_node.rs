// Printed by rust/erase from crates/offset_allocator/src/layouts/by_node.rt: change it there.

//! The layout with one table of nodes: the fields of a node are in one cache line or two. It alone touches
//! the cells of these tables.

use crate::accesses::Accesses;
use crate::index::{NodeIndex, link_to, mark, no_link, number};
use crate::layouts::fills::{probe, push_within, reserved};
use crate::tables::Tables;
use crate::memory::Vec;
use crate::memory::{AllocError, Global};

/// A block's offset and size, the links to its neighbours in space, and the links to the next nodes of its
/// bin. A link is the name of a node, or the largest number of its type, which is no link. A used block is
/// in no bin: its link to a newer node is the number below the largest, which is no name either.
#[derive(Clone, Copy)]
pub(crate) struct Node<NI> {
    pub(crate) offset: u32,
    pub(crate) size: u32,
    pub(crate) before: NI,
    pub(crate) after: NI,
    pub(crate) newer: NI,
    pub(crate) older: NI,
}

/// One table of nodes.
pub struct ByNode<NI: NodeIndex> {
    nodes: Vec<Node<NI>>,
    spare: Vec<NI>,
    heads: [u32; 256],
    masks: [u64; 4],
}

/// The node of a block of no units that is linked to none.
pub(crate) fn blank<NI: NodeIndex>() -> Node<NI> {
    let none = no_link::<NI>();
    Node {
        offset: 0,
        size: 0,
        before: none,
        after: none,
        newer: none,
        older: none,
    }
}

impl<NI: NodeIndex> Tables for ByNode<NI> {
    type Index = NI;

    fn with_capacity(alloc: Global, capacity: u32) -> Result<Self, AllocError> {
        let count = capacity as usize;
        probe::<NI>(alloc, capacity)?;
        let mut nodes = reserved(alloc, count)?;
        let mut spare = reserved(alloc, count)?;
        push_within(&mut nodes, blank());
        push_within(&mut spare, link_to::<NI>(0));
        Ok(ByNode {
            nodes,
            spare,
            heads: [NI::MAX; 256],
            masks: [0; 4],
        })
    }

    fn clear(&mut self) {
        self.nodes.clear();
        self.spare.clear();
        push_within(&mut self.nodes, blank());
        push_within(&mut self.spare, link_to(0));
    }

    fn len(&self) -> u32 {
        self.nodes.len() as u32
    }

    fn has(&self, name: u32) -> bool {
        (name as usize) < self.nodes.len()
    }

    #[inline(always)]
    fn add(&mut self, place: u32, count: &mut Accesses) {
        // six cells of the node, and two of the stack
        count.tick();
        count.tick();
        count.tick();
        count.tick();
        count.tick();
        count.tick();
        count.tick();
        count.tick();
        let name = link_to(self.nodes.len() as u32);
        push_within(&mut self.nodes, blank());
        push_within(&mut self.spare, name);
        self.spare[place as usize] = name;
    }

    fn link_to(&self, name: u32) -> NI {
        let _ = &self.nodes;
        link_to(name)
    }

    fn offset(&self, name: u32, count: &mut Accesses) -> u32 {
        count.tick();
        self.nodes[name as usize].offset
    }

    fn size(&self, name: u32, count: &mut Accesses) -> u32 {
        count.tick();
        self.nodes[name as usize].size
    }

    fn set_size(&mut self, name: u32, size: u32, count: &mut Accesses) {
        count.tick();
        self.nodes[name as usize].size = size;
    }

    fn used(&self, name: u32, count: &mut Accesses) -> bool {
        count.tick();
        number(self.nodes[name as usize].newer) == NI::MAX - 1
    }

    fn set_used(&mut self, name: u32, used: bool, count: &mut Accesses) {
        count.tick();
        self.nodes[name as usize].newer = mark(used);
    }

    fn before(&self, name: u32, count: &mut Accesses) -> NI {
        count.tick();
        self.nodes[name as usize].before
    }

    fn set_before(&mut self, name: u32, link: NI, count: &mut Accesses) {
        count.tick();
        self.nodes[name as usize].before = link;
    }

    fn after(&self, name: u32, count: &mut Accesses) -> NI {
        count.tick();
        self.nodes[name as usize].after
    }

    fn set_after(&mut self, name: u32, link: NI, count: &mut Accesses) {
        count.tick();
        self.nodes[name as usize].after = link;
    }

    fn set_block(
        &mut self,
        name: u32,
        offset: u32,
        size: u32,
        before: NI,
        after: NI,
        count: &mut Accesses,
    ) {
        count.tick();
        count.tick();
        count.tick();
        count.tick();
        let node = &mut self.nodes[name as usize];
        node.offset = offset;
        node.size = size;
        node.before = before;
        node.after = after;
    }

    fn set_start(&mut self, name: u32, offset: u32, size: u32, link: NI, count: &mut Accesses) {
        count.tick();
        count.tick();
        count.tick();
        let node = &mut self.nodes[name as usize];
        node.offset = offset;
        node.size = size;
        node.before = link;
    }

    fn set_end(&mut self, name: u32, size: u32, link: NI, count: &mut Accesses) {
        count.tick();
        count.tick();
        let node = &mut self.nodes[name as usize];
        node.size = size;
        node.after = link;
    }

    fn spare(&self, place: u32, count: &mut Accesses) -> NI {
        count.tick();
        self.spare[place as usize]
    }

    fn set_spare(&mut self, place: u32, name: NI, count: &mut Accesses) {
        count.tick();
        self.spare[place as usize] = name;
    }

    fn newer(&self, name: u32, count: &mut Accesses) -> NI {
        count.tick();
        self.nodes[name as usize].newer
    }

    fn set_newer(&mut self, name: u32, link: NI, count: &mut Accesses) {
        count.tick();
        self.nodes[name as usize].newer = link;
    }

    fn older(&self, name: u32, count: &mut Accesses) -> NI {
        count.tick();
        self.nodes[name as usize].older
    }

    fn set_older(&mut self, name: u32, link: NI, count: &mut Accesses) {
        count.tick();
        self.nodes[name as usize].older = link;
    }

    fn set_links(&mut self, name: u32, newer: NI, older: NI, count: &mut Accesses) {
        count.tick();
        count.tick();
        let node = &mut self.nodes[name as usize];
        node.newer = newer;
        node.older = older;
    }

    fn head(&self, class: u32, count: &mut Accesses) -> u32 {
        count.tick();
        self.heads[class as u8 as usize]
    }

    fn set_head(&mut self, class: u32, name: u32, count: &mut Accesses) {
        count.tick();
        self.heads[class as u8 as usize] = name;
    }

    fn mask(&self, word: u32, count: &mut Accesses) -> u64 {
        count.tick();
        self.masks[word as usize % 4]
    }

    fn set_mask(&mut self, word: u32, mask: u64, count: &mut Accesses) {
        count.tick();
        self.masks[word as usize % 4] = mask;
    }
}
