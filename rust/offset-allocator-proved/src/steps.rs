// Printed by rust/erase from crates/offset_allocator/src/steps.rt: change it there.

//! The steps of requests, releases, `extend` and `reset`, by `store`, `neighbours`, `chain` and `bins`; offsets
//! and sizes are read here too. Each leaves an allocator whose blocks and bins agree, and whose `free_total` is the sum of its
//! free units.

use crate::accesses::Accesses;
use crate::handle::Allocation;
use crate::index::NodeIndex;
use crate::neighbours::Parts;
use crate::small_float::{uint_to_float_round_down, uint_to_float_round_up};
use crate::store::{Store, ensure_spare};
use crate::tables::Tables;
use crate::{AllocatorOf, bins, chain, neighbours};

/// The handle of an offset and a name.
pub(crate) fn handle_of<NI: NodeIndex>(offset: u32, name: u32) -> Allocation<NI> {
    Allocation::make(offset, NI::from_u32(name).to_name())
}

/// Makes the whole space one free block, alone in its bin, where all bins are empty and only node 0 is made.
pub(crate) fn start<T: Tables>(store: &mut Store<T>, size: u32, max_allocs: u32) {
    chain::start(&mut store.tables, size, max_allocs, &mut store.accesses);
    bins::push(store, 0, uint_to_float_round_down(size));
}

impl<T: Tables> AllocatorOf<T> {
    /// The name of the last live range, or `None` where nothing is live: then the whole space is one free block.
    /// Since no two neighbours are free, the last used block is the last block or the one before it.
    pub(crate) fn last_used(&mut self) -> Option<u32> {
        let last = self.store.last;
        if chain::is_used(&self.store.tables, last, &mut self.store.accesses) {
            return Some(last);
        }
        chain::before(&self.store.tables, last, &mut self.store.accesses)
    }

    /// Frees every live range, the last one first. It is out of line, so that [`reset`](Self::reset) stays small where it is inlined.
    #[inline(never)]
    pub(crate) fn free_all(&mut self) {
        while let Some(name) = self.last_used() {
            self.release(name);
        }
    }

    /// Starts the blocks and the bins anew, each in place. It is out of line, so that [`reset`](Self::reset) stays small
    /// where it is inlined.
    #[inline(never)]
    pub(crate) fn clear(&mut self) {
        self.store.tables.clear();
        bins::empty(&mut self.store);
        start(&mut self.store, self.size, self.max_allocs);
        self.free_total = self.size;
        self.store.spare_count = 0;
        self.store.last = 0;
    }

    /// How many nodes no block has, made or not: so at least as many as there are unused names.
    pub(crate) fn unused_nodes(&self) -> u32 {
        self.max_allocs - self.block_count()
    }

    /// Whether the node limit admits this number of further blocks. The first test costs less, and is mostly
    /// enough: at most [`max_allocs`](Self::max_allocs) nodes are made, so it implies the second.
    #[inline(always)]
    pub(crate) fn admits_blocks(&self, blocks: u32) -> bool {
        self.store.spare_count > blocks || self.unused_nodes() > blocks
    }

    /// Grants `size` units of the newest block of a class, beginning at the first multiple of `align` in that
    /// block. The block has to hold them.
    #[inline(always)]
    pub(crate) fn grant(&mut self, class: u32, size: u32, align: u32) -> Allocation<T::Index> {
        let name = bins::pop(&mut self.store, class);
        let offset = self.store.tables.offset(name, &mut self.store.accesses);
        let whole = self.store.tables.size(name, &mut self.store.accesses);
        let padding = (align - offset % align) % align;
        let start = offset + padding;
        let parts = Parts {
            padding,
            size,
            remainder: whole - (padding + size),
        };
        neighbours::divide(&mut self.store, name, start, parts);
        self.free_total -= size;
        handle_of(start, name)
    }

    /// A request for units from a multiple of `align` on. With `align` 1, which is a constant where this is
    /// inlined into [`allocate`](Self::allocate), there is no padding. It may add `align.min(2)` blocks: the remainder, and the
    /// padding where `align` is above 1.
    #[inline(always)]
    pub(crate) fn serve(&mut self, size: u32, align: u32) -> Option<Allocation<T::Index>> {
        if !self.admits_blocks(align.min(2)) {
            return None;
        }
        if size > u32::MAX - (align - 1) {
            return None;
        }
        // the smallest class whose blocks all hold the units
        let smallest = uint_to_float_round_up(size + (align - 1));
        match bins::find_at_or_above(
            &self.store.tables,
            self.store.top_mask,
            smallest,
            &mut self.store.accesses,
        ) {
            None => None,
            Some(class) => Some(self.grant(class, size, align)),
        }
    }

    /// Frees the block of a name. It is inlined into both its callers, so that a program's only call of
    /// [`free`](Self::free) can be inlined whole.
    #[inline(always)]
    pub(crate) fn release(&mut self, name: u32) {
        let size = self.store.tables.size(name, &mut self.store.accesses);
        self.free_total += size;
        chain::set_used(
            &mut self.store.tables,
            name,
            false,
            &mut self.store.accesses,
        );
        neighbours::coalesce(&mut self.store, name, size);
    }

    /// Whether a name is that of a live range.
    pub(crate) fn is_name_live(&self, name: u32, count: &mut Accesses) -> bool {
        chain::is_live(&self.store.tables, name, count)
    }

    /// Adds units to the last block, which is free.
    pub(crate) fn widen(&mut self, more: u32) {
        let end = self.store.last;
        let size = self.store.tables.size(end, &mut self.store.accesses);
        bins::remove(&mut self.store, end, size);
        chain::grow(&mut self.store.tables, end, more, &mut self.store.accesses);
        bins::push(&mut self.store, end, uint_to_float_round_down(size + more));
        self.size += more;
        self.free_total += more;
    }

    /// Puts a free block after the last one, which is used.
    pub(crate) fn append(&mut self, more: u32) {
        ensure_spare(
            &mut self.store.tables,
            &mut self.store.spare_count,
            &mut self.store.accesses,
        );
        let end = self.store.last;
        let offset = self.store.tables.offset(end, &mut self.store.accesses);
        let whole = self.store.tables.size(end, &mut self.store.accesses);
        let name = chain::split(&mut self.store, end, offset, whole, whole);
        chain::grow(
            &mut self.store.tables,
            self.store.last,
            more,
            &mut self.store.accesses,
        );
        bins::push(&mut self.store, name, uint_to_float_round_down(more));
        self.size += more;
        self.free_total += more;
    }
}
