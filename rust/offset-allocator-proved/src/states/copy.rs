// Printed by rust/erase from crates/offset_allocator/src/states/copy.rt: change it there.

//! A copy of a space, cell by cell, under its node limit or a larger one: it makes tables, and reads those of
//! the space.

use crate::AllocatorOf;
use crate::accesses::Accesses;
use crate::index::NodeIndex;
use crate::store::Store;
use crate::tables::Tables;
use crate::memory::{AllocError, Global};

/// Tables with some nodes, none of them used, memory for `limit`, and no name in a bin.
pub(crate) fn with_nodes<T: Tables>(
    alloc: Global,
    limit: u32,
    nodes: u32,
    count: &mut Accesses,
) -> Result<T, AllocError> {
    let mut tables = T::with_capacity(alloc, limit)?;
    for made in 1..nodes {
        tables.add(made, count);
    }
    Ok(tables)
}

// Copies the node of a name, and its links in its bin.
fn copy_node<T: Tables>(from: &T, into: &mut T, name: u32, count: &mut Accesses) {
    let offset = from.offset(name, count);
    let size = from.size(name, count);
    let before = from.before(name, count);
    let after = from.after(name, count);
    into.set_block(name, offset, size, before, after, count);
    let older = from.older(name, count);
    if from.used(name, count) {
        into.set_older(name, older, count);
        into.set_used(name, true, count);
    } else {
        let newer = from.newer(name, count);
        into.set_links(name, newer, older, count);
    }
}

// Copies the cells of a name.
fn copy_name<T: Tables>(from: &T, into: &mut T, name: u32, count: &mut Accesses) {
    copy_node(from, into, name, count);
    let spare = from.spare(name, count);
    into.set_spare(name, spare, count);
}

// Copies the newest name of each bin, and the masks.
fn copy_bins<T: Tables>(from: &T, into: &mut T, count: &mut Accesses) {
    for class in 0..256 {
        let head = from.head(class, count);
        into.set_head(class, head, count);
    }
    for word in 0..4 {
        let mask = from.mask(word, count);
        into.set_mask(word, mask, count);
    }
}

// Tables with the same cells, and memory for `limit` nodes.
fn copied<T: Tables>(
    alloc: Global,
    from: &T,
    limit: u32,
    count: &mut Accesses,
) -> Result<T, AllocError> {
    let mut into = with_nodes(alloc, limit, from.len(), count)?;
    for name in 0..from.len() {
        copy_name(from, &mut into, name, count);
    }
    copy_bins(from, &mut into, count);
    Ok(into)
}

impl<T: Tables> AllocatorOf<T> {
    /// A copy of the space, with memory of its own: the same live ranges under the same handles, the same
    /// blocks and the same order in bins, and the same unused names. So each further call has the same answer
    /// in both, handles included, and a handle of one is live in the other exactly if it was when the copy
    /// was made.
    ///
    /// It reserves what [`with_max_allocs`](Self::with_max_allocs) does, and takes time for the nodes that were made, which
    /// [`node_count`](Self::node_count) counts, and not for the node limit.
    ///
    /// # Errors
    ///
    /// An error is returned only where an allocation failed; then nothing is made.
    ///
    /// ```
    /// # use offset_allocator_proved::*;
    /// # let alloc = Global;
    /// let mut space = Allocator::<u32>::new(alloc, 1000)?;
    /// let mesh = space.allocate(300).unwrap();
    /// let copy = space.try_clone(alloc)?;
    /// space.free(mesh);
    /// assert!(copy.is_live(mesh));
    /// # Ok::<(), AllocError>(())
    /// ```
    pub fn try_clone(&self, alloc: Global) -> Result<Self, AllocError> {
        self.raised(alloc, self.max_allocs)
    }

    /// The space under another node limit, at least as large: a copy as [`try_clone`](Self::try_clone) makes it, with
    /// `max_allocs` as its limit. It is for a space that refuses requests as [`Nodes`](crate::Refusal::Nodes): put it in place of the
    /// first one, and all handles go on. While the first one has room for the blocks that they may add,
    /// requests, second ranges, releases, changes of size and [`compact`](Self::compact) return the same in both, by
    /// the law `a_raised_limit_changes_no_answer` of the proved sources; reports, reasons and slides by whole steps look at the limit too.
    ///
    /// The limit is at most `T::Index::MAX - 2`. It reserves what [`with_max_allocs`](Self::with_max_allocs) does for that limit,
    /// beside the memory of the first space until that is dropped, and takes time for the nodes that were
    /// made, which [`node_count`](Self::node_count) counts, and not for either limit.
    ///
    /// # Errors
    ///
    /// An error is returned only where an allocation failed; then nothing is made, and the first space is as
    /// it was.
    ///
    /// # Panics
    ///
    /// It panics unless `max_allocs` is at least the limit that there is, and `max_allocs` is at most
    /// `NI::MAX - 2`.
    ///
    /// ```
    /// # use offset_allocator_proved::*;
    /// # let alloc = Global;
    /// let mut space = Allocator::<u32>::with_max_allocs(alloc, 1000, 3)?;
    /// let mesh = space.allocate(300).unwrap();
    /// assert!(space.allocate(10).is_none());
    /// space = space.raised(alloc, 100)?;
    /// assert!(space.is_live(mesh) && space.allocate(10).is_some());
    /// # Ok::<(), AllocError>(())
    /// ```
    #[track_caller]
    pub fn raised(&self, alloc: Global, max_allocs: u32) -> Result<Self, AllocError> {
        assert!(self.max_allocs <= max_allocs, "max_allocs must be at least the limit that there is");
        assert!(max_allocs < T::Index::MAX - 1, "max_allocs must be at most NI::MAX - 2");
        let mut count = Accesses::new();
        let store = &self.store;
        let tables = copied(alloc, &store.tables, max_allocs, &mut count)?;
        Ok(AllocatorOf {
            size: self.size,
            max_allocs,
            free_total: self.free_total,
            store: Store {
                tables,
                top_mask: store.top_mask,
                last: store.last,
                spare_count: store.spare_count,
                accesses: Accesses::new(),
            },
        })
    }
}
