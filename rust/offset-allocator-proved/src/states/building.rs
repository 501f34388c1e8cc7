// Printed by rust/erase from crates/offset_allocator/src/states/building.rt: change it there.

//! The tables of a state that is read, made block by block from the end of the space, then name by name. It
//! changes no other tables.

use crate::accesses::Accesses;
use crate::bins;
use crate::chain::point_back;
use crate::index::{link_to, linked, no_link};
use crate::small_float::uint_to_float_round_down;
use crate::states::copy::with_nodes;
use crate::store::Store;
use crate::tables::Tables;
use crate::memory::{AllocError, Global};

// Puts a used block before those that are there, the first of which `next` links to. It ends at their offset.
fn prepend<T: Tables>(
    tables: &mut T,
    last: &mut u32,
    next: T::Index,
    name: u32,
    offset: u32,
    size: u32,
    count: &mut Accesses,
) {
    tables.set_block(name, offset, size, no_link(), next, count);
    tables.set_used(name, true, count);
    point_back(tables, last, next, name, count);
}

/// Writes the blocks of these words, all of them used: name and size of each, from the end of the space to
/// its start. Returns the name of the last one, or the place of the word that is wrong.
pub(crate) fn place_blocks<T: Tables>(
    tables: &mut T,
    words: &[u32],
    size: u32,
    count: &mut Accesses,
) -> Result<u32, usize> {
    let nodes = tables.len();
    let mut left = size;
    let mut next = no_link();
    let mut last = 0;
    for i in 0..words.len() / 2 {
        let name = words[2 * i];
        let units = words[2 * i + 1];
        if name >= nodes || tables.used(name, count) {
            return Err(2 * i);
        }
        if units > left {
            return Err(2 * i + 1);
        }
        left -= units;
        prepend(tables, &mut last, next, name, left, units, count);
        next = tables.link_to(name);
    }
    if left != 0 {
        return Err(words.len() - 1);
    }
    Ok(last)
}

// Writes an unused name onto the stack, and marks its node as used.
fn put_unused<T: Tables>(tables: &mut T, place: u32, name: u32, count: &mut Accesses) {
    tables.set_spare(place, link_to(name), count);
    tables.set_used(name, true, count);
}

/// Writes the unused names, and marks their nodes as used. Returns the place of the word that is wrong, if
/// one is.
pub(crate) fn place_unused<T: Tables>(
    tables: &mut T,
    words: &[u32],
    count: &mut Accesses,
) -> Option<usize> {
    let nodes = tables.len();
    for i in 0..words.len() {
        let name = words[i];
        if name >= nodes || tables.used(name, count) {
            return Some(i);
        }
        put_unused(tables, i as u32, name, count);
    }
    None
}

/// Takes the marks of the unused names away.
pub(crate) fn clear_marks<T: Tables>(tables: &mut T, words: &[u32], count: &mut Accesses) {
    for i in 0..words.len() {
        tables.set_used(words[i], false, count);
    }
}

// Makes a used block free, and the newest of its bin, which is that of this class.
fn free_name<T: Tables>(store: &mut Store<T>, name: u32, class: u32) {
    store.tables.set_used(name, false, &mut store.accesses);
    bins::push(store, name, class);
}

/// Frees the blocks of these names, which are in the order of bins, the last one first. Returns the place of
/// the word that is wrong, if one is.
pub(crate) fn free_names<T: Tables>(store: &mut Store<T>, words: &[u32]) -> Option<usize> {
    let nodes = store.tables.len();
    // the class of the name after
    let mut most = 255;
    for i in 0..words.len() {
        let at = words.len() - 1 - i;
        let name = words[at];
        if name >= nodes || !store.tables.used(name, &mut store.accesses) {
            return Some(at);
        }
        let size = store.tables.size(name, &mut store.accesses);
        let class = uint_to_float_round_down(size);
        if class > most {
            return Some(at);
        }
        most = class;
        free_name(store, name, class);
    }
    None
}

/// What a walk over the blocks finds.
pub(crate) struct Overview {
    /// The units of the free blocks.
    pub(crate) free_units: u32,
    /// The number of used blocks.
    pub(crate) used: u32,
}

/// Walks over the blocks, from the end of the space to its start. Returns how many it passed where it meets
/// two neighbours that are both free.
pub(crate) fn look_over<T: Tables>(
    tables: &T,
    last: u32,
    blocks: u32,
    count: &mut Accesses,
) -> Result<Overview, usize> {
    let mut found = Overview {
        free_units: 0,
        used: 0,
    };
    let mut name = last;
    let mut is_free_after = false;
    for i in 0..blocks {
        let is_free = !tables.used(name, count);
        if is_free && is_free_after {
            return Err(i as usize);
        }
        if is_free {
            found.free_units += tables.size(name, count);
        } else {
            found.used += 1;
        }
        is_free_after = is_free;
        if let Some(before) = linked(tables.before(name, count)) {
            name = before;
        }
    }
    Ok(found)
}

/// What is wrong with the words of a state, and the place of the word in its list.
pub(crate) enum Wrong {
    /// A block: its name is that of no node or of another block, or the sizes are not that of the space.
    Block(usize),
    /// An unused name: it is that of no node or of a block, or listed twice.
    Unused(usize),
    /// The name of a free block: it is that of no block, listed twice, or not in the order of bins.
    Free(usize),
    /// A block and the one after it are both free.
    Neighbours(usize),
}

// The blocks, all used, and the unused names.
fn lay_out<T: Tables>(
    alloc: Global,
    size: u32,
    limit: u32,
    blocks: &[u32],
    unused: &[u32],
) -> Result<Result<Store<T>, Wrong>, AllocError> {
    let mut count = Accesses::new();
    let nodes = (blocks.len() / 2 + unused.len()) as u32;
    let mut tables: T = with_nodes(alloc, limit, nodes, &mut count)?;
    let last = match place_blocks(&mut tables, blocks, size, &mut count) {
        Err(at) => return Ok(Err(Wrong::Block(at))),
        Ok(last) => last,
    };
    if let Some(at) = place_unused(&mut tables, unused, &mut count) {
        return Ok(Err(Wrong::Unused(at)));
    }
    clear_marks(&mut tables, unused, &mut count);
    let top_mask = bins::empty_mask(&tables);
    Ok(Ok(Store {
        tables,
        top_mask,
        last,
        spare_count: unused.len() as u32,
        accesses: Accesses::new(),
    }))
}

/// The store of a space with these blocks, of which those with the names in `free` are free, and these unused
/// names.
pub(crate) fn build<T: Tables>(
    alloc: Global,
    size: u32,
    limit: u32,
    blocks: &[u32],
    free: &[u32],
    unused: &[u32],
) -> Result<Result<(Store<T>, Overview), Wrong>, AllocError> {
    let mut store = match lay_out(alloc, size, limit, blocks, unused)? {
        Err(wrong) => return Ok(Err(wrong)),
        Ok(store) => store,
    };
    if let Some(at) = free_names(&mut store, free) {
        return Ok(Err(Wrong::Free(at)));
    }
    let mut count = Accesses::new();
    match look_over(
        &store.tables,
        store.last,
        (blocks.len() / 2) as u32,
        &mut count,
    ) {
        Err(at) => Ok(Err(Wrong::Neighbours(at))),
        Ok(found) => Ok(Ok((store, found))),
    }
}
