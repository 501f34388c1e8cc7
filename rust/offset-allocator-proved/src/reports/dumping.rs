// Printed by rust/erase from crates/offset_allocator/src/reports/dumping.rt: change it there.

//! A space as JSON, for tools that draw or count its blocks. It only reads the space.

use crate::AllocatorOf;
use crate::index::NodeIndex;
use crate::reports::blocks::Block;
use crate::reports::statistics::Statistics;
use crate::tables::Tables;
use crate::memory::String;
use crate::memory::Vec;
use crate::memory::{AllocError, Global};

// The blocks of a space, in space order.
fn blocks_in_order<T: Tables>(
    alloc: Global,
    space: &AllocatorOf<T>,
) -> Result<Vec<Block<T::Index>>, AllocError> {
    let mut blocks = Vec::new(alloc);
    for block in space.blocks() {
        blocks.push(block)?;
    }
    blocks.reverse();
    Ok(blocks)
}

// Appends a comma, but not before the first.
fn put_comma(text: &mut String, first: bool) -> Result<(), AllocError> {
    if first {
        return Ok(());
    }
    write!(text, ",")
}

// Appends a block.
fn put_block<NI: NodeIndex>(text: &mut String, block: &Block<NI>) -> Result<(), AllocError> {
    let offset = block.offset;
    let size = block.size;
    match block.allocation {
        None => write!(text, "{{\"offset\":{offset},\"size\":{size}}}"),
        Some(handle) => {
            let name = handle.name();
            write!(
                text,
                "{{\"offset\":{offset},\"size\":{size},\"name\":{name}}}"
            )
        }
    }
}

// Appends a block as VMA has it.
fn put_vma_block<NI: NodeIndex>(text: &mut String, block: &Block<NI>) -> Result<(), AllocError> {
    let offset = block.offset;
    let size = block.size;
    match block.allocation {
        None => write!(
            text,
            "{{\"Offset\":{offset},\"Type\":\"FREE\",\"Size\":{size}}}"
        ),
        Some(_) => write!(
            text,
            "{{\"Offset\":{offset},\"Type\":\"UNKNOWN\",\"Size\":{size}}}"
        ),
    }
}

// Appends blocks, with commas between them.
fn put_blocks<NI: NodeIndex>(text: &mut String, blocks: &[Block<NI>]) -> Result<(), AllocError> {
    let mut first = true;
    for block in blocks {
        put_comma(text, first)?;
        put_block(text, block)?;
        first = false;
    }
    Ok(())
}

// The same, as VMA has them.
fn put_vma_blocks<NI: NodeIndex>(text: &mut String, blocks: &[Block<NI>]) -> Result<(), AllocError> {
    let mut first = true;
    for block in blocks {
        put_comma(text, first)?;
        put_vma_block(text, block)?;
        first = false;
    }
    Ok(())
}

// Appends the size, the node limit, and what is live.
fn put_live(
    text: &mut String,
    size: u32,
    max_allocs: u32,
    sums: &Statistics,
) -> Result<(), AllocError> {
    let ranges = sums.live_ranges;
    let live = sums.live_units;
    write!(
        text,
        "{{\"size\":{size},\"max_allocs\":{max_allocs},\"live_ranges\":{ranges},\"live_units\":{live}"
    )
}

// Appends what is free, and the nodes that no block has.
fn put_free(text: &mut String, sums: &Statistics) -> Result<(), AllocError> {
    let blocks = sums.free_blocks;
    let free = sums.free_units;
    let block = sums.largest_free_block;
    let region = sums.largest_free_region;
    let unused = sums.unused_nodes;
    write!(
        text,
        ",\"free_blocks\":{blocks},\"free_units\":{free},\"largest_free_block\":{block},\"largest_free_region\":{region},\"unused_nodes\":{unused},\"blocks\":["
    )
}

// Appends the numbers of a space.
fn put_numbers(
    text: &mut String,
    size: u32,
    max_allocs: u32,
    sums: &Statistics,
) -> Result<(), AllocError> {
    put_live(text, size, max_allocs, sums)?;
    put_free(text, sums)
}

// Appends what VMA has before the ranges.
fn put_vma_numbers(text: &mut String, size: u32, sums: &Statistics) -> Result<(), AllocError> {
    let units = sums.free_units;
    let ranges = sums.live_ranges;
    let free = sums.free_blocks;
    write!(
        text,
        "{{\"General\":{{\"API\":\"Vulkan\"}},\"DefaultPools\":{{\"Type 0\":{{\"PreferredBlockSize\":{size},\"Blocks\":{{\"0\":{{\"TotalBytes\":{size},\"UnusedBytes\":{units},\"Allocations\":{ranges},\"UnusedRanges\":{free},\"Suballocations\":["
    )
}

/// A space as JSON: an object with its `size` and `max_allocs`, its statistics by their names, and `blocks`,
/// in space order: each with `offset` and `size`, and a used one with its `name`.
///
/// It returns the text, or [`AllocError`](crate::AllocError) where an allocation fails.
///
/// ```
/// # use offset_allocator_proved::*;
/// # let alloc = Global;
/// let mut space = Allocator::<u32>::new(alloc, 1000)?;
/// let text = json_of(alloc, &space)?;
/// assert!(text.starts_with("{\"size\":1000,"));
/// # Ok::<(), AllocError>(())
/// ```
pub fn json_of<T: Tables>(alloc: Global, space: &AllocatorOf<T>) -> Result<String, AllocError> {
    let blocks = blocks_in_order(alloc, space)?;
    let mut text = String::new(alloc);
    let sums = space.statistics();
    put_numbers(&mut text, space.size(), space.max_allocs(), &sums)?;
    put_blocks(&mut text, &blocks)?;
    write!(text, "]}}")?;
    Ok(text)
}

/// A space in the form of the dumps of VMA, the Vulkan Memory Allocator, as one block of memory, with the fields
/// that its viewer, `GpuMemDumpVis.py`, reads.
///
/// It returns the text, or [`AllocError`](crate::AllocError) where an allocation fails.
///
/// ```
/// # use offset_allocator_proved::*;
/// # let alloc = Global;
/// let mut space = Allocator::<u32>::new(alloc, 1000)?;
/// let text = vma_json_of(alloc, &space)?;
/// assert!(text.starts_with("{\"General\":{\"API\":\"Vulkan\"}"));
/// # Ok::<(), AllocError>(())
/// ```
pub fn vma_json_of<T: Tables>(alloc: Global, space: &AllocatorOf<T>) -> Result<String, AllocError> {
    let blocks = blocks_in_order(alloc, space)?;
    let mut text = String::new(alloc);
    let sums = space.statistics();
    put_vma_numbers(&mut text, space.size(), &sums)?;
    put_vma_blocks(&mut text, &blocks)?;
    write!(text, "]}}}},\"DedicatedAllocations\":[]}}}}}}")?;
    Ok(text)
}
