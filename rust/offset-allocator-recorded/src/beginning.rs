//! The lines after which a fresh space is as a given one: with its live ranges, and its free blocks in the order of its bins.

use offset_allocator_proved::{AllocError, AllocatorOf, Global, Tables};

/// A line.
pub(crate) enum Step {
    /// Grants these units of a block: its name where it is live, where it begins, and how many.
    At(Option<u32>, u32, u32),
    /// The grant of this number has these units: what it had behind them is a free block.
    Shrink(u32, u32),
    /// Frees the grant of this number.
    Free(u32),
    /// The space loses its last unit.
    Retract,
}

/// What makes a fresh space of `size` units one that was given.
pub(crate) struct Beginning {
    pub(crate) size: u32,
    pub(crate) steps: Vec<Step>,
}

/// Why a space has no such lines.
pub(crate) enum NoBeginning {
    /// It has blocks of no units, and as many blocks as its node limit admits, or as many units as there can be.
    Full,
    Memory,
}

impl From<AllocError> for NoBeginning {
    fn from(_: AllocError) -> Self {
        NoBeginning::Memory
    }
}

// A list with room for so many.
fn room_for<I>(count: usize) -> Result<Vec<I>, NoBeginning> {
    let mut list = Vec::new();
    list.try_reserve_exact(count).map_err(|_| NoBeginning::Memory)?;
    Ok(list)
}

// A block: its name, where it begins, its units, and, where it is free, its place in the lists of all bins.
struct Block {
    name: u32,
    offset: u32,
    size: u32,
    free: Option<usize>,
}

// The blocks of a space, from its start. The bytes of a state have the lists of its bins: `docs/STATES.md` says how.
fn blocks_of<T: Tables>(space: &AllocatorOf<T>) -> Result<Vec<Block>, NoBeginning> {
    let bytes = space.write_state(Global)?;
    let word = |i: usize| u32::from_le_bytes([bytes[4 * i], bytes[4 * i + 1], bytes[4 * i + 2], bytes[4 * i + 3]]);
    let (count, free) = (word(4) as usize, word(5) as usize);
    let mut places: Vec<(u32, usize)> = room_for(free)?;
    places.extend((0..free).map(|i| (word(7 + 2 * count + i), i)));
    places.sort_unstable();
    let mut blocks = room_for(count)?;
    let mut offset = 0;
    for i in (0..count).rev() {
        let (name, size) = (word(7 + 2 * i), word(8 + 2 * i));
        let place = places.binary_search_by_key(&name, |place| place.0).ok();
        blocks.push(Block { name, offset, size, free: place.map(|i| places[i].1) });
        offset += size;
    }
    Ok(blocks)
}

/// The lines for a space, in which live ranges are granted at their places, each with the free block behind it, and then
/// give that back, the oldest free block of a bin first.
pub(crate) fn beginning<T: Tables>(space: &AllocatorOf<T>) -> Result<Beginning, NoBeginning> {
    let blocks = blocks_of(space)?;
    let mut size = space.size();
    // a line for each block, and one to retract
    let mut steps = room_for(blocks.len() + 1)?;
    if blocks.iter().all(|block| block.free.is_some()) {
        return Ok(Beginning { size, steps });
    }
    let is_first_free = blocks[0].free.is_some();
    if is_first_free && blocks[0].size > 0 && blocks.iter().filter(|block| block.free.is_some()).count() == 1 && blocks[blocks.len() - 1].size > 0 {
        // from the end on, each range leaves the units before it, and no further node is lacking
        steps.extend(blocks[1..].iter().rev().map(|block| Step::At(Some(block.name), block.offset, block.size)));
        return Ok(Beginning { size, steps });
    }
    // a range of no units at the end needs a unit behind it
    let is_longer = blocks[blocks.len() - 1].size == 0;
    if is_longer {
        size = size.checked_add(1).ok_or(NoBeginning::Full)?;
    }
    let mut given_back: Vec<(usize, Step)> = room_for(blocks.len())?;
    for block in &blocks {
        match (block.free, steps.last_mut()) {
            // behind a range; a free block of no units is none of it
            (Some(place), Some(Step::At(Some(_), _, units))) if block.size > 0 => {
                let held = *units;
                *units += block.size;
                given_back.push((place, Step::Shrink(steps.len() as u32, held)));
            }
            (Some(place), _) => {
                steps.push(Step::At(None, block.offset, block.size));
                given_back.push((place, Step::Free(steps.len() as u32)));
            }
            (None, _) => steps.push(Step::At(Some(block.name), block.offset, block.size)),
        }
    }
    // a request that takes all of a block needs room for one more
    if steps.len() as u64 + 2 > u64::from(space.max_allocs()) {
        return Err(NoBeginning::Full);
    }
    if is_longer {
        steps.push(Step::Retract);
    }
    // the newest free block of a class is the first in its list
    given_back.sort_unstable_by_key(|back| std::cmp::Reverse(back.0));
    steps.try_reserve(given_back.len()).map_err(|_| NoBeginning::Memory)?;
    steps.extend(given_back.into_iter().map(|back| back.1));
    Ok(Beginning { size, steps })
}
