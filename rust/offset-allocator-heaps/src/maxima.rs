// Printed by rust/erase from crates/offset_heaps/src/maxima.rt: change it there.

//! A row of keys, one for the number of each heap: the first and the last number whose key is large enough
//! are found in few steps, by a tree of maxima. It touches its own cells alone, and counts each access.

use offset_allocator::Accesses;
use crate::memory::Vec;
use crate::memory::{AllocError, Global};

/// A key for each number from 0 on.
pub(crate) struct Maxima {
    // the keys are the second half; before them, from cell 1 on, each cell has the larger one of two
    cells: Vec<u32>,
    height: u32,
}

// Reads a cell.
#[inline(always)]
fn read(cells: &Vec<u32>, place: usize, count: &mut Accesses) -> u32 {
    count.tick();
    cells[place]
}

// The larger one of a cell's key, which is given, and that of the other cell below the same one.
#[inline(always)]
fn larger_of_two(cells: &Vec<u32>, place: usize, key: u32, count: &mut Accesses) -> u32 {
    if place % 2 == 0 {
        key.max(read(cells, place + 1, count))
    } else {
        key.max(read(cells, place - 1, count))
    }
}

// Writes a cell.
#[inline(always)]
fn write(cells: &mut Vec<u32>, place: usize, key: u32, count: &mut Accesses) {
    count.tick();
    cells[place] = key;
}

/// The levels that a row of `count` numbers needs, and two to the power of them.
pub(crate) fn levels_for(count: u32) -> (u32, usize) {
    let mut height = 0u32;
    let mut places = 1usize;
    while height < 32 && places < count as usize {
        places *= 2;
        height += 1;
    }
    (height, places)
}

impl Maxima {
    /// Two to the power of `height` keys, each 0.
    pub(crate) fn with_height(alloc: Global, height: u32, places: usize) -> Result<Self, AllocError> {
        let mut cells = Vec::with_capacity(alloc, 2 * places)?;
        for _place in 0..2 * places {
            cells.push(0)?;
        }
        Ok(Maxima { cells, height })
    }

    /// The first number whose key is at least `least`, or `None` where there is none.
    #[inline]
    pub(crate) fn first_at_least(&self, least: u64, count: &mut Accesses) -> Option<u32> {
        if (read(&self.cells, 1, count) as u64) < least {
            return None;
        }
        let mut place = 1;
        for _level in 0..self.height {
            place *= 2;
            if (read(&self.cells, place, count) as u64) < least {
                place += 1;
            }
        }
        Some((place - self.cells.len() / 2) as u32)
    }

    /// The last number whose key is at least `least`, or `None` where there is none.
    pub(crate) fn last_at_least(&self, least: u64, count: &mut Accesses) -> Option<u32> {
        let mut last = 1;
        if (read(&self.cells, last, count) as u64) < least {
            return None;
        }
        for _level in 0..self.height {
            last = 2 * last + 1;
            if (read(&self.cells, last, count) as u64) < least {
                last -= 1;
            }
        }
        Some((last - self.cells.len() / 2) as u32)
    }

    /// Writes the key of a number, and returns the one that it had. It is inlined, since most keys stay: out of
    /// line a step takes about a tenth more instructions by `release`.
    #[inline]
    pub(crate) fn set(&mut self, at: u32, key: u32, count: &mut Accesses) -> u32 {
        let mut place = self.cells.len() / 2 + at as usize;
        let was = read(&self.cells, place, count);
        if was == key {
            return was;
        }
        write(&mut self.cells, place, key, count);
        let mut larger = key;
        for _level in 0..self.height {
            larger = larger_of_two(&self.cells, place, larger, count);
            place /= 2;
            if read(&self.cells, place, count) == larger {
                return was;
            }
            write(&mut self.cells, place, larger, count);
        }
        was
    }
}
