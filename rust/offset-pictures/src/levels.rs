// Printed by rust/erase from crates/offset_pictures/src/levels.rt: change it there.

//! The values of the lower plot: the free units, the largest free region, and what it would be without
//! fragmentation. It only computes.

use offset_allocator::StorageReport;
use offset_allocator::small_float::{float_to_uint, uint_to_float_round_down};
use crate::memory::Vec;
use crate::memory::{AllocError, Global};

/// The numbers of each state that the lower plot has a line of.
pub struct Levels {
    /// The free units.
    pub free: Vec<u32>,
    /// The class value of all free units, as if they were one block: the gap from the largest free region to
    /// this is fragmentation.
    pub joined: Vec<u32>,
    /// The largest free region.
    pub most: Vec<u32>,
}

// The largest free region that is reported where these units are one free block: the value of its class.
fn joined(units: u32) -> u32 {
    float_to_uint(uint_to_float_round_down(units))
}

/// The values of the lower plot, of each state.
pub fn levels_of(alloc: Global, reports: &[StorageReport]) -> Result<Levels, AllocError> {
    let mut free = Vec::with_capacity(alloc, reports.len())?;
    let mut joined_units = Vec::with_capacity(alloc, reports.len())?;
    let mut most = Vec::with_capacity(alloc, reports.len())?;
    for report in reports {
        free.push(report.total_free_space)?;
        joined_units.push(joined(report.total_free_space))?;
        most.push(report.largest_free_region)?;
    }
    Ok(Levels {
        free,
        joined: joined_units,
        most,
    })
}
