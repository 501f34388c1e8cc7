#![doc = include_str!("../README.md")]
#![no_std]
#![forbid(unsafe_code)]
#![warn(missing_docs)]

use core::fmt;

use offset_allocator_proved::Global;

pub mod ext;
mod index;

use index::Index;
pub use index::{NodeIndex, NodeIndexNonMax};
pub use offset_allocator_proved::{IsMax, NonMaxU16, NonMaxU32, StorageReport, StorageReportFull, StorageReportFullRegion};

/// One space of units, and its allocations.
pub struct Allocator<NI = u32>
where
    NI: NodeIndex,
{
    proved: offset_allocator_proved::Allocator<Index<NI>>,
}

/// An allocated range.
#[derive(Clone, Copy)]
pub struct Allocation<NI = u32>
where
    NI: NodeIndex,
{
    /// The place of the first unit, in the index type: a `u16` has its low 16 bits.
    pub offset: NI,
    name: NI::NonMax,
}

impl<NI> Allocation<NI>
where
    NI: NodeIndex,
{
    fn of(proved: offset_allocator_proved::Allocation<Index<NI>>) -> Self {
        let (offset, name) = proved.to_parts();
        match NI::NonMax::try_from(NI::from_u32(name)) {
            Ok(name) => Allocation { offset: NI::from_u32(offset), name },
            Err(_) => panic!("an index type that keeps no name"),
        }
    }

    // Only the name counts in the calls below; the offset is for the message of a panic.
    fn proved(self) -> offset_allocator_proved::Allocation<Index<NI>> {
        let name = self.name.to_usize() as u32;
        match offset_allocator_proved::Allocation::from_parts(self.offset.to_usize() as u32, name) {
            Some(proved) => proved,
            None => panic!("an index type that keeps no name"),
        }
    }
}

impl<NI> Allocator<NI>
where
    NI: NodeIndex,
{
    /// Makes a space of `size` units, all free, for at most 131,070 allocations, or `NI::MAX - 4` where that is less.
    ///
    /// # Panics
    ///
    /// Where an allocation of the tables fails.
    #[track_caller]
    pub fn new(size: u32) -> Self {
        Allocator::with_max_allocs(size, u32::min(128 * 1024, NI::MAX - 2))
    }

    /// Makes a space of `size` units, all free, for at most `max_allocs - 2` allocations.
    ///
    /// # Panics
    ///
    /// Where `max_allocs` is below 2, or not below `NI::MAX - 1`, and where an allocation of the tables fails.
    #[track_caller]
    pub fn with_max_allocs(size: u32, max_allocs: u32) -> Self {
        match offset_allocator_proved::Allocator::with_max_allocs(Global, size, max_allocs) {
            Ok(proved) => Allocator { proved },
            Err(error) => panic!("{error}: the tables of {max_allocs} nodes"),
        }
    }

    /// Makes the whole space free again. No earlier allocation is live then.
    pub fn reset(&mut self) {
        self.proved.reset();
    }

    /// Allocates `size` units. Returns `None` where no free range is sure to have that many, or no node is left.
    pub fn allocate(&mut self, size: u32) -> Option<Allocation<NI>> {
        self.proved.allocate(size).map(Allocation::of)
    }

    /// Frees an allocated range.
    ///
    /// # Panics
    ///
    /// Where the node of the allocation is not in use here: it was freed, or a reset freed it. A stale allocation, or one
    /// of another allocator, whose node is in use here cannot be distinguished from the live one, and frees that one.
    #[track_caller]
    pub fn free(&mut self, allocation: Allocation<NI>) {
        self.proved.free(allocation.proved());
    }

    /// Returns the units of an allocated range, exactly as requested, or 0 where the allocation is not live.
    pub fn allocation_size(&self, allocation: Allocation<NI>) -> u32 {
        self.proved.allocation_size(allocation.proved())
    }

    /// Returns the total of free units, and the largest request that would be granted. Both are 0 where no node is
    /// left.
    pub fn storage_report(&self) -> StorageReport {
        self.proved.storage_report()
    }

    /// Returns the number of free ranges of each size class.
    pub fn storage_report_full(&self) -> StorageReportFull {
        self.proved.storage_report_full()
    }
}

/// The text is that of the short report.
impl<NI> fmt::Debug for Allocator<NI>
where
    NI: NodeIndex,
{
    fn fmt(&self, f: &mut fmt::Formatter<'_>) -> fmt::Result {
        // the text of the original
        self.proved.storage_report().fmt(f)
    }
}
