//! Ranges that are freed by their offset: a map leads from the first unit of a range to its handle. Where ranges move, it has to be
//! changed with each move.

use offset_allocator_proved::{AllocError, Allocation, Allocator, Global};
use std::collections::HashMap;

struct ByOffset {
    space: Allocator,
    at: HashMap<u32, Allocation>,
}

impl ByOffset {
    fn allocate(&mut self, size: u32) -> Option<u32> {
        // ranges of no units may share an offset
        let range = self.space.allocate_tight(size.max(1))?;
        self.at.insert(range.offset, range);
        Some(range.offset)
    }

    /// Whether a range began there.
    fn free(&mut self, offset: u32) -> bool {
        // `remove` takes an entry once
        let Some(range) = self.at.remove(&offset) else { return false };
        self.space.free(range);
        true
    }
}

fn main() -> Result<(), AllocError> {
    let mut heap = ByOffset { space: Allocator::new(Global, 100)?, at: HashMap::new() };
    let (first, second) = (heap.allocate(30), heap.allocate(70));
    assert_eq!((first, second), (Some(0), Some(30)));
    assert!(heap.allocate(1).is_none());
    assert!(heap.free(30) && !heap.free(30) && !heap.free(31));
    assert_eq!(heap.allocate(70), Some(30));
    println!("{} ranges are live", heap.at.len());
    Ok(())
}
