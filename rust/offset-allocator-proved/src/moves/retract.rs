// Printed by rust/erase from crates/offset_allocator/src/moves/retract.rt: change it there.

//! Takes free units off the end of a space. It changes the last block alone, by `chain` and `bins`.

use crate::accesses::Accesses;
use crate::small_float::uint_to_float_round_down;
use crate::tables::Tables;
use crate::{AllocatorOf, bins, chain};

// The name of the block before the last one, where that has no unit left, if there is one.
fn next_end<T: Tables>(tables: &T, last: u32, left: u32, count: &mut Accesses) -> Option<u32> {
    if left == 0 {
        chain::before(tables, last, count)
    } else {
        None
    }
}

impl<T: Tables> AllocatorOf<T> {
    // Takes units off the last block, which is free, where it has that many.
    fn take_end(&mut self, less: u32) -> bool {
        let end = self.store.last;
        let size = self.store.tables.size(end, &mut self.store.accesses);
        if size < less {
            return false;
        }
        let left = size - less;
        let previous = next_end(&self.store.tables, end, left, &mut self.store.accesses);
        bins::remove(&mut self.store, end, size);
        self.size -= less;
        self.free_total -= less;
        match previous {
            Some(previous) => chain::drop_end(&mut self.store, previous, size),
            None => {
                chain::trim(&mut self.store.tables, end, left, &mut self.store.accesses);
                bins::push(&mut self.store, end, uint_to_float_round_down(left));
            }
        }
        true
    }

    /// Takes `less` free units off the end of the space, the reverse of [`extend`](Self::extend): from the last block, which
    /// goes where nothing is left of it and another one is before it. What is left of it is the newest of its
    /// bin.
    ///
    /// `false` is returned where the last block is used or has fewer units; then the space is as it was. With
    /// 0 units it is `true`, and the space is as it was too. It makes at most 64 accesses to the tables, and
    /// takes no memory.
    ///
    /// ```
    /// # use offset_allocator_proved::*;
    /// # let alloc = Global;
    /// let mut space = Allocator::<u32>::new(alloc, 1000)?;
    /// space.allocate(300);
    /// assert!(space.retract(700));
    /// assert_eq!(space.size(), 300);
    /// assert!(!space.retract(1));
    /// # Ok::<(), AllocError>(())
    /// ```
    pub fn retract(&mut self, less: u32) -> bool {
        if less == 0 {
            return true;
        }
        let end = self.store.last;
        if chain::is_used(&self.store.tables, end, &mut self.store.accesses) {
            return false;
        }
        self.take_end(less)
    }
}
