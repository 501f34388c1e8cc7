// Printed by rust/erase from crates/offset_heaps/src/compact.rt: change it there.

//! Ranges that slide to the front of their heap by its step, all or to make room, by the calls of tickets. It changes one
//! slot, or all, and notes it in the index.

use crate::HeapsOf;
use crate::index::Index;
use crate::limits::Limits;
use crate::slots::Slots;
use offset_allocator::{Accesses, Move, RoomCost, Tables};

// Whether both hold.
fn both(first: bool, second: bool) -> bool {
    first && second
}

// Slides live ranges of each heap to the front of its space by its step, and returns whether each was done.
fn compact_all<T: Tables, F: FnMut(u32, Move<T::Index>)>(
    slots: &mut Slots<T>,
    index: &mut Index,
    limits: Limits,
    moved: &mut F,
    count: &mut Accesses,
) -> bool {
    let mut all = true;
    for number in 0..limits.most + limits.most_larger {
        all = both(slots.compact_numbered(number, moved, count), all);
        index.note(slots, number, limits, count);
    }
    all
}

impl<T: Tables> HeapsOf<T> {
    /// Slides live ranges of the heap of a number to the front of its space by its step, as `GuardedOf::compact`
    /// does, so that **each keeps every alignment that was asked for**, and returns whether it was done. Every place
    /// stays live, with its size; [`offset_of`](Self::offset_of) returns where its range begins. `moved` is called with each move, in
    /// space order.
    ///
    /// `false` is returned, and no range moves, where the number has no heap, where the heap has no step (`heap(number)`
    /// says it by `step`), or where `GuardedOf::compact` refuses it under the node limit that the heap has now. No memory
    /// is taken here, so no limit is raised.
    ///
    /// ```
    /// # use offset_allocator_heaps::*;
    /// # let alloc = Global;
    /// let limits = Limits { size: 1000, first_size: 1000, max_allocs: 100, first_allocs: 8, most: 2, most_larger: 1 };
    /// let mut heaps = Heaps::<u32>::new(alloc, limits)?;
    /// let hole = heaps.allocate(300).unwrap().place;
    /// let mesh = heaps.allocate_aligned(100, 256).unwrap().place;
    /// heaps.free(hole);
    /// assert!(heaps.compact_heap(0, |it| assert_eq!((it.from, it.to, it.size), (512, 0, 100))));
    /// assert_eq!(heaps.offset_of(mesh), Some(0));
    /// # Ok::<(), AllocError>(())
    /// ```
    pub fn compact_heap<F: FnMut(Move<T::Index>)>(&mut self, number: u32, mut moved: F) -> bool {
        if !self.slots.has(number, &mut self.accesses) {
            return false;
        }
        let result = self
            .slots
            .heap_mut(number, &mut self.accesses)
            .compact(&mut moved);
        self.index
            .note(&self.slots, number, self.limits, &mut self.accesses);
        result
    }

    /// Slides live ranges of each heap to the front of its space by its step, as [`compact_heap`](Self::compact_heap) of each number that
    /// has one does, one after another, so that **each keeps every alignment that was asked for**, and returns whether
    /// it was done in each: one that refuses it stays as it is. Every place stays live, with its size; [`offset_of`](Self::offset_of)
    /// returns where its range begins. `moved` is called with the number of the heap and each move: by
    /// the numbers of the heaps, and in a heap in space order; each move is within the buffer of its number.
    /// No heap is made or dropped. It notes each number in the index, and takes the time of `GuardedOf::compact` for each heap.
    ///
    /// ```
    /// # use offset_allocator_heaps::*;
    /// # let alloc = Global;
    /// let limits = Limits { size: 1000, first_size: 1000, max_allocs: 100, first_allocs: 8, most: 2, most_larger: 1 };
    /// let mut heaps = Heaps::<u32>::new(alloc, limits)?;
    /// let hole = heaps.allocate(300).unwrap().place;
    /// let mesh = heaps.allocate(100).unwrap().place;
    /// heaps.free(hole);
    /// assert!(heaps.compact(|number, it| assert_eq!((number, it.from, it.to, it.size), (0, 300, 0, 100))));
    /// assert_eq!(heaps.offset_of(mesh), Some(0));
    /// # Ok::<(), AllocError>(())
    /// ```
    pub fn compact<F: FnMut(u32, Move<T::Index>)>(&mut self, mut moved: F) -> bool {
        compact_all(
            &mut self.slots,
            &mut self.index,
            self.limits,
            &mut moved,
            &mut self.accesses,
        )
    }

    /// Makes room for `allocate(size)` in the heap of a number, where ranges have to move for it: what
    /// `make_room_aligned(number, size, 1, moved)` does.
    ///
    /// ```
    /// # use offset_allocator_heaps::*;
    /// # let alloc = Global;
    /// let limits = Limits { size: 1000, first_size: 1000, max_allocs: 100, first_allocs: 8, most: 2, most_larger: 1 };
    /// let mut heaps = Heaps::<u32>::new(alloc, limits)?;
    /// let hole = heaps.allocate(300).unwrap().place;
    /// heaps.allocate(100).unwrap();
    /// heaps.free(hole);
    /// heaps.make_room(0, 800, |it| assert_eq!((it.from, it.to, it.size), (300, 0, 100)));
    /// assert_eq!(heaps.allocate(800).unwrap().place.heap, 0);
    /// # Ok::<(), AllocError>(())
    /// ```
    pub fn make_room<F: FnMut(Move<T::Index>)>(
        &mut self,
        number: u32,
        size: u32,
        mut moved: F,
    ) -> Option<RoomCost> {
        self.make_room_aligned(number, size, 1, &mut moved)
    }

    /// Makes room for `allocate_aligned(size, align)`, with an alignment from 1 on, in the heap of a number, where
    /// ranges have to move for it, as `GuardedOf::make_room_aligned` does by the step of the heap, so that **each range
    /// that moves keeps every alignment that was asked for**. It returns the cost; or `None` where no run of blocks gives
    /// up enough, the heap has no step, or the number has no heap, and then no range moves. Every place stays live, with
    /// its size; [`offset_of`](Self::offset_of) returns where its range begins. `moved` is called with each move, in space order.
    ///
    /// Room is made under the node limit that the heap has now: no memory is taken here. Whether a heap before it has
    /// room is not looked at: [`allocate_aligned`](Self::allocate_aligned) takes the first heap that has.
    ///
    /// # Panics
    ///
    /// It panics unless the alignment is at least 1.
    ///
    /// ```
    /// # use offset_allocator_heaps::*;
    /// # let alloc = Global;
    /// let limits = Limits { size: 1000, first_size: 1000, max_allocs: 100, first_allocs: 8, most: 2, most_larger: 1 };
    /// let mut heaps = Heaps::<u32>::new(alloc, limits)?;
    /// let hole = heaps.allocate(300).unwrap().place;
    /// heaps.allocate_aligned(200, 256).unwrap();
    /// heaps.free(hole);
    /// heaps.make_room_aligned(0, 512, 256, |it| assert_eq!((it.from, it.to, it.size), (512, 0, 200)));
    /// assert_eq!(heaps.allocate_aligned(512, 256).unwrap().place.heap, 0);
    /// # Ok::<(), AllocError>(())
    /// ```
    #[track_caller]
    pub fn make_room_aligned<F: FnMut(Move<T::Index>)>(
        &mut self,
        number: u32,
        size: u32,
        align: u32,
        mut moved: F,
    ) -> Option<RoomCost> {
        assert!(1 <= align, "the alignment must be at least 1");
        if !self.slots.has(number, &mut self.accesses) {
            return None;
        }
        let result = self
            .slots
            .heap_mut(number, &mut self.accesses)
            .make_room_aligned(size, align, &mut moved);
        self.index
            .note(&self.slots, number, self.limits, &mut self.accesses);
        result
    }
}
