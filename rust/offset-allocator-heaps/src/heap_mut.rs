// Printed by rust/erase from crates/offset_heaps/src/heap_mut.rt: change it there.

//! One heap of many, changed by the calls of one space with tickets. Each call changes one slot, and notes it in the
//! index.

use crate::HeapsOf;
use crate::limits::least_units;
use crate::place::Place;
use offset_allocator::{Accesses, Move, Progress, RoomCost, Tables};
use offset_guarded::{GuardedOf, Ticket};
use core::ops::Deref;

/// The heap of a number, to be changed by the calls of one space with tickets: each does in this heap what it does in a
/// [`GuardedOf`](crate::GuardedOf), under the node limit that the heap has now, and no other heap changes. A refused call leaves all heaps as
/// they were. `heap_mut` of [`Heaps`](crate::Heaps) returns one. It derefs to the `GuardedOf`, for all questions.
/// `retract` leaves the heap its least units.
///
/// A place of `Heaps` and a ticket here are of one grant: `Place::ticket` makes the ticket, `place` the place. A ticket has
/// the realm of the heap alone, and not that of the `Heaps`: of two whose realms were chosen by hand tickets may be alike.
///
/// Beside its work in the heap, a call touches at most 16 slots and cells of the index for each bit of the count of numbers,
/// and 32; none takes memory. If `moved` panics, the heaps must not be used any more: drop them.
///
/// ```
/// # use offset_allocator_heaps::*;
/// # let alloc = Global;
/// let limits = Limits { size: 1000, first_size: 1000, max_allocs: 100, first_allocs: 8, most: 2, most_larger: 1 };
/// let mut heaps = Heaps::<u32>::new(alloc, limits)?;
/// let hole = heaps.allocate(300).unwrap().place;
/// let mesh = heaps.allocate_aligned(200, 256).unwrap().place;
/// heaps.free(hole);
/// let mut heap = heaps.heap_mut(0).unwrap();
/// heap.compact_by(512, |it| assert_eq!((it.from, it.to, it.size), (512, 0, 200)));
/// assert_eq!(heaps.offset_of(mesh), Some(0));
/// # Ok::<(), AllocError>(())
/// ```
pub struct HeapMut<'a, T: Tables> {
    heaps: &'a mut HeapsOf<T>,
    number: u32,
}

impl<T: Tables> HeapsOf<T> {
    /// The heap of a number, to be changed by the calls of one space with tickets, or `None` where the number has no heap.
    ///
    /// ```
    /// # use offset_allocator_heaps::*;
    /// # let alloc = Global;
    /// let limits = Limits { size: 1000, first_size: 1000, max_allocs: 100, first_allocs: 8, most: 2, most_larger: 1 };
    /// let mut heaps = Heaps::<u32>::new(alloc, limits)?;
    /// heaps.allocate(300).unwrap();
    /// let captured = heaps.heap_mut(0).unwrap().allocate_at(512, 100).unwrap();
    /// assert_eq!(captured.offset, 512);
    /// assert!(heaps.heap_mut(1).is_none());
    /// # Ok::<(), AllocError>(())
    /// ```
    pub fn heap_mut(&mut self, number: u32) -> Option<HeapMut<'_, T>> {
        if self.slots.has(number, &mut Accesses::new()) {
            Some(HeapMut {
                heaps: self,
                number,
            })
        } else {
            None
        }
    }
}

impl<T: Tables> Deref for HeapMut<'_, T> {
    type Target = GuardedOf<T>;

    fn deref(&self) -> &GuardedOf<T> {
        match self.heaps.heap(self.number) {
            Some(heap) => heap,
            None => unreachable!(),
        }
    }
}

// Takes `less` units off the end of a heap, where it has `least` units after it.
fn retract_to<T: Tables>(heap: &mut GuardedOf<T>, least: u32, less: u32) -> bool {
    let size = heap.allocator().size();
    if (least as u64) + (less as u64) > size as u64 {
        return false;
    }
    heap.retract(less)
}

// A call of tickets on the heap, which is noted in the index; its result.
macro_rules! in_heap {
    ($of:ident.$call:ident($($argument:expr),*)) => {{
        let heaps = &mut *$of.heaps;
        let result = heaps
            .slots
            .heap_mut($of.number, &mut heaps.accesses)
            .$call($($argument),*);
        heaps.index.note(&heaps.slots, $of.number, heaps.limits, &mut heaps.accesses);
        result
    }};
}

impl<T: Tables> HeapMut<'_, T> {
    /// The number of the heap.
    ///
    /// ```
    /// # use offset_allocator_heaps::*;
    /// # let alloc = Global;
    /// let limits = Limits { size: 1000, first_size: 1000, max_allocs: 100, first_allocs: 8, most: 2, most_larger: 1 };
    /// let mut heaps = Heaps::<u32>::new(alloc, limits)?;
    /// let first = heaps.allocate(1).unwrap().place;
    /// heaps.free(first);
    /// let mut heap = heaps.heap_mut(0).unwrap();
    /// assert_eq!(heap.number(), 0);
    /// # Ok::<(), AllocError>(())
    /// ```
    pub fn number(&self) -> u32 {
        self.number
    }

    /// The place of a ticket in this heap, for the calls of [`Heaps`](crate::Heaps).
    ///
    /// ```
    /// # use offset_allocator_heaps::*;
    /// # let alloc = Global;
    /// let limits = Limits { size: 1000, first_size: 1000, max_allocs: 100, first_allocs: 8, most: 2, most_larger: 1 };
    /// let mut heaps = Heaps::<u32>::new(alloc, limits)?;
    /// heaps.allocate(300).unwrap();
    /// let mut heap = heaps.heap_mut(0).unwrap();
    /// let mesh = heap.allocate(100).unwrap();
    /// let place = heap.place(mesh);
    /// assert_eq!(heaps.size_of(place), Some(100));
    /// # Ok::<(), AllocError>(())
    /// ```
    pub fn place(&self, ticket: Ticket) -> Place {
        Place::from_ticket(self.number, self.heaps.realm(), ticket)
    }

    /// As `GuardedOf::allocate` in this heap, whether or not a heap before it has room.
    ///
    /// ```
    /// # use offset_allocator_heaps::*;
    /// # let alloc = Global;
    /// let limits = Limits { size: 1000, first_size: 1000, max_allocs: 100, first_allocs: 8, most: 2, most_larger: 1 };
    /// let mut heaps = Heaps::<u32>::new(alloc, limits)?;
    /// heaps.allocate(900).unwrap();
    /// let mesh = heaps.heap_mut(0).unwrap().allocate(50).unwrap();
    /// assert_eq!(mesh.offset, 900);
    /// # Ok::<(), AllocError>(())
    /// ```
    pub fn allocate(&mut self, size: u32) -> Option<Ticket> {
        in_heap!(self.allocate(size))
    }

    /// As `GuardedOf::allocate_aligned` in this heap, at an alignment from 1 on, which is taken into the step of the heap.
    ///
    /// # Panics
    ///
    /// It panics unless the alignment is at least 1.
    ///
    /// ```
    /// # use offset_allocator_heaps::*;
    /// # let alloc = Global;
    /// let limits = Limits { size: 1000, first_size: 1000, max_allocs: 100, first_allocs: 8, most: 2, most_larger: 1 };
    /// let mut heaps = Heaps::<u32>::new(alloc, limits)?;
    /// let first = heaps.allocate(1).unwrap().place;
    /// heaps.free(first);
    /// let mut heap = heaps.heap_mut(0).unwrap();
    /// heap.allocate(10).unwrap();
    /// assert_eq!(heap.allocate_aligned(100, 256).unwrap().offset, 256);
    /// # Ok::<(), AllocError>(())
    /// ```
    #[track_caller]
    pub fn allocate_aligned(&mut self, size: u32, align: u32) -> Option<Ticket> {
        assert!(1 <= align, "the alignment must be at least 1");
        in_heap!(self.allocate_aligned(size, align))
    }

    /// As `GuardedOf::free` in this heap.
    ///
    /// ```
    /// # use offset_allocator_heaps::*;
    /// # let alloc = Global;
    /// let limits = Limits { size: 1000, first_size: 1000, max_allocs: 100, first_allocs: 8, most: 2, most_larger: 1 };
    /// let mut heaps = Heaps::<u32>::new(alloc, limits)?;
    /// let mesh = heaps.allocate(300).unwrap();
    /// assert!(heaps.heap_mut(0).unwrap().free(mesh.place.ticket(mesh.offset)));
    /// assert!(!heaps.is_live(mesh.place));
    /// # Ok::<(), AllocError>(())
    /// ```
    pub fn free(&mut self, ticket: Ticket) -> bool {
        in_heap!(self.free(ticket))
    }

    /// As `GuardedOf::allocate_tight` in this heap.
    ///
    /// ```
    /// # use offset_allocator_heaps::*;
    /// # let alloc = Global;
    /// let limits = Limits { size: 1000, first_size: 1000, max_allocs: 100, first_allocs: 8, most: 2, most_larger: 1 };
    /// let mut heaps = Heaps::<u32>::new(alloc, limits)?;
    /// let first = heaps.allocate(1).unwrap().place;
    /// heaps.free(first);
    /// let mut heap = heaps.heap_mut(0).unwrap();
    /// assert!(heap.allocate(1000).is_none());
    /// assert!(heap.allocate_tight(1000).is_some());
    /// # Ok::<(), AllocError>(())
    /// ```
    pub fn allocate_tight(&mut self, size: u32) -> Option<Ticket> {
        in_heap!(self.allocate_tight(size))
    }

    /// As `GuardedOf::allocate_tight_aligned` in this heap, at an alignment from 1 on, which is taken into the step of the heap.
    ///
    /// # Panics
    ///
    /// It panics unless the alignment is at least 1.
    ///
    /// ```
    /// # use offset_allocator_heaps::*;
    /// # let alloc = Global;
    /// let limits = Limits { size: 1000, first_size: 1000, max_allocs: 100, first_allocs: 8, most: 2, most_larger: 1 };
    /// let mut heaps = Heaps::<u32>::new(alloc, limits)?;
    /// let first = heaps.allocate(1).unwrap().place;
    /// heaps.free(first);
    /// let mut heap = heaps.heap_mut(0).unwrap();
    /// heap.allocate(256).unwrap();
    /// assert_eq!(heap.allocate_tight_aligned(700, 256).unwrap().offset, 256);
    /// # Ok::<(), AllocError>(())
    /// ```
    #[track_caller]
    pub fn allocate_tight_aligned(&mut self, size: u32, align: u32) -> Option<Ticket> {
        assert!(1 <= align, "the alignment must be at least 1");
        in_heap!(self.allocate_tight_aligned(size, align))
    }

    /// As `GuardedOf::allocate_at` in this heap: the units from an offset on, where they are free.
    ///
    /// ```
    /// # use offset_allocator_heaps::*;
    /// # let alloc = Global;
    /// let limits = Limits { size: 1000, first_size: 1000, max_allocs: 100, first_allocs: 8, most: 2, most_larger: 1 };
    /// let mut heaps = Heaps::<u32>::new(alloc, limits)?;
    /// let first = heaps.allocate(1).unwrap().place;
    /// heaps.free(first);
    /// let mut heap = heaps.heap_mut(0).unwrap();
    /// assert_eq!(heap.allocate_at(512, 100).unwrap().offset, 512);
    /// assert!(heap.allocate_at(600, 100).is_none());
    /// # Ok::<(), AllocError>(())
    /// ```
    pub fn allocate_at(&mut self, offset: u32, size: u32) -> Option<Ticket> {
        in_heap!(self.allocate_at(offset, size))
    }

    /// As `GuardedOf::shrink` in this heap.
    ///
    /// ```
    /// # use offset_allocator_heaps::*;
    /// # let alloc = Global;
    /// let limits = Limits { size: 1000, first_size: 1000, max_allocs: 100, first_allocs: 8, most: 2, most_larger: 1 };
    /// let mut heaps = Heaps::<u32>::new(alloc, limits)?;
    /// let first = heaps.allocate(1).unwrap().place;
    /// heaps.free(first);
    /// let mut heap = heaps.heap_mut(0).unwrap();
    /// let mesh = heap.allocate(300).unwrap();
    /// assert_eq!(heap.shrink(mesh, 200), Some(true));
    /// # Ok::<(), AllocError>(())
    /// ```
    pub fn shrink(&mut self, ticket: Ticket, size: u32) -> Option<bool> {
        in_heap!(self.shrink(ticket, size))
    }

    /// As `GuardedOf::grow_in_place` in this heap.
    ///
    /// ```
    /// # use offset_allocator_heaps::*;
    /// # let alloc = Global;
    /// let limits = Limits { size: 1000, first_size: 1000, max_allocs: 100, first_allocs: 8, most: 2, most_larger: 1 };
    /// let mut heaps = Heaps::<u32>::new(alloc, limits)?;
    /// let first = heaps.allocate(1).unwrap().place;
    /// heaps.free(first);
    /// let mut heap = heaps.heap_mut(0).unwrap();
    /// let mesh = heap.allocate(300).unwrap();
    /// assert_eq!(heap.grow_in_place(mesh, 400), Some(true));
    /// # Ok::<(), AllocError>(())
    /// ```
    pub fn grow_in_place(&mut self, ticket: Ticket, size: u32) -> Option<bool> {
        in_heap!(self.grow_in_place(ticket, size))
    }

    /// As `GuardedOf::relocate` in this heap: a second range before the first one, which keeps every alignment. `relocate` of
    /// [`Heaps`](crate::Heaps) grants one in another heap.
    ///
    /// ```
    /// # use offset_allocator_heaps::*;
    /// # let alloc = Global;
    /// let limits = Limits { size: 1000, first_size: 1000, max_allocs: 100, first_allocs: 8, most: 2, most_larger: 1 };
    /// let mut heaps = Heaps::<u32>::new(alloc, limits)?;
    /// let first = heaps.allocate(1).unwrap().place;
    /// heaps.free(first);
    /// let mut heap = heaps.heap_mut(0).unwrap();
    /// let hole = heap.allocate(320).unwrap();
    /// let mesh = heap.allocate_aligned(200, 256).unwrap();
    /// heap.free(hole);
    /// assert_eq!(heap.relocate(mesh).unwrap().offset, 0);
    /// # Ok::<(), AllocError>(())
    /// ```
    pub fn relocate(&mut self, ticket: Ticket) -> Option<Ticket> {
        in_heap!(self.relocate(ticket))
    }

    /// As `GuardedOf::relocate_aligned` in this heap, at an alignment from 1 on.
    ///
    /// # Panics
    ///
    /// It panics unless the alignment is at least 1.
    ///
    /// ```
    /// # use offset_allocator_heaps::*;
    /// # let alloc = Global;
    /// let limits = Limits { size: 1000, first_size: 1000, max_allocs: 100, first_allocs: 8, most: 2, most_larger: 1 };
    /// let mut heaps = Heaps::<u32>::new(alloc, limits)?;
    /// let first = heaps.allocate(1).unwrap().place;
    /// heaps.free(first);
    /// let mut heap = heaps.heap_mut(0).unwrap();
    /// let hole = heap.allocate(320).unwrap();
    /// let mesh = heap.allocate(200).unwrap();
    /// heap.free(hole);
    /// assert_eq!(heap.relocate_aligned(mesh, 64).unwrap().offset, 0);
    /// # Ok::<(), AllocError>(())
    /// ```
    #[track_caller]
    pub fn relocate_aligned(&mut self, ticket: Ticket, align: u32) -> Option<Ticket> {
        assert!(1 <= align, "the alignment must be at least 1");
        in_heap!(self.relocate_aligned(ticket, align))
    }

    /// As `GuardedOf::relocate_unaligned` in this heap: **the second range keeps no alignment**; that of [`relocate`](Self::relocate) keeps all.
    ///
    /// ```
    /// # use offset_allocator_heaps::*;
    /// # let alloc = Global;
    /// let limits = Limits { size: 1000, first_size: 1000, max_allocs: 100, first_allocs: 8, most: 2, most_larger: 1 };
    /// let mut heaps = Heaps::<u32>::new(alloc, limits)?;
    /// let first = heaps.allocate(1).unwrap().place;
    /// heaps.free(first);
    /// let mut heap = heaps.heap_mut(0).unwrap();
    /// let hole = heap.allocate(320).unwrap();
    /// let mesh = heap.allocate(320).unwrap();
    /// heap.free(hole);
    /// assert_eq!(heap.relocate_unaligned(mesh).unwrap().offset, 0);
    /// # Ok::<(), AllocError>(())
    /// ```
    pub fn relocate_unaligned(&mut self, ticket: Ticket) -> Option<Ticket> {
        in_heap!(self.relocate_unaligned(ticket))
    }

    /// As `GuardedOf::compact` in this heap: **each range keeps every alignment that was asked for**.
    ///
    /// ```
    /// # use offset_allocator_heaps::*;
    /// # let alloc = Global;
    /// let limits = Limits { size: 1000, first_size: 1000, max_allocs: 100, first_allocs: 8, most: 2, most_larger: 1 };
    /// let mut heaps = Heaps::<u32>::new(alloc, limits)?;
    /// let first = heaps.allocate(1).unwrap().place;
    /// heaps.free(first);
    /// let mut heap = heaps.heap_mut(0).unwrap();
    /// let hole = heap.allocate(300).unwrap();
    /// heap.allocate_aligned(100, 256).unwrap();
    /// heap.free(hole);
    /// assert!(heap.compact(|it| assert_eq!((it.from, it.to, it.size), (512, 0, 100))));
    /// # Ok::<(), AllocError>(())
    /// ```
    pub fn compact<F: FnMut(Move<T::Index>)>(&mut self, mut moved: F) -> bool {
        in_heap!(self.compact(&mut moved))
    }

    /// As `GuardedOf::compact_by` in this heap: each range keeps its alignment where that divides `step`, from 1 on.
    ///
    /// # Panics
    ///
    /// It panics unless the step is at least 1.
    ///
    /// ```
    /// # use offset_allocator_heaps::*;
    /// # let alloc = Global;
    /// let limits = Limits { size: 1000, first_size: 1000, max_allocs: 100, first_allocs: 8, most: 2, most_larger: 1 };
    /// let mut heaps = Heaps::<u32>::new(alloc, limits)?;
    /// let first = heaps.allocate(1).unwrap().place;
    /// heaps.free(first);
    /// let mut heap = heaps.heap_mut(0).unwrap();
    /// let hole = heap.allocate(300).unwrap();
    /// heap.allocate_aligned(256, 256).unwrap();
    /// heap.free(hole);
    /// assert!(heap.compact_by(256, |it| assert_eq!((it.from, it.to, it.size), (512, 0, 256))));
    /// # Ok::<(), AllocError>(())
    /// ```
    #[track_caller]
    pub fn compact_by<F: FnMut(Move<T::Index>)>(&mut self, step: u32, mut moved: F) -> bool {
        assert!(1 <= step, "the step must be at least 1");
        in_heap!(self.compact_by(step, &mut moved))
    }

    /// As `GuardedOf::compact_unaligned` in this heap: **a moved range keeps no alignment**; [`compact`](Self::compact) keeps all.
    ///
    /// ```
    /// # use offset_allocator_heaps::*;
    /// # let alloc = Global;
    /// let limits = Limits { size: 1000, first_size: 1000, max_allocs: 100, first_allocs: 8, most: 2, most_larger: 1 };
    /// let mut heaps = Heaps::<u32>::new(alloc, limits)?;
    /// let first = heaps.allocate(1).unwrap().place;
    /// heaps.free(first);
    /// let mut heap = heaps.heap_mut(0).unwrap();
    /// let hole = heap.allocate(300).unwrap();
    /// heap.allocate(100).unwrap();
    /// heap.free(hole);
    /// heap.compact_unaligned(|it| assert_eq!((it.from, it.to, it.size), (300, 0, 100)));
    /// # Ok::<(), AllocError>(())
    /// ```
    pub fn compact_unaligned<F: FnMut(Move<T::Index>)>(&mut self, mut moved: F) {
        in_heap!(self.compact_unaligned(&mut moved))
    }

    /// As `GuardedOf::compact_within` in this heap: a compaction over several frames, in which **each range keeps every
    /// alignment that was asked for**.
    ///
    /// ```
    /// # use offset_allocator_heaps::*;
    /// # let alloc = Global;
    /// let limits = Limits { size: 1000, first_size: 1000, max_allocs: 100, first_allocs: 8, most: 2, most_larger: 1 };
    /// let mut heaps = Heaps::<u32>::new(alloc, limits)?;
    /// let first = heaps.allocate(1).unwrap().place;
    /// heaps.free(first);
    /// let mut heap = heaps.heap_mut(0).unwrap();
    /// let hole = heap.allocate(300).unwrap();
    /// heap.allocate(100).unwrap();
    /// heap.allocate(100).unwrap();
    /// heap.free(hole);
    /// let progress = heap.compact_within(0, 150, 8, |_| {}).unwrap();
    /// assert_eq!((progress.units, progress.ranges, progress.next), (100, 1, Some(400)));
    /// # Ok::<(), AllocError>(())
    /// ```
    pub fn compact_within<F: FnMut(Move<T::Index>)>(
        &mut self,
        from: u32,
        most_units: u32,
        most_ranges: u32,
        mut moved: F,
    ) -> Option<Progress> {
        in_heap!(self.compact_within(from, most_units, most_ranges, &mut moved))
    }

    /// As `GuardedOf::compact_within_by` in this heap, by a step from 1 on.
    ///
    /// # Panics
    ///
    /// It panics unless the step is at least 1.
    ///
    /// ```
    /// # use offset_allocator_heaps::*;
    /// # let alloc = Global;
    /// let limits = Limits { size: 1000, first_size: 1000, max_allocs: 100, first_allocs: 8, most: 2, most_larger: 1 };
    /// let mut heaps = Heaps::<u32>::new(alloc, limits)?;
    /// let first = heaps.allocate(1).unwrap().place;
    /// heaps.free(first);
    /// let mut heap = heaps.heap_mut(0).unwrap();
    /// let hole = heap.allocate(300).unwrap();
    /// heap.allocate(100).unwrap();
    /// heap.free(hole);
    /// let progress = heap.compact_within_by(1, 0, 150, 8, |_| {}).unwrap();
    /// assert_eq!((progress.units, progress.ranges, progress.next), (100, 1, None));
    /// # Ok::<(), AllocError>(())
    /// ```
    #[track_caller]
    pub fn compact_within_by<F: FnMut(Move<T::Index>)>(
        &mut self,
        step: u32,
        from: u32,
        most_units: u32,
        most_ranges: u32,
        mut moved: F,
    ) -> Option<Progress> {
        assert!(1 <= step, "the step must be at least 1");
        in_heap!(self.compact_within_by(step, from, most_units, most_ranges, &mut moved))
    }

    /// As `GuardedOf::make_room` in this heap: **each range that moves keeps every alignment that was asked for**.
    ///
    /// ```
    /// # use offset_allocator_heaps::*;
    /// # let alloc = Global;
    /// let limits = Limits { size: 1000, first_size: 1000, max_allocs: 100, first_allocs: 8, most: 2, most_larger: 1 };
    /// let mut heaps = Heaps::<u32>::new(alloc, limits)?;
    /// let first = heaps.allocate(1).unwrap().place;
    /// heaps.free(first);
    /// let mut heap = heaps.heap_mut(0).unwrap();
    /// let hole = heap.allocate(300).unwrap();
    /// heap.allocate(100).unwrap();
    /// heap.free(hole);
    /// heap.make_room(800, |it| assert_eq!((it.from, it.to, it.size), (300, 0, 100)));
    /// assert!(heap.allocate(800).is_some());
    /// # Ok::<(), AllocError>(())
    /// ```
    pub fn make_room<F: FnMut(Move<T::Index>)>(
        &mut self,
        size: u32,
        mut moved: F,
    ) -> Option<RoomCost> {
        self.make_room_aligned(size, 1, &mut moved)
    }

    /// As `GuardedOf::make_room_aligned` in this heap, for an alignment from 1 on: **each range that moves keeps every alignment
    /// that was asked for**.
    ///
    /// # Panics
    ///
    /// It panics unless the alignment is at least 1.
    ///
    /// ```
    /// # use offset_allocator_heaps::*;
    /// # let alloc = Global;
    /// let limits = Limits { size: 1000, first_size: 1000, max_allocs: 100, first_allocs: 8, most: 2, most_larger: 1 };
    /// let mut heaps = Heaps::<u32>::new(alloc, limits)?;
    /// let first = heaps.allocate(1).unwrap().place;
    /// heaps.free(first);
    /// let mut heap = heaps.heap_mut(0).unwrap();
    /// let hole = heap.allocate(300).unwrap();
    /// heap.allocate_aligned(200, 256).unwrap();
    /// heap.free(hole);
    /// assert!(heap.allocate_aligned(512, 256).is_none());
    /// heap.make_room_aligned(512, 256, |it| assert_eq!((it.from, it.to, it.size), (512, 0, 200)));
    /// assert!(heap.allocate_aligned(512, 256).is_some());
    /// # Ok::<(), AllocError>(())
    /// ```
    #[track_caller]
    pub fn make_room_aligned<F: FnMut(Move<T::Index>)>(
        &mut self,
        size: u32,
        align: u32,
        mut moved: F,
    ) -> Option<RoomCost> {
        assert!(1 <= align, "the alignment must be at least 1");
        in_heap!(self.make_room_aligned(size, align, &mut moved))
    }

    /// As `GuardedOf::make_room_by` in this heap, for an alignment and by a step from 1 on.
    ///
    /// # Panics
    ///
    /// It panics unless the alignment is at least 1, and the step is at least 1.
    ///
    /// ```
    /// # use offset_allocator_heaps::*;
    /// # let alloc = Global;
    /// let limits = Limits { size: 1000, first_size: 1000, max_allocs: 100, first_allocs: 8, most: 2, most_larger: 1 };
    /// let mut heaps = Heaps::<u32>::new(alloc, limits)?;
    /// let first = heaps.allocate(1).unwrap().place;
    /// heaps.free(first);
    /// let mut heap = heaps.heap_mut(0).unwrap();
    /// let hole = heap.allocate(300).unwrap();
    /// heap.allocate_aligned(200, 256).unwrap();
    /// heap.free(hole);
    /// heap.make_room_by(512, 256, 512, |it| assert_eq!((it.from, it.to, it.size), (512, 0, 200)));
    /// assert!(heap.allocate_aligned(512, 256).is_some());
    /// # Ok::<(), AllocError>(())
    /// ```
    #[track_caller]
    pub fn make_room_by<F: FnMut(Move<T::Index>)>(
        &mut self,
        size: u32,
        align: u32,
        step: u32,
        mut moved: F,
    ) -> Option<RoomCost> {
        assert!(1 <= align, "the alignment must be at least 1");
        assert!(1 <= step, "the step must be at least 1");
        in_heap!(self.make_room_by(size, align, step, &mut moved))
    }

    /// As `GuardedOf::make_room_unaligned` in this heap: **a moved range keeps no alignment**; [`make_room_aligned`](Self::make_room_aligned) keeps all.
    ///
    /// ```
    /// # use offset_allocator_heaps::*;
    /// # let alloc = Global;
    /// let limits = Limits { size: 1000, first_size: 1000, max_allocs: 100, first_allocs: 8, most: 2, most_larger: 1 };
    /// let mut heaps = Heaps::<u32>::new(alloc, limits)?;
    /// let first = heaps.allocate(1).unwrap().place;
    /// heaps.free(first);
    /// let mut heap = heaps.heap_mut(0).unwrap();
    /// let hole = heap.allocate(300).unwrap();
    /// heap.allocate(100).unwrap();
    /// heap.free(hole);
    /// heap.make_room_unaligned(800, |it| assert_eq!((it.from, it.to, it.size), (300, 0, 100)));
    /// assert!(heap.allocate(800).is_some());
    /// # Ok::<(), AllocError>(())
    /// ```
    pub fn make_room_unaligned<F: FnMut(Move<T::Index>)>(
        &mut self,
        size: u32,
        mut moved: F,
    ) -> Option<RoomCost> {
        in_heap!(self.make_room_unaligned(size, &mut moved))
    }

    /// As `GuardedOf::extend` in this heap. `extend_heap` of [`Heaps`](crate::Heaps) raises its node limit too, where that is needed.
    ///
    /// ```
    /// # use offset_allocator_heaps::*;
    /// # let alloc = Global;
    /// let limits = Limits { size: 1000, first_size: 1000, max_allocs: 100, first_allocs: 8, most: 2, most_larger: 1 };
    /// let mut heaps = Heaps::<u32>::new(alloc, limits)?;
    /// let first = heaps.allocate(1).unwrap().place;
    /// heaps.free(first);
    /// let mut heap = heaps.heap_mut(0).unwrap();
    /// assert!(heap.extend(24));
    /// assert_eq!(heap.size(), 1024);
    /// # Ok::<(), AllocError>(())
    /// ```
    pub fn extend(&mut self, more: u32) -> bool {
        in_heap!(self.extend(more))
    }

    /// As `GuardedOf::retract` in this heap, where it leaves the heap its least units: those that the limits give its number,
    /// or one where it is a larger heap. So units that it was extended by can go again.
    ///
    /// `false` is returned where fewer would be left, or where its last block is not free or has fewer than `less`; then all is
    /// as it was.
    ///
    /// ```
    /// # use offset_allocator_heaps::*;
    /// # let alloc = Global;
    /// let limits = Limits { size: 1000, first_size: 1000, max_allocs: 100, first_allocs: 8, most: 2, most_larger: 1 };
    /// let mut heaps = Heaps::<u32>::new(alloc, limits)?;
    /// let first = heaps.allocate(1).unwrap().place;
    /// heaps.free(first);
    /// let mut heap = heaps.heap_mut(0).unwrap();
    /// assert!(heap.extend(24));
    /// assert!(heap.retract(24));
    /// assert!(!heap.retract(1));
    /// assert_eq!(heap.size(), 1000);
    /// # Ok::<(), AllocError>(())
    /// ```
    pub fn retract(&mut self, less: u32) -> bool {
        let heaps = &mut *self.heaps;
        let least = least_units(heaps.limits, self.number);
        let result = retract_to(
            heaps.slots.heap_mut(self.number, &mut heaps.accesses),
            least,
            less,
        );
        heaps.index.note(&heaps.slots, self.number, heaps.limits, &mut heaps.accesses);
        result
    }

    /// As `GuardedOf::raise_step` in this heap, by an alignment from 1 on.
    ///
    /// # Panics
    ///
    /// It panics unless the alignment is at least 1.
    ///
    /// ```
    /// # use offset_allocator_heaps::*;
    /// # let alloc = Global;
    /// let limits = Limits { size: 1000, first_size: 1000, max_allocs: 100, first_allocs: 8, most: 2, most_larger: 1 };
    /// let mut heaps = Heaps::<u32>::new(alloc, limits)?;
    /// let first = heaps.allocate(1).unwrap().place;
    /// heaps.free(first);
    /// let mut heap = heaps.heap_mut(0).unwrap();
    /// heap.raise_step(256);
    /// assert_eq!(heap.step(), Some(256));
    /// # Ok::<(), AllocError>(())
    /// ```
    #[track_caller]
    pub fn raise_step(&mut self, align: u32) {
        assert!(1 <= align, "the alignment must be at least 1");
        in_heap!(self.raise_step(align))
    }

    /// As `GuardedOf::reset` in this heap.
    ///
    /// ```
    /// # use offset_allocator_heaps::*;
    /// # let alloc = Global;
    /// let limits = Limits { size: 1000, first_size: 1000, max_allocs: 100, first_allocs: 8, most: 2, most_larger: 1 };
    /// let mut heaps = Heaps::<u32>::new(alloc, limits)?;
    /// let mesh = heaps.allocate(300).unwrap().place;
    /// heaps.heap_mut(0).unwrap().reset();
    /// assert!(!heaps.is_live(mesh));
    /// # Ok::<(), AllocError>(())
    /// ```
    pub fn reset(&mut self) {
        in_heap!(self.reset())
    }
}
