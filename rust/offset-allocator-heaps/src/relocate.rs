// Printed by rust/erase from crates/offset_heaps/src/relocate.rt: change it there.

//! Second ranges in other heaps, so that a heap can be emptied; and which one is the emptiest. It changes one
//! slot by a grant, and notes it in the index.

use crate::HeapsOf;
use crate::heap::units_for;
use crate::place::{Granted, Place};
use offset_allocator::{Accesses, Tables};

/// As `emptiest` of [`Heaps`](crate::Heaps). The count grows by the number of numbers, one for each slot.
pub fn emptiest_counted<T: Tables>(heaps: &HeapsOf<T>, count: &mut Accesses) -> Option<u32> {
    let limits = heaps.limits;
    heaps
        .slots
        .emptiest(limits.most + limits.most_larger, count)
}

impl<T: Tables> HeapsOf<T> {
    // The first heap that takes a range of `size` units of the heap `own`, which has `live` live units.
    fn taker(&mut self, own: u32, size: u32, align: u32, live: u32) -> Option<u32> {
        let units = units_for(size, align);
        let from = self.first_fit(units, align)?;
        let limits = self.limits;
        let numbers = limits.most + limits.most_larger;
        self.slots.taker(
            from,
            numbers,
            limits,
            own,
            size,
            align,
            live,
            &mut self.accesses,
        )
    }

    // The alignment that `relocate` asks for, or `None` where the place is not live, or its heap has no step.
    fn alignment_of(&mut self, place: Place) -> Option<u32> {
        let (own, realm, ticket) = place.split();
        if realm != self.realm {
            return None;
        }
        self.slots.alignment_at(own, ticket, &mut self.accesses)
    }

    /// Grants a second range of as many units as that of a live place, in another heap, **at every alignment that was
    /// asked for**, and returns its place and its offset; its heap is never a new one. The old range stays live until
    /// it is freed: so the units can be copied while the old ones are still read, and the copies never overlap. Done for
    /// all live ranges of the [`emptiest`](Self::emptiest) heap, by [`last_live`](Self::last_live) and [`live_before`](Self::live_before), it empties that heap, which [`drop_empty`](Self::drop_empty)
    /// then drops.
    ///
    /// It grants what `relocate_aligned(place, align)` grants, where `align` is what the offset of the range and the step
    /// of its heap have in common, their greatest common divisor, as `GuardedOf::relocate` does; the step of the other
    /// heap takes it in.
    ///
    /// The heap is the first one, by number, that has room, other than the place's own, and in which at least
    /// as many units are live. A range of no units, which [`shrink`](Self::shrink) may leave, needs room for one; since it adds
    /// no live unit, it goes to a heap with more live units, or with as many and a lower number: so each range
    /// of the `emptiest` heap may go to any other one that has room, and in which a unit is live. Calls of
    /// `relocate`, each followed by the release of its old range before the next one, come to an end, since the
    /// sum of the squares of the heaps' live units grows at each range that has units: see
    /// the law `relocations_end` of the proved sources. With later releases a range may go to and fro: make one pass, free what it left,
    /// then begin the next. No heap is made, and no
    /// memory is taken: a heap whose node limit would have to be raised for it, as `Limits::first_allocs` says,
    /// takes no range.
    ///
    /// `None` is returned where no heap takes the range, where its heap has no step, and where the place is not
    /// live; then nothing changes. It looks for the first heap that has room as [`allocate_aligned`](Self::allocate_aligned) does, and from
    /// there on reads each slot once, up to the one that takes the range.
    ///
    /// ```
    /// # use offset_allocator_heaps::*;
    /// # let alloc = Global;
    /// let limits = Limits { size: 1000, first_size: 1000, max_allocs: 100, first_allocs: 8, most: 2, most_larger: 1 };
    /// let mut heaps = Heaps::<u32>::new(alloc, limits)?;
    /// heaps.allocate(500).unwrap();
    /// let old = heaps.allocate(400).unwrap().place;
    /// let mesh = heaps.allocate_aligned(200, 256).unwrap().place;
    /// heaps.free(old);
    /// let moved = heaps.relocate(mesh).unwrap();
    /// assert_eq!((mesh.heap, moved.place.heap, moved.offset), (1, 0, 512));
    /// # Ok::<(), AllocError>(())
    /// ```
    pub fn relocate(&mut self, place: Place) -> Option<Granted> {
        let align = self.alignment_of(place)?;
        self.relocate_aligned(place, align)
    }

    /// As [`relocate`](Self::relocate), and the second range begins at a multiple of `align`, from 1 on, whatever alignment the first
    /// one has: with 1 at any. Its heap is the first other one that has room for an aligned request as
    /// [`allocate_aligned`](Self::allocate_aligned) has it, for `size + align - 1` units, or one where that is none, and that may take it as
    /// `relocate` says. It is for a range in a heap that has no step, and for one that needs less.
    ///
    /// # Panics
    ///
    /// It panics unless the alignment is at least 1.
    ///
    /// ```
    /// # use offset_allocator_heaps::*;
    /// # let alloc = Global;
    /// let limits = Limits { size: 1000, first_size: 1000, max_allocs: 100, first_allocs: 8, most: 2, most_larger: 1 };
    /// let mut heaps = Heaps::<u32>::new(alloc, limits)?;
    /// heaps.allocate(500).unwrap();
    /// let old = heaps.allocate(400).unwrap().place;
    /// let uniforms = heaps.allocate_aligned(200, 256).unwrap().place;
    /// heaps.free(old);
    /// let moved = heaps.relocate_aligned(uniforms, 256).unwrap();
    /// assert_eq!((moved.place.heap, moved.offset), (0, 512));
    /// # Ok::<(), AllocError>(())
    /// ```
    #[track_caller]
    pub fn relocate_aligned(&mut self, place: Place, align: u32) -> Option<Granted> {
        assert!(1 <= align, "the alignment must be at least 1");
        let (own, realm, ticket) = place.split();
        if realm != self.realm {
            return None;
        }
        let (size, live) = self.slots.units_at(own, ticket, &mut self.accesses)?;
        let number = self.taker(own, size, align, live)?;
        Some(self.grant_at(number, size, align))
    }

    /// The number of the heap with the fewest live units of those that have a live range, the last such by
    /// number, or `None` where nothing is live: the heap that is emptied with the least copies. It reads the
    /// slot of each number once.
    ///
    /// ```
    /// # use offset_allocator_heaps::*;
    /// # let alloc = Global;
    /// let limits = Limits { size: 1000, first_size: 1000, max_allocs: 100, first_allocs: 8, most: 2, most_larger: 1 };
    /// let mut heaps = Heaps::<u32>::new(alloc, limits)?;
    /// assert_eq!(heaps.emptiest(), None);
    /// let mesh = heaps.allocate(300).unwrap().place;
    /// assert_eq!(heaps.emptiest(), Some(mesh.heap));
    /// # Ok::<(), AllocError>(())
    /// ```
    pub fn emptiest(&self) -> Option<u32> {
        emptiest_counted(self, &mut Accesses::new())
    }
}
