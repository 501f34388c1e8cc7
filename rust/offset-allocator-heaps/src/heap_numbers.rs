// Printed by rust/erase from crates/offset_heaps/src/heap_numbers.rt: change it there.

//! Which numbers have heaps, and of how many units; and the live places of all heaps, one after another. It
//! changes nothing.

use crate::HeapsOf;
use crate::place::Place;
use offset_allocator::{Accesses, Tables};

/// As `first_heap` of [`Heaps`](crate::Heaps). The count grows at most by the number of numbers, one for each slot.
pub fn first_heap_counted<T: Tables>(heaps: &HeapsOf<T>, count: &mut Accesses) -> Option<u32> {
    let limits = heaps.limits;
    heaps
        .slots
        .heap_from(0, limits.most + limits.most_larger, count)
}

/// As `heap_after` of [`Heaps`](crate::Heaps). The count grows at most by the number of numbers, one for each slot.
pub fn heap_after_counted<T: Tables>(
    heaps: &HeapsOf<T>,
    number: u32,
    count: &mut Accesses,
) -> Option<u32> {
    let limits = heaps.limits;
    let numbers = limits.most + limits.most_larger;
    if number >= numbers {
        return None;
    }
    heaps.slots.heap_from(number + 1, numbers, count)
}

impl<T: Tables> HeapsOf<T> {
    /// The units of the heap of a number, or `None` where it has none: what the buffer of a new heap needs.
    ///
    /// ```
    /// # use offset_allocator_heaps::*;
    /// # let alloc = Global;
    /// let limits = Limits { size: 1000, first_size: 1000, max_allocs: 100, first_allocs: 8, most: 2, most_larger: 1 };
    /// let mut heaps = Heaps::<u32>::new(alloc, limits)?;
    /// let mesh = heaps.allocate(300).unwrap();
    /// assert_eq!((mesh.is_new, heaps.units_of_heap(mesh.place.heap)), (true, Some(1000)));
    /// # Ok::<(), AllocError>(())
    /// ```
    pub fn units_of_heap(&self, number: u32) -> Option<u32> {
        match self.heap(number) {
            None => None,
            Some(heap) => Some(heap.allocator().size()),
        }
    }

    /// The first number that has a heap, or `None` where there is no heap. From it on, [`heap_after`](Self::heap_after) walks all
    /// heaps. It reads the slots up to that number.
    ///
    /// ```
    /// # use offset_allocator_heaps::*;
    /// # let alloc = Global;
    /// let limits = Limits { size: 1000, first_size: 1000, max_allocs: 100, first_allocs: 8, most: 2, most_larger: 1 };
    /// let mut heaps = Heaps::<u32>::new(alloc, limits)?;
    /// assert_eq!(heaps.first_heap(), None);
    /// heaps.allocate(300).unwrap();
    /// assert_eq!(heaps.first_heap(), Some(0));
    /// # Ok::<(), AllocError>(())
    /// ```
    pub fn first_heap(&self) -> Option<u32> {
        first_heap_counted(self, &mut Accesses::new())
    }

    /// The first number after this one that has a heap, or `None` where none has. Any number is taken. It
    /// reads the slots up to that number.
    ///
    /// ```
    /// # use offset_allocator_heaps::*;
    /// # let alloc = Global;
    /// let limits = Limits { size: 1000, first_size: 1000, max_allocs: 100, first_allocs: 8, most: 2, most_larger: 1 };
    /// let mut heaps = Heaps::<u32>::new(alloc, limits)?;
    /// heaps.allocate(900).unwrap();
    /// heaps.allocate(900).unwrap();
    /// assert_eq!((heaps.heap_after(0), heaps.heap_after(1)), (Some(1), None));
    /// # Ok::<(), AllocError>(())
    /// ```
    pub fn heap_after(&self, number: u32) -> Option<u32> {
        heap_after_counted(self, number, &mut Accesses::new())
    }

    // The first live place of the heaps from a number on.
    fn place_from(&self, from: u32) -> Option<Place> {
        for number in from..self.limits.most + self.limits.most_larger {
            if let Some(place) = self.first_live(number) {
                return Some(place);
            }
        }
        None
    }

    /// The first live place of all heaps, by their numbers, and in a heap from its start; or `None` where
    /// nothing is live. From it on, [`place_after`](Self::place_after) walks all live places; they may be freed on the way, after
    /// the next one is asked for.
    ///
    /// ```
    /// # use offset_allocator_heaps::*;
    /// # let alloc = Global;
    /// let limits = Limits { size: 1000, first_size: 1000, max_allocs: 100, first_allocs: 8, most: 2, most_larger: 1 };
    /// let mut heaps = Heaps::<u32>::new(alloc, limits)?;
    /// let mesh = heaps.allocate(300).unwrap().place;
    /// assert_eq!(heaps.first_place(), Some(mesh));
    /// # Ok::<(), AllocError>(())
    /// ```
    pub fn first_place(&self) -> Option<Place> {
        self.place_from(0)
    }

    /// The live place after this one: that of the live range directly after it in its heap, or else the first
    /// one of the heaps behind it. `None` where there is none, or where the place is not live.
    ///
    /// ```
    /// # use offset_allocator_heaps::*;
    /// # let alloc = Global;
    /// let limits = Limits { size: 1000, first_size: 1000, max_allocs: 100, first_allocs: 8, most: 2, most_larger: 1 };
    /// let mut heaps = Heaps::<u32>::new(alloc, limits)?;
    /// let mesh = heaps.allocate(900).unwrap().place;
    /// let texture = heaps.allocate(900).unwrap().place;
    /// assert_eq!(heaps.place_after(mesh), Some(texture));
    /// # Ok::<(), AllocError>(())
    /// ```
    pub fn place_after(&self, place: Place) -> Option<Place> {
        // what is read recalls that numbers have 32 bits
        let _ = &self.limits;
        if !self.is_live(place) {
            return None;
        }
        match self.live_after(place) {
            None => self.place_from(place.heap + 1),
            Some(next) => Some(next),
        }
    }
}
