// Printed by rust/erase from crates/offset_heaps/src/walks.rt: change it there.

//! Walks from one live range of a heap to the next in space. It changes nothing.

use crate::HeapsOf;
use crate::place::Place;
use offset_allocator::Tables;
use offset_guarded::Ticket;

impl<T: Tables> HeapsOf<T> {
    // The place of a ticket in the heap of a number.
    fn place_at(&self, heap: u32, ticket: Option<Ticket>) -> Option<Place> {
        match ticket {
            None => None,
            Some(ticket) => Some(Place::from_ticket(heap, self.realm, ticket)),
        }
    }

    /// The place of the live range that is the first one in the heap of a number, or `None` where nothing is
    /// live in it, or the number has no heap. From it on, [`live_after`](Self::live_after) walks all live ranges of the heap; they
    /// may be freed on the way, after the next one is asked for.
    ///
    /// ```
    /// # use offset_allocator_heaps::*;
    /// # let alloc = Global;
    /// let limits = Limits { size: 1000, first_size: 1000, max_allocs: 100, first_allocs: 8, most: 2, most_larger: 1 };
    /// let mut heaps = Heaps::<u32>::new(alloc, limits)?;
    /// let mesh = heaps.allocate(300).unwrap().place;
    /// heaps.allocate(100).unwrap();
    /// assert_eq!(heaps.first_live(mesh.heap), Some(mesh));
    /// # Ok::<(), AllocError>(())
    /// ```
    pub fn first_live(&self, number: u32) -> Option<Place> {
        match self.heap(number) {
            None => None,
            Some(guarded) => self.place_at(number, guarded.first_live()),
        }
    }

    /// The place of the live range that is the last one in the heap of a number, or `None` where nothing is
    /// live in it, or the number has no heap. From it on, [`live_before`](Self::live_before) walks all live ranges of the heap;
    /// they may be freed on the way, after the next one is asked for.
    ///
    /// ```
    /// # use offset_allocator_heaps::*;
    /// # let alloc = Global;
    /// let limits = Limits { size: 1000, first_size: 1000, max_allocs: 100, first_allocs: 8, most: 2, most_larger: 1 };
    /// let mut heaps = Heaps::<u32>::new(alloc, limits)?;
    /// let mesh = heaps.allocate(300).unwrap().place;
    /// let texture = heaps.allocate(100).unwrap().place;
    /// assert_eq!(heaps.last_live(mesh.heap), Some(texture));
    /// # Ok::<(), AllocError>(())
    /// ```
    pub fn last_live(&self, number: u32) -> Option<Place> {
        match self.heap(number) {
            None => None,
            Some(guarded) => self.place_at(number, guarded.last_live()),
        }
    }

    /// The place of the live range directly before that of a place in its heap. `None` where there is none,
    /// or where the place is not live.
    ///
    /// ```
    /// # use offset_allocator_heaps::*;
    /// # let alloc = Global;
    /// let limits = Limits { size: 1000, first_size: 1000, max_allocs: 100, first_allocs: 8, most: 2, most_larger: 1 };
    /// let mut heaps = Heaps::<u32>::new(alloc, limits)?;
    /// let mesh = heaps.allocate(300).unwrap().place;
    /// let texture = heaps.allocate(100).unwrap().place;
    /// assert_eq!(heaps.live_before(texture), Some(mesh));
    /// # Ok::<(), AllocError>(())
    /// ```
    pub fn live_before(&self, place: Place) -> Option<Place> {
        match self.heap_of(&place) {
            None => None,
            Some(guarded) => {
                let (number, _, ticket) = place.split();
                self.place_at(number, guarded.live_before(ticket))
            }
        }
    }

    /// The place of the live range directly after that of a place in its heap. `None` where there is none, or
    /// where the place is not live. [`place_after`](Self::place_after) goes on in the next heap.
    ///
    /// ```
    /// # use offset_allocator_heaps::*;
    /// # let alloc = Global;
    /// let limits = Limits { size: 1000, first_size: 1000, max_allocs: 100, first_allocs: 8, most: 2, most_larger: 1 };
    /// let mut heaps = Heaps::<u32>::new(alloc, limits)?;
    /// let mesh = heaps.allocate(300).unwrap().place;
    /// let texture = heaps.allocate(100).unwrap().place;
    /// assert_eq!(heaps.live_after(mesh), Some(texture));
    /// # Ok::<(), AllocError>(())
    /// ```
    pub fn live_after(&self, place: Place) -> Option<Place> {
        match self.heap_of(&place) {
            None => None,
            Some(guarded) => {
                let (number, _, ticket) = place.split();
                self.place_at(number, guarded.live_after(ticket))
            }
        }
    }
}
