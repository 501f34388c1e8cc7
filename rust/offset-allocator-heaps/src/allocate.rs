// Printed by rust/erase from crates/offset_heaps/src/allocate.rt: change it there.

//! Requests: which heap grants one, and when another heap is made for it. It changes one slot, and notes it
//! in the index.

use crate::index::LARGER_KEY;
use crate::limits::usual_room;
use crate::place::Granted;
use crate::refusal::Refusal;
use crate::{HeapsOf, fresh};
use offset_allocator::Tables;
use offset_guarded::{GuardedOf, Ticket};
use crate::memory::AllocError;

// A number, where it is below a limit.
pub(crate) fn below(found: Option<u32>, limit: u32) -> Option<u32> {
    match found {
        None => None,
        Some(number) => {
            if number < limit {
                return Some(number);
            }
            None
        }
    }
}

mod calls {
    use super::*;

    impl<T: Tables> HeapsOf<T> {
        /// Grants `size` units of one heap: what `allocate_aligned(size, 1)` grants.
        ///
        /// A heap has room exactly for requests up to the `largest_free_region` that its report would have under its
        /// largest node limit, while it has a serial left: see the law `room_is_reported` of the proved sources.
        ///
        /// ```
        /// # use offset_allocator_heaps::*;
        /// # let alloc = Global;
        /// let limits = Limits { size: 1000, first_size: 1000, max_allocs: 100, first_allocs: 8, most: 2, most_larger: 1 };
        /// let mut heaps = Heaps::<u32>::new(alloc, limits)?;
        /// let mesh = heaps.allocate(300).unwrap();
        /// assert!(mesh.is_new);
        /// let level = heaps.allocate(5000).unwrap();
        /// assert_eq!(heaps.size_of(level.place), Some(5000));
        /// # Ok::<(), AllocError>(())
        /// ```
        pub fn allocate(&mut self, size: u32) -> Result<Granted, Refusal> {
            self.allocate_aligned(size, 1)
        }

        /// Grants `size` units of one heap that begin at a multiple of `align`, from 1 on, in that heap.
        ///
        /// It is the first heap, by number, that has room for `size + align - 1` units, and it grants what
        /// `GuardedOf::allocate_aligned` grants. Where none has, another heap is made,
        /// whose first range begins at 0, a multiple of every alignment: so it needs room for `size` units alone.
        /// If the last usual heap, the largest, would have that, it is a usual one, of the first number below
        /// `most` that no heap has and whose heap would have it, of `first_size` units doubled as often as its
        /// number says, and at most `size`; else a larger heap of exactly `size` units, all of which are granted,
        /// with the first number from `most` on that no heap has, and with the node limit 4: it never has more than
        /// two live ranges. A usual heap begins with the node limit `first_allocs`, and has room exactly where it
        /// would have room under `max_allocs`: see the law `room_is_granted` of the proved sources. Where its own limit is
        /// lower, and its space would refuse the request for want of nodes, the limit is first doubled, as
        /// `GuardedOf::raised` does it, to `max_allocs` at most: that is always enough. Only for a new heap and for
        /// more nodes memory is requested, and never where the request is granted without them.
        ///
        /// Where the request is refused, all is as it was, and the [`Refusal`](crate::Refusal) says why.
        ///
        /// # Panics
        ///
        /// It panics unless the alignment is at least 1.
        ///
        /// ```
        /// # use offset_allocator_heaps::*;
        /// # let alloc = Global;
        /// let limits = Limits { size: 1000, first_size: 1000, max_allocs: 100, first_allocs: 8, most: 2, most_larger: 1 };
        /// let mut heaps = Heaps::<u32>::new(alloc, limits)?;
        /// heaps.allocate(10).unwrap();
        /// let uniforms = heaps.allocate_aligned(300, 256).unwrap().place;
        /// assert_eq!(heaps.offset_of(uniforms), Some(256));
        /// let page = heaps.allocate_aligned(960, 256).unwrap().place;
        /// assert_eq!((page.heap, heaps.offset_of(page)), (1, Some(0)));
        /// # Ok::<(), AllocError>(())
        /// ```
        #[track_caller]
        pub fn allocate_aligned(&mut self, size: u32, align: u32) -> Result<Granted, Refusal> {
            assert!(1 <= align, "the alignment must be at least 1");
            self.serve(size, align)
        }
    }
}

// of lib.rt
mod more_calls {
    use crate::*;

    impl<T: Tables> HeapsOf<T> {
        /// Frees the range of a place, as `GuardedOf::free` does in its heap, and returns `true`; or `false`
        /// where the place is not live, and then nothing changes. The heap stays, also where it is empty then:
        /// [`drop_empty`](Self::drop_empty) drops it.
        ///
        /// ```
        /// # use offset_allocator_heaps::*;
        /// # let alloc = Global;
        /// let limits = Limits { size: 1000, first_size: 1000, max_allocs: 100, first_allocs: 8, most: 2, most_larger: 1 };
        /// let mut heaps = Heaps::<u32>::new(alloc, limits)?;
        /// let mesh = heaps.allocate(300).unwrap().place;
        /// assert!(heaps.free(mesh));
        /// assert!(!heaps.free(mesh));
        /// # Ok::<(), AllocError>(())
        /// ```
        pub fn free(&mut self, place: Place) -> bool {
            let (number, realm, ticket) = place.split();
            if realm != self.realm {
                return false;
            }
            if !self.slots.free(number, ticket, &mut self.accesses) {
                return false;
            }
            self.index
                .note(&self.slots, number, self.limits, &mut self.accesses);
            true
        }
    }
}

impl<T: Tables> HeapsOf<T> {
    // The first heap that has room for a request.
    pub(crate) fn first_fit(&mut self, units: u64, align: u32) -> Option<u32> {
        self.index.first_fit(units, align, &mut self.accesses)
    }

    // Whether the last usual heap, if there may be any, has that many units for a request when it is fresh.
    pub(crate) fn is_usual(&self, size: u32) -> bool {
        let limits = self.limits;
        if limits.most == 0 {
            return false;
        }
        size <= usual_room(limits, limits.most - 1)
    }

    // The first number of a usual heap that has none, and whose heap would have room for a request.
    fn spare_usual(&mut self, size: u32) -> Option<u32> {
        let found = self
            .index
            .spare
            .first_at_least(size as u64, &mut self.accesses);
        below(found, self.limits.most)
    }

    // The first number of a larger heap that has none.
    fn spare_larger(&mut self) -> Option<u32> {
        // what is read recalls that sizes have 32 bits
        let _ = &self.limits;
        self.index
            .spare
            .first_at_least(LARGER_KEY as u64, &mut self.accesses)
    }

    // Doubles the node limit of the heap of a number, where it has to be raised for a grant that may add `blocks`
    // blocks.
    pub(crate) fn raise(&mut self, number: u32, blocks: u32) -> Result<(), AllocError> {
        self.slots.raise(self.alloc, number, self.limits, blocks, &mut self.accesses)
    }

    // Grants a request in the heap of a number, which has room for it, and for one unit, and whose node limit need
    // not be raised.
    pub(crate) fn grant_at(&mut self, number: u32, size: u32, align: u32) -> Granted {
        let ticket = self.slots.grant(number, size, align, &mut self.accesses);
        self.index
            .note(&self.slots, number, self.limits, &mut self.accesses);
        Granted::of(number, self.realm, ticket, false)
    }

    // Grants a request in the first heap that has room for it, and raises its node limit first where it has to.
    fn grant_first(&mut self, number: u32, size: u32, align: u32) -> Result<Granted, Refusal> {
        match self.raise(number, align.min(2)) {
            Err(_) => Err(Refusal::Memory),
            Ok(_) => Ok(self.grant_at(number, size, align)),
        }
    }

    // Puts a heap that was made at a number that has none.
    fn add(&mut self, number: u32, slot: Option<GuardedOf<T>>, ticket: Ticket) -> Granted {
        self.slots.put(number, slot, &mut self.accesses);
        self.made += 1;
        self.index
            .note(&self.slots, number, self.limits, &mut self.accesses);
        Granted::of(number, self.realm, ticket, true)
    }

    // Makes the usual heap of a number for a request that it has room for.
    fn grant_usual(&mut self, number: u32, size: u32, align: u32) -> Result<Granted, Refusal> {
        if self.made == u32::MAX {
            return Err(Refusal::Full);
        }
        match fresh::usual(self.alloc, self.limits, number, self.made + 1, size, align) {
            Err(_) => Err(Refusal::Memory),
            Ok((slot, ticket)) => Ok(self.add(number, slot, ticket)),
        }
    }

    // Makes a heap of the size of a request.
    fn grant_larger(&mut self, number: u32, size: u32, align: u32) -> Result<Granted, Refusal> {
        if self.made == u32::MAX {
            return Err(Refusal::Full);
        }
        match fresh::larger(self.alloc, self.made + 1, size, align) {
            Err(_) => Err(Refusal::Memory),
            Ok((slot, ticket)) => Ok(self.add(number, slot, ticket)),
        }
    }

    // Makes a heap for a request that none has room for.
    pub(crate) fn grant_new(&mut self, size: u32, align: u32) -> Result<Granted, Refusal> {
        if self.is_usual(size) {
            return match self.spare_usual(size) {
                None => Err(Refusal::Full),
                Some(number) => self.grant_usual(number, size, align),
            };
        }
        if self.limits.most_larger == 0 {
            return Err(Refusal::TooLarge);
        }
        match self.spare_larger() {
            None => Err(Refusal::Full),
            Some(number) => self.grant_larger(number, size, align),
        }
    }

    // A request as `allocate_aligned` has it.
    fn serve(&mut self, size: u32, align: u32) -> Result<Granted, Refusal> {
        if size == 0 {
            return Err(Refusal::Empty);
        }
        let units = size as u64 + align as u64 - 1;
        match self.first_fit(units, align) {
            Some(number) => self.grant_first(number, size, align),
            None => self.grant_new(size, align),
        }
    }
}
