// Printed by rust/erase from crates/offset_heaps/src/tight.rt: change it there.

//! Tight requests: of any free block that holds them, and why one would be refused. It asks one heap after another,
//! changes one slot, and notes it in the index.

use crate::HeapsOf;
use crate::place::Granted;
use crate::refusal::Refusal;
use offset_allocator::{Accesses, Tables};

/// As `refusal_tight_aligned` of [`Heaps`](crate::Heaps). The count grows by the number of numbers at most, one for each slot, and
/// by some for each bit of the numbers.
///
/// # Panics
///
/// It panics unless the alignment is at least 1.
#[track_caller]
pub fn refusal_tight_aligned_counted<T: Tables>(
    heaps: &HeapsOf<T>,
    size: u32,
    align: u32,
    count: &mut Accesses,
) -> Option<Refusal> {
    assert!(1 <= align, "the alignment must be at least 1");
    if size == 0 {
        return Some(Refusal::Empty);
    }
    let limits = heaps.limits;
    let numbers = limits.most + limits.most_larger;
    if heaps
        .slots
        .first_holding(numbers, limits, size, align, count)
        .is_some()
    {
        return None;
    }
    heaps.why_none(size, count)
}

impl<T: Tables> HeapsOf<T> {
    // The first heap, a free block of which holds a request. Where none does, none has room for it.
    fn first_holding(&mut self, size: u32, align: u32) -> Option<u32> {
        let limits = self.limits;
        let numbers = limits.most + limits.most_larger;
        self.slots
            .first_holding(numbers, limits, size, align, &mut self.accesses)
    }

    // Grants a request in the heap of a number, a free block of which holds it, and whose node limit need not be raised.
    fn grant_tight_at(&mut self, number: u32, size: u32, align: u32) -> Granted {
        let ticket = self.slots.fill(number, size, align, &mut self.accesses);
        self.index
            .note(&self.slots, number, self.limits, &mut self.accesses);
        Granted::of(number, self.realm, ticket, false)
    }

    // Grants a request in the first heap that holds it, and raises its node limit first where it has to.
    fn grant_tight_first(&mut self, number: u32, size: u32, align: u32) -> Result<Granted, Refusal> {
        match self.raise(number, align.min(2)) {
            Err(_) => Err(Refusal::Memory),
            Ok(_) => Ok(self.grant_tight_at(number, size, align)),
        }
    }

    // A request as `allocate_tight_aligned` has it.
    fn serve_tight(&mut self, size: u32, align: u32) -> Result<Granted, Refusal> {
        if size == 0 {
            return Err(Refusal::Empty);
        }
        match self.first_holding(size, align) {
            Some(number) => self.grant_tight_first(number, size, align),
            None => self.grant_new(size, align),
        }
    }

    /// Grants `size` units of any free block that holds them: what `allocate_tight_aligned(size, 1)` grants.
    ///
    /// ```
    /// # use offset_allocator_heaps::*;
    /// # let alloc = Global;
    /// let limits = Limits { size: 1000, first_size: 1000, max_allocs: 100, first_allocs: 8, most: 2, most_larger: 1 };
    /// let mut heaps = Heaps::<u32>::new(alloc, limits)?;
    /// heaps.allocate(300).unwrap();
    /// let rest = heaps.allocate_tight(700).unwrap();
    /// assert!(!rest.is_new);
    /// assert_eq!(heaps.totals().free_units, 0);
    /// # Ok::<(), AllocError>(())
    /// ```
    pub fn allocate_tight(&mut self, size: u32) -> Result<Granted, Refusal> {
        self.allocate_tight_aligned(size, 1)
    }

    /// Grants `size` units of any free block that holds them from a multiple of `align` on, from 1 on, in its
    /// heap: so heaps that are nearly full are filled.
    ///
    /// It is the first heap, by number, that has a free block which holds the request where it begins, and, under
    /// its largest node limit, unused nodes for it, and it grants what `GuardedOf::allocate_tight_aligned`
    /// grants. So a heap that has room for the same request of [`allocate_aligned`](Self::allocate_aligned) grants this one, and others may.
    /// Where none holds it, another heap is made, exactly as by `allocate_aligned`: a usual one where the last of these has room for
    /// `size` units when it is fresh, else one of exactly `size` units. The node limit of the heap is raised before,
    /// where it has to be, as there.
    ///
    /// Where the request is refused, all is as it was, and the [`Refusal`](crate::Refusal) says why.
    ///
    /// The index has of each heap the largest region of its report, up to an eighth less than its largest free
    /// block, so it does not say which heap holds the request: they are asked one after another. It reads each slot
    /// up to the heap that grants it, and makes in each heap at most 2 accesses to its tables, and 6 for each free
    /// block of the class of `size` or above, up to the first that holds it; then as `allocate_aligned`.
    ///
    /// # Panics
    ///
    /// It panics unless the alignment is at least 1.
    ///
    /// ```
    /// # use offset_allocator_heaps::*;
    /// # let alloc = Global;
    /// let limits = Limits { size: 1000, first_size: 1000, max_allocs: 100, first_allocs: 8, most: 2, most_larger: 1 };
    /// let mut heaps = Heaps::<u32>::new(alloc, limits)?;
    /// heaps.allocate(256).unwrap();
    /// let uniforms = heaps.allocate_tight_aligned(700, 256).unwrap();
    /// assert_eq!((uniforms.is_new, heaps.offset_of(uniforms.place)), (false, Some(256)));
    /// # Ok::<(), AllocError>(())
    /// ```
    #[track_caller]
    pub fn allocate_tight_aligned(&mut self, size: u32, align: u32) -> Result<Granted, Refusal> {
        assert!(1 <= align, "the alignment must be at least 1");
        self.serve_tight(size, align)
    }

    /// Why `allocate_tight(size)` would be refused now, or `None` where it would be granted, if memory for another
    /// heap or for more nodes is given: what `refusal_tight_aligned(size, 1)` returns.
    ///
    /// ```
    /// # use offset_allocator_heaps::*;
    /// # let alloc = Global;
    /// let limits = Limits { size: 1000, first_size: 1000, max_allocs: 100, first_allocs: 8, most: 2, most_larger: 1 };
    /// let mut heaps = Heaps::<u32>::new(alloc, limits)?;
    /// assert_eq!(heaps.refusal_tight(300), None);
    /// assert_eq!(heaps.refusal_tight(0), Some(Refusal::Empty));
    /// # Ok::<(), AllocError>(())
    /// ```
    pub fn refusal_tight(&self, size: u32) -> Option<Refusal> {
        self.refusal_tight_aligned(size, 1)
    }

    /// Why `allocate_tight_aligned(size, align)` would be refused now, or `None` where it would be granted: a heap
    /// holds it, or another may be made for it; then memory alone may be refused. It is never [`Memory`](crate::Refusal::Memory). See
    /// the law `tight_refusals_are_foretold` of the proved sources. It asks the heaps as that call does.
    ///
    /// # Panics
    ///
    /// It panics unless the alignment is at least 1.
    ///
    /// ```
    /// # use offset_allocator_heaps::*;
    /// # let alloc = Global;
    /// let limits = Limits { size: 1000, first_size: 1000, max_allocs: 100, first_allocs: 8, most: 2, most_larger: 1 };
    /// let mut heaps = Heaps::<u32>::new(alloc, limits)?;
    /// assert_eq!(heaps.refusal_tight_aligned(900, 256), None);
    /// # Ok::<(), AllocError>(())
    /// ```
    #[track_caller]
    pub fn refusal_tight_aligned(&self, size: u32, align: u32) -> Option<Refusal> {
        assert!(1 <= align, "the alignment must be at least 1");
        refusal_tight_aligned_counted(self, size, align, &mut Accesses::new())
    }
}
