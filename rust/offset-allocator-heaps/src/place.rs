// Printed by rust/erase from crates/offset_heaps/src/place.rt: change it there.

//! Where a range is: the number of its heap, and its grant there. It touches no heap.

use offset_allocator::NonMaxU32;
use offset_guarded::Ticket;
use core::fmt;
use core::hash::{Hash, Hasher};

/// A granted range, for calls on the [`Heaps`](crate::Heaps) that granted it. It is five numbers in 24 bytes, and so is an
/// `Option<Place>`. It can be kept, copied and made from them anywhere: each call tests whether it is live.
///
/// It says which grant it is of, and not where the range begins: so a move leaves it as it is, and two places of
/// one grant are always equal. [`Granted`](crate::Granted) has the offset of the grant, and `offset_of` returns the present one.
#[derive(Copy)]
pub struct Place {
    /// The number of its heap, which a later heap may have too.
    pub heap: u32,
    /// The realm of the [`Heaps`](crate::Heaps).
    pub realm: u32,
    name: NonMaxU32,
    // the serial, in two halves: so a place can lie at any multiple of 4 bytes
    low: u32,
    high: u32,
    heap_realm: u32,
}

impl Clone for Place {
    fn clone(&self) -> Self {
        *self
    }
}

/// Two places are equal where all five numbers are: then they are of one grant.
impl PartialEq for Place {
    fn eq(&self, other: &Self) -> bool {
        self.heap == other.heap
            && self.realm == other.realm
            && self.name == other.name
            && self.serial() == other.serial()
            && self.heap_realm == other.heap_realm
    }
}

impl Eq for Place {
}

impl Hash for Place {
    fn hash<H: Hasher>(&self, state: &mut H) {
        state.write_u32(self.heap);
        state.write_u32(self.realm);
        state.write_u32(self.name());
        state.write_u64(self.serial());
        state.write_u32(self.heap_realm);
    }
}

/// The text is that of a struct with the five numbers.
impl fmt::Debug for Place {
    fn fmt(&self, f: &mut fmt::Formatter<'_>) -> fmt::Result {
        f.debug_struct("Place")
            .field("heap", &self.heap)
            .field("realm", &self.realm)
            .field("name", &self.name())
            .field("serial", &self.serial())
            .field("heap_realm", &self.heap_realm)
            .finish()
    }
}

// The low and the high half of a serial.
fn halves(serial: u64) -> (u32, u32) {
    ((serial % 4294967296) as u32, (serial / 4294967296) as u32)
}

impl Place {
    /// The name of the range in its heap, which later grants may have too: a number below 4294967295.
    ///
    /// ```
    /// # use offset_allocator_heaps::*;
    /// # let alloc = Global;
    /// let limits = Limits { size: 1000, first_size: 1000, max_allocs: 100, first_allocs: 8, most: 2, most_larger: 1 };
    /// let mut heaps = Heaps::<u32>::new(alloc, limits)?;
    /// let mesh = heaps.allocate(300).unwrap().place;
    /// assert_eq!(mesh.name(), 0);
    /// # Ok::<(), AllocError>(())
    /// ```
    #[inline]
    pub fn name(self) -> u32 {
        self.name.get()
    }

    /// The number of the grant in its heap: those of one heap are numbered from 1 in their order, and none is
    /// given twice there.
    ///
    /// ```
    /// # use offset_allocator_heaps::*;
    /// # let alloc = Global;
    /// let limits = Limits { size: 1000, first_size: 1000, max_allocs: 100, first_allocs: 8, most: 2, most_larger: 1 };
    /// let mut heaps = Heaps::<u32>::new(alloc, limits)?;
    /// heaps.allocate(300).unwrap();
    /// let texture = heaps.allocate(100).unwrap().place;
    /// assert_eq!(texture.serial(), 2);
    /// # Ok::<(), AllocError>(())
    /// ```
    #[inline]
    pub fn serial(self) -> u64 {
        (self.high as u64) << 32 | self.low as u64
    }

    /// The realm of its heap, which no other heap of these [`Heaps`](crate::Heaps) ever has.
    ///
    /// ```
    /// # use offset_allocator_heaps::*;
    /// # let alloc = Global;
    /// let limits = Limits { size: 1000, first_size: 1000, max_allocs: 100, first_allocs: 8, most: 2, most_larger: 1 };
    /// let mut heaps = Heaps::<u32>::new(alloc, limits)?;
    /// let mesh = heaps.allocate(300).unwrap().place;
    /// assert_eq!(mesh.heap_realm(), heaps.heap(mesh.heap).unwrap().realm());
    /// # Ok::<(), AllocError>(())
    /// ```
    #[inline]
    pub fn heap_realm(self) -> u32 {
        self.heap_realm
    }

    /// Its ticket in its heap, to ask that heap itself, as `heap` returns it. A ticket has an offset too, which no
    /// call reads, and which is as it is passed here: that of the grant, or what `offset_of` returns.
    ///
    /// ```
    /// # use offset_allocator_heaps::*;
    /// # let alloc = Global;
    /// let limits = Limits { size: 1000, first_size: 1000, max_allocs: 100, first_allocs: 8, most: 2, most_larger: 1 };
    /// let mut heaps = Heaps::<u32>::new(alloc, limits)?;
    /// let mesh = heaps.allocate(300).unwrap();
    /// let ticket = mesh.place.ticket(mesh.offset);
    /// assert_eq!(heaps.heap(mesh.place.heap).unwrap().size_of(ticket), Some(300));
    /// # Ok::<(), AllocError>(())
    /// ```
    #[inline]
    pub fn ticket(self, offset: u32) -> Ticket {
        match Ticket::from_parts(offset, self.name(), self.serial(), self.heap_realm) {
            None => unreachable!(),
            Some(ticket) => ticket,
        }
    }

    // The number of its heap, the realm, and its ticket in the heap, for calls there, none of which reads the offset.
    #[inline]
    pub(crate) fn split(self) -> (u32, u32, Ticket) {
        (self.heap, self.realm, self.ticket(0))
    }

    /// The place as five numbers: its heap, the realm, and of its grant in that heap the name, the serial and the
    /// realm. [`from_parts`](Self::from_parts) makes the place of them again.
    ///
    /// ```
    /// # use offset_allocator_heaps::*;
    /// # let alloc = Global;
    /// let limits = Limits { size: 1000, first_size: 1000, max_allocs: 100, first_allocs: 8, most: 2, most_larger: 1 };
    /// let mut heaps = Heaps::<u32>::new(alloc, limits)?;
    /// let mesh = heaps.allocate(300).unwrap().place;
    /// assert_eq!(mesh.to_parts(), (mesh.heap, mesh.realm, mesh.name(), mesh.serial(), mesh.heap_realm()));
    /// # Ok::<(), AllocError>(())
    /// ```
    pub fn to_parts(self) -> (u32, u32, u32, u64, u32) {
        (
            self.heap,
            self.realm,
            self.name(),
            self.serial(),
            self.heap_realm,
        )
    }

    /// The place of a heap, a realm, a name, a serial and the realm of the heap, as [`to_parts`](Self::to_parts) returns them, or
    /// `None` where `name` is 4294967295, which is no name.
    ///
    /// It is as any other place: `is_live` reports whether it is live in a [`Heaps`](crate::Heaps).
    ///
    /// ```
    /// # use offset_allocator_heaps::*;
    /// # let alloc = Global;
    /// let limits = Limits { size: 1000, first_size: 1000, max_allocs: 100, first_allocs: 8, most: 2, most_larger: 1 };
    /// let mut heaps = Heaps::<u32>::new(alloc, limits)?;
    /// let mesh = heaps.allocate(300).unwrap().place;
    /// let (heap, realm, name, serial, heap_realm) = mesh.to_parts();
    /// assert_eq!(Place::from_parts(heap, realm, name, serial, heap_realm), Some(mesh));
    /// # Ok::<(), AllocError>(())
    /// ```
    pub fn from_parts(
        heap: u32,
        realm: u32,
        name: u32,
        serial: u64,
        heap_realm: u32,
    ) -> Option<Self> {
        match NonMaxU32::new(name) {
            None => None,
            Some(name) => {
                let (low, high) = halves(serial);
                Some(Place {
                    heap,
                    realm,
                    name,
                    low,
                    high,
                    heap_realm,
                })
            }
        }
    }

    /// The place of a ticket of the heap of a number, in the [`Heaps`](crate::Heaps) of a realm. The offset of the ticket is left
    /// out.
    ///
    /// ```
    /// # use offset_allocator_heaps::*;
    /// # let alloc = Global;
    /// let limits = Limits { size: 1000, first_size: 1000, max_allocs: 100, first_allocs: 8, most: 2, most_larger: 1 };
    /// let mut heaps = Heaps::<u32>::new(alloc, limits)?;
    /// let mesh = heaps.allocate(300).unwrap().place;
    /// let ticket = heaps.heap(mesh.heap).unwrap().first_live().unwrap();
    /// assert_eq!(Place::from_ticket(mesh.heap, heaps.realm(), ticket), mesh);
    /// # Ok::<(), AllocError>(())
    /// ```
    #[inline]
    pub fn from_ticket(heap: u32, realm: u32, ticket: Ticket) -> Self {
        match Place::from_parts(heap, realm, ticket.name(), ticket.serial(), ticket.realm()) {
            None => unreachable!(),
            Some(place) => place,
        }
    }
}

/// What a request is granted.
#[derive(Clone, Copy, PartialEq, Eq, Debug)]
pub struct Granted {
    /// The range.
    pub place: Place,
    /// Where it begins, in units from the start of its heap.
    pub offset: u32,
    /// Whether its heap was made for it. Then make the buffer of that number before the range is used, or
    /// take the heap back by `give_up`.
    pub is_new: bool,
}

impl Granted {
    // What the ticket of a grant in a heap says.
    #[inline]
    pub(crate) fn of(heap: u32, realm: u32, ticket: Ticket, is_new: bool) -> Self {
        let offset = ticket.offset;
        Granted {
            place: Place::from_ticket(heap, realm, ticket),
            offset,
            is_new,
        }
    }
}
