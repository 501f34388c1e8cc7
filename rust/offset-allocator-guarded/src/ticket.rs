// Printed by rust/erase from crates/offset_guarded/src/ticket.rt: change it there.

//! The ticket of a grant. It touches no space.

use offset_allocator::NonMaxU32;
use core::fmt;
use core::hash::{Hash, Hasher};

/// A granted range, for calls on the [`Guarded`](crate::Guarded) that granted it. It is four numbers in 20 bytes, and can be kept,
/// copied and made from them anywhere: each call tests whether it is live.
#[derive(Copy)]
pub struct Ticket {
    /// Where the range began when this ticket was made, by the grant or by `ticket`, in units from the start
    /// of the space. No call reads it. So after a move two tickets of one grant may differ in it, and are
    /// not equal then.
    pub offset: u32,
    name: NonMaxU32,
    // the serial, in two halves, since 64 bits at once would take 24 bytes
    low: u32,
    high: u32,
    realm: u32,
}

impl Clone for Ticket {
    fn clone(&self) -> Self {
        *self
    }
}

/// Two tickets are equal where all four numbers are.
impl PartialEq for Ticket {
    fn eq(&self, other: &Self) -> bool {
        self.offset == other.offset
            && self.name == other.name
            && self.serial() == other.serial()
            && self.realm == other.realm
    }
}

impl Eq for Ticket {
}

impl Hash for Ticket {
    fn hash<H: Hasher>(&self, state: &mut H) {
        state.write_u32(self.offset);
        state.write_u32(self.name());
        state.write_u64(self.serial());
        state.write_u32(self.realm);
    }
}

/// The text is that of a struct with the four numbers.
impl fmt::Debug for Ticket {
    fn fmt(&self, f: &mut fmt::Formatter<'_>) -> fmt::Result {
        f.debug_struct("Ticket")
            .field("offset", &self.offset)
            .field("name", &self.name())
            .field("serial", &self.serial())
            .field("realm", &self.realm)
            .finish()
    }
}

// The low and the high half of a serial.
fn halves(serial: u64) -> (u32, u32) {
    ((serial % 4294967296) as u32, (serial / 4294967296) as u32)
}

impl Ticket {
    /// The name of the range, which later grants may have too: a number below 4294967295.
    ///
    /// ```
    /// # use offset_allocator_guarded::*;
    /// # let alloc = Global;
    /// let mut guarded = Guarded::<u32>::new(alloc, 1000)?;
    /// let mesh = guarded.allocate(300).unwrap();
    /// assert_eq!(mesh.name(), 0);
    /// # Ok::<(), AllocError>(())
    /// ```
    #[inline]
    pub fn name(self) -> u32 {
        self.name.get()
    }

    /// The number of the grant: those of one [`Guarded`](crate::Guarded) are numbered from 1 in their order, and none is given
    /// twice.
    ///
    /// ```
    /// # use offset_allocator_guarded::*;
    /// # let alloc = Global;
    /// let mut guarded = Guarded::<u32>::new(alloc, 1000)?;
    /// guarded.allocate(300);
    /// let texture = guarded.allocate(100).unwrap();
    /// assert_eq!(texture.serial(), 2);
    /// # Ok::<(), AllocError>(())
    /// ```
    #[inline]
    pub fn serial(self) -> u64 {
        (self.high as u64) << 32 | self.low as u64
    }

    /// The realm of the [`Guarded`](crate::Guarded).
    ///
    /// ```
    /// # use offset_allocator_guarded::*;
    /// # let alloc = Global;
    /// let mut guarded = Guarded::<u32>::new(alloc, 1000)?;
    /// let mesh = guarded.allocate(300).unwrap();
    /// assert_eq!(mesh.realm(), guarded.realm());
    /// # Ok::<(), AllocError>(())
    /// ```
    #[inline]
    pub fn realm(self) -> u32 {
        self.realm
    }

    /// The ticket as four numbers: its offset, name, serial and realm. [`from_parts`](Self::from_parts) makes the ticket of them
    /// again.
    ///
    /// ```
    /// # use offset_allocator_guarded::*;
    /// # let alloc = Global;
    /// let mut guarded = Guarded::<u32>::new(alloc, 1000)?;
    /// let mesh = guarded.allocate(300).unwrap();
    /// assert_eq!(mesh.to_parts(), (mesh.offset, mesh.name(), mesh.serial(), mesh.realm()));
    /// # Ok::<(), AllocError>(())
    /// ```
    pub fn to_parts(self) -> (u32, u32, u64, u32) {
        (self.offset, self.name(), self.serial(), self.realm)
    }

    /// The ticket of an offset, a name, a serial and a realm, as [`to_parts`](Self::to_parts) returns them, or `None` where `name`
    /// is 4294967295, which is no name.
    ///
    /// It is as any other ticket: `is_live` reports whether it is live in a space.
    ///
    /// ```
    /// # use offset_allocator_guarded::*;
    /// # let alloc = Global;
    /// let mut guarded = Guarded::<u32>::new(alloc, 1000)?;
    /// let mesh = guarded.allocate(300).unwrap();
    /// let (offset, name, serial, realm) = mesh.to_parts();
    /// assert_eq!(Ticket::from_parts(offset, name, serial, realm), Some(mesh));
    /// # Ok::<(), AllocError>(())
    /// ```
    pub fn from_parts(offset: u32, name: u32, serial: u64, realm: u32) -> Option<Self> {
        match NonMaxU32::new(name) {
            None => None,
            Some(name) => {
                let (low, high) = halves(serial);
                Some(Ticket {
                    offset,
                    name,
                    low,
                    high,
                    realm,
                })
            }
        }
    }

    // The same of the name of a node.
    #[inline(always)]
    pub(crate) fn of(offset: u32, name: u32, serial: u64, realm: u32) -> Self {
        match Ticket::from_parts(offset, name, serial, realm) {
            None => unreachable!(),
            Some(ticket) => ticket,
        }
    }
}
