// Printed by rust/erase from crates/offset_guarded/src/restore.rt: change it there.

//! A guarded allocator from the bytes of its state, or what is wrong with them. It makes tables.

use crate::GuardedOf;
use crate::numbers::{checksum, number};
use crate::serials::Serials;
use crate::state::{FORM, StateFault, StateFaultKind, VERSION};
use offset_allocator::{Allocation, AllocatorOf, ReadError, Tables};
use crate::memory::Global;

// What the numbers before the serials say.
pub(crate) struct Header {
    // how many serials are stored, and how many were given
    pub(crate) count: usize,
    pub(crate) given: u64,
    pub(crate) realm: u32,
    pub(crate) step: u32,
}

// The header of these bytes, where all numbers of tickets are there and their checksum is right.
fn header_of(bytes: &[u8]) -> Result<Header, StateFault> {
    if bytes.len() < 56 {
        return Err(StateFault {
            at: bytes.len(),
            kind: StateFaultKind::Length,
        });
    }
    if number(bytes, 0) != FORM || number(bytes, 1) != VERSION {
        return Err(StateFault {
            at: 0,
            kind: StateFaultKind::Form,
        });
    }
    let stored = number(bytes, 2);
    if stored > (bytes.len() as u64 - 56) / 8 {
        return Err(StateFault {
            at: bytes.len(),
            kind: StateFaultKind::Length,
        });
    }
    let count = stored as usize;
    let given = number(bytes, 3);
    let realm = number(bytes, 4);
    if realm > u32::MAX as u64 {
        return Err(StateFault {
            at: 32,
            kind: StateFaultKind::Realm,
        });
    }
    let step = number(bytes, 5);
    if step > u32::MAX as u64 {
        return Err(StateFault {
            at: 40,
            kind: StateFaultKind::Step,
        });
    }
    if checksum(bytes, 6 + count) != number(bytes, 6 + count) {
        return Err(StateFault {
            at: 48 + 8 * count,
            kind: StateFaultKind::Checksum,
        });
    }
    Ok(Header {
        count,
        given,
        realm: realm as u32,
        step: step as u32,
    })
}

// The first live name that has no serial.
fn live_without_serial<T: Tables>(space: &AllocatorOf<T>, serials: &Serials) -> Option<u32> {
    for name in 0..space.node_count() {
        if serials.at(name) != 0 {
            continue;
        }
        if let Some(handle) = Allocation::from_parts(0, name) {
            if AllocatorOf::is_live(space, handle) {
                return Some(name);
            }
        }
    }
    None
}

// What is wrong with the serials of a space, if anything is.
fn serial_fault<T: Tables>(space: &AllocatorOf<T>, serials: &Serials) -> Option<StateFault> {
    let name = match serials.first_above() {
        None => live_without_serial(space, serials)? as usize,
        Some(name) => name,
    };
    let is_stored = name < serials.cells().len();
    Some(StateFault {
        at: if is_stored { 48 + 8 * name } else { 16 },
        kind: StateFaultKind::Serial,
    })
}

impl<T: Tables> GuardedOf<T> {
    /// The guarded allocator of these bytes, which [`write_state`](Self::write_state) has made, or what is wrong with them, and
    /// where: any bytes are taken. It has the same space, the same serials, the same realm and the same step as
    /// the one that was written: so each ticket that was live there is live here, with its range, and no other is.
    ///
    /// Serials go on from the number that was stored, as they do in the one that was written, and in every
    /// other that is read from the same bytes: so a later grant of one may have a ticket that is live in the
    /// other, for another range. Use one in place of the other. A ticket that was freed after the bytes were
    /// written is live again here.
    ///
    /// `most_allocs` is the largest node limit that is accepted, since memory for the limit is reserved, as
    /// by [`with_realm`](Self::with_realm). Nothing else that is requested is more than 8 bytes for each 8 that were given.
    /// It takes time for the bytes.
    ///
    /// # Errors
    ///
    /// `ReadError::Fault` is returned exactly where the bytes are those of no state that is accepted, unless
    /// an allocation failed before that was known, which is `ReadError::Memory`. Then nothing is made.
    ///
    /// ```
    /// # use offset_allocator_guarded::*;
    /// # let alloc = Global;
    /// let mut guarded = Guarded::<u32>::new(alloc, 1000)?;
    /// let mesh = guarded.allocate(300).unwrap();
    /// let bytes = guarded.write_state(alloc)?;
    /// let same = Guarded::<u32>::read_state(alloc, &bytes, 131_072).unwrap();
    /// assert!(same.is_live(mesh));
    /// # Ok::<(), AllocError>(())
    /// ```
    pub fn read_state(
        alloc: Global,
        bytes: &[u8],
        most_allocs: u32,
    ) -> Result<Self, ReadError<StateFault>> {
        let header = match header_of(bytes) {
            Err(fault) => return Err(ReadError::Fault(fault)),
            Ok(header) => header,
        };
        let end = 56 + 8 * header.count;
        let space = match AllocatorOf::read_state(alloc, &bytes[end..], most_allocs) {
            Err(ReadError::Memory) => return Err(ReadError::Memory),
            Err(ReadError::Fault(fault)) => {
                return Err(ReadError::Fault(StateFault {
                    at: end.wrapping_add(fault.at),
                    kind: StateFaultKind::Allocator(fault.kind),
                }));
            }
            Ok(space) => space,
        };
        let serials = Serials::of_bytes(
            alloc,
            &bytes[48..end - 8],
            header.given,
            space.max_allocs(),
        )?;
        if let Some(fault) = serial_fault(&space, &serials) {
            return Err(ReadError::Fault(fault));
        }
        Ok(GuardedOf {
            space,
            serials,
            realm: header.realm,
            step: header.step,
        })
    }
}
