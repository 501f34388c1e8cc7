// Printed by rust/erase from crates/offset_heaps/src/restore.rt: change it there.

//! Many heaps from the bytes of their state, or what is wrong with them. It makes heaps, and their index.

use crate::HeapsOf;
use crate::copy::index_of;
use crate::fresh::LARGER_LIMIT;
use crate::limits::{Limits, usual_size};
use crate::slots::Slots;
use crate::state::{FORM, StateFault, StateFaultKind, VERSION};
use offset_allocator::{Accesses, NodeIndex, ReadError, Tables};
use offset_guarded::GuardedOf;
use offset_guarded::numbers::{checksum, number};
use crate::memory::{AllocError, Global};

// What the numbers before the places say.
#[derive(Clone, Copy)]
pub(crate) struct Header {
    pub(crate) limits: Limits,
    // the realm of the heap that was made last
    pub(crate) made: u32,
    pub(crate) realm: u32,
}

// A fault of the numbers.
fn fault<V>(at: usize, kind: StateFaultKind) -> Result<V, StateFault> {
    Err(StateFault { at, kind })
}

// The header of these bytes, where all numbers of many heaps are there, the limits are admitted and the
// checksum is right.
fn header_of<T: Tables>(
    bytes: &[u8],
    most_heaps: u32,
    most_allocs: u32,
) -> Result<Header, StateFault> {
    if bytes.len() < 96 {
        return fault(bytes.len(), StateFaultKind::Length);
    }
    if number(bytes, 0) != FORM || number(bytes, 1) != VERSION {
        return fault(0, StateFaultKind::Form);
    }
    let size = number(bytes, 2);
    if size > u32::MAX as u64 {
        return fault(16, StateFaultKind::Limits);
    }
    let first_size = number(bytes, 3);
    if first_size < size.min(1) || first_size > size {
        return fault(24, StateFaultKind::Limits);
    }
    let limit = number(bytes, 4);
    if limit < 4 || limit > most_allocs as u64 || limit + 1 >= T::Index::MAX as u64 {
        return fault(32, StateFaultKind::Limits);
    }
    let first = number(bytes, 5);
    if first < limit.min(8) || first > limit {
        return fault(40, StateFaultKind::Limits);
    }
    let most = number(bytes, 6);
    if most > most_heaps as u64 {
        return fault(48, StateFaultKind::Limits);
    }
    let larger = number(bytes, 7);
    if larger > most_heaps as u64 - most {
        return fault(56, StateFaultKind::Limits);
    }
    let made = number(bytes, 8);
    if made > u32::MAX as u64 {
        return fault(64, StateFaultKind::Counts);
    }
    let realm = number(bytes, 9);
    if realm > u32::MAX as u64 {
        return fault(72, StateFaultKind::Counts);
    }
    let count = (most + larger) as usize;
    if count > (bytes.len() - 96) / 8 {
        return fault(bytes.len(), StateFaultKind::Length);
    }
    if checksum(bytes, 11 + count) != number(bytes, 11 + count) {
        return fault(88 + 8 * count, StateFaultKind::Checksum);
    }
    Ok(Header {
        limits: Limits {
            size: size as u32,
            first_size: first_size as u32,
            max_allocs: limit as u32,
            first_allocs: first as u32,
            most: most as u32,
            most_larger: larger as u32,
        },
        made: made as u32,
        realm: realm as u32,
    })
}

// Whether a usual heap has a node limit that the limits allow.
fn has_usual_limit<T: Tables>(heap: &GuardedOf<T>, limits: Limits) -> bool {
    let limit = heap.allocator().max_allocs();
    limit >= limits.first_allocs && limit <= limits.max_allocs
}

// Whether a heap has the size and a node limit of the kind of a number.
fn is_of_kind<T: Tables>(heap: &GuardedOf<T>, number: u32, limits: Limits) -> bool {
    let space = heap.allocator();
    if number < limits.most {
        space.size() >= usual_size(limits, number) && has_usual_limit(heap, limits)
    } else {
        space.size() >= 1 && space.max_allocs() == LARGER_LIMIT
    }
}

// The heap of a number from these bytes, or none where there are none.
fn read_heap<T: Tables>(
    alloc: Global,
    bytes: &[u8],
    number: u32,
    limits: Limits,
    made: u32,
    most_allocs: u32,
) -> Result<Result<Option<GuardedOf<T>>, StateFault>, AllocError> {
    if bytes.len() == 0 {
        return Ok(Ok(None));
    }
    let heap = match GuardedOf::read_state(alloc, bytes, most_allocs) {
        Err(ReadError::Memory) => return Err(AllocError),
        Err(ReadError::Fault(fault)) => {
            return Ok(Err(StateFault {
                at: fault.at,
                kind: StateFaultKind::Heap(fault.kind),
            }));
        }
        Ok(heap) => heap,
    };
    if heap.realm() > made {
        return Ok(Err(StateFault {
            at: 32,
            kind: StateFaultKind::Realm,
        }));
    }
    if !is_of_kind(&heap, number, limits) {
        return Ok(Err(StateFault {
            at: 0,
            kind: StateFaultKind::Size,
        }));
    }
    Ok(Ok(Some(heap)))
}

// The heaps of these states, whose places are in the bytes before them.
fn read_slots<T: Tables>(
    alloc: Global,
    bytes: &[u8],
    states: &[u8],
    count: u32,
    limits: Limits,
    made: u32,
    most_allocs: u32,
) -> Result<Result<Slots<T>, StateFault>, AllocError> {
    let start = 96 + 8 * count as usize;
    let mut slots = Slots::with_room(alloc, count)?;
    for k in 0..count {
        let from = number(bytes, 10 + k as usize);
        let to = number(bytes, 11 + k as usize);
        if from > to || to > states.len() as u64 {
            return Ok(Err(StateFault {
                at: 88 + 8 * k as usize,
                kind: StateFaultKind::Place,
            }));
        }
        let heap = match read_heap(
            alloc,
            &states[from as usize..to as usize],
            k,
            limits,
            made,
            most_allocs,
        )? {
            Err(wrong) => {
                let at = start.wrapping_add(from as usize).wrapping_add(wrong.at);
                return Ok(Err(StateFault {
                    at: at,
                    kind: wrong.kind,
                }));
            }
            Ok(heap) => heap,
        };
        slots.put(k, heap, &mut Accesses::new());
    }
    Ok(Ok(slots))
}

impl<T: Tables> HeapsOf<T> {
    /// The heaps of these bytes, which [`write_state`](Self::write_state) has made, or what is wrong with them, and where: any
    /// bytes are taken. They have the same limits, realm and heaps, by number, as those that were written: so
    /// each place that was live there is live here, with its range, and no other is. The index is made again.
    /// Make the buffer of each number that has a heap, of the size that [`heap`](Self::heap) says.
    ///
    /// Serials and the realms of heaps go on from the numbers that were stored, as they do in the heaps that
    /// were written: so a later grant of one may have a place that is live in the other, for another range.
    /// Use one in place of the other. A place that was freed after the bytes were written is live again here.
    ///
    /// `most_heaps` is the largest `most + most_larger` that is accepted, and `most_allocs` the largest node
    /// limit, of the limits and of each heap, since memory for these is reserved, as by [`new`](Self::new) and by
    /// `GuardedOf::with_realm`; and for a number only where 8 bytes were given for it. It takes time for
    /// the bytes, and some steps for each bit of the numbers for each of them.
    ///
    /// # Errors
    ///
    /// `ReadError::Fault` is returned exactly where the bytes are those of no state that is accepted, unless
    /// an allocation failed before that was known, which is `ReadError::Memory`. Then nothing is made.
    ///
    /// ```
    /// # use offset_allocator_heaps::*;
    /// # let alloc = Global;
    /// let limits = Limits { size: 1000, first_size: 1000, max_allocs: 100, first_allocs: 8, most: 2, most_larger: 1 };
    /// let mut heaps = Heaps::<u32>::new(alloc, limits)?;
    /// let mesh = heaps.allocate(300).unwrap().place;
    /// let bytes = heaps.write_state(alloc)?;
    /// let same = Heaps::<u32>::read_state(alloc, &bytes, 100, 1000).unwrap();
    /// assert!(same.is_live(mesh));
    /// # Ok::<(), AllocError>(())
    /// ```
    pub fn read_state(
        alloc: Global,
        bytes: &[u8],
        most_heaps: u32,
        most_allocs: u32,
    ) -> Result<Self, ReadError<StateFault>> {
        let header = match header_of::<T>(bytes, most_heaps, most_allocs) {
            Err(fault) => return Err(ReadError::Fault(fault)),
            Ok(header) => header,
        };
        let limits = header.limits;
        let count = limits.most + limits.most_larger;
        let states = &bytes[96 + 8 * count as usize..];
        if number(bytes, 10) != 0 {
            return Err(ReadError::Fault(StateFault {
                at: 80,
                kind: StateFaultKind::Place,
            }));
        }
        if number(bytes, 10 + count as usize) != states.len() as u64 {
            return Err(ReadError::Fault(StateFault {
                at: 80 + 8 * count as usize,
                kind: StateFaultKind::Place,
            }));
        }
        let slots = match read_slots(
            alloc,
            bytes,
            states,
            count,
            limits,
            header.made,
            most_allocs,
        )? {
            Err(fault) => return Err(ReadError::Fault(fault)),
            Ok(slots) => slots,
        };
        let index = index_of(alloc, &slots, limits)?;
        Ok(HeapsOf {
            alloc,
            slots,
            index,
            limits,
            made: header.made,
            realm: header.realm,
            accesses: Accesses::new(),
        })
    }
}
