// Printed by rust/erase from crates/offset_allocator/src/states/restore.rt: change it there.

//! A space from the bytes of its state, and what is wrong with bytes that are none. It makes tables.

use crate::AllocatorOf;
use crate::accesses::Accesses;
use crate::index::NodeIndex;
use crate::states::building::{Wrong, build};
use crate::states::state::{
    FORM, ReadError, StateFault, StateFaultKind, VERSION, checksum, words_of,
};
use crate::tables::Tables;
use crate::memory::{AllocError, Global};

// The sizes and counts that a state begins with.
pub(crate) struct Header {
    pub(crate) size: u32,
    pub(crate) max_allocs: u32,
    pub(crate) blocks: u32,
    pub(crate) free: u32,
    pub(crate) unused: u32,
}

// The header of these words, where they are as many as it says, and both limits admit it.
fn header_of(words: &[u32], max: u32, most_allocs: u32) -> Result<Header, StateFault> {
    if words.len() < 8 {
        return Err(StateFault {
            at: 4 * words.len(),
            kind: StateFaultKind::Length,
        });
    }
    if words[0] != FORM || words[1] != VERSION {
        return Err(StateFault {
            at: 0,
            kind: StateFaultKind::Form,
        });
    }
    let header = Header {
        size: words[2],
        max_allocs: words[3],
        blocks: words[4],
        free: words[5],
        unused: words[6],
    };
    let limit = header.max_allocs as u64;
    if header.max_allocs > most_allocs || limit + 1 >= max as u64 {
        return Err(StateFault {
            at: 12,
            kind: StateFaultKind::Limit,
        });
    }
    let blocks = header.blocks as u64;
    if blocks == 0 || blocks + 1 > limit || blocks + header.unused as u64 > limit {
        return Err(StateFault {
            at: 16,
            kind: StateFaultKind::Counts,
        });
    }
    if 8 + 2 * blocks + header.free as u64 + header.unused as u64 != words.len() as u64 {
        return Err(StateFault {
            at: 4 * words.len(),
            kind: StateFaultKind::Length,
        });
    }
    Ok(header)
}

// The fault of a word in one of the lists: blocks from word 7 on, then free names, then unused ones.
fn fault_of(wrong: Wrong, first_free: usize, first_unused: usize) -> StateFault {
    match wrong {
        Wrong::Block(place) => StateFault {
            at: 4usize.wrapping_mul(place.wrapping_add(7)),
            kind: StateFaultKind::Block,
        },
        Wrong::Unused(place) => StateFault {
            at: 4usize.wrapping_mul(place.wrapping_add(first_unused)),
            kind: StateFaultKind::Unused,
        },
        Wrong::Free(place) => StateFault {
            at: 4usize.wrapping_mul(place.wrapping_add(first_free)),
            kind: StateFaultKind::Free,
        },
        Wrong::Neighbours(place) => StateFault {
            at: 8usize.wrapping_mul(place).wrapping_add(28),
            kind: StateFaultKind::Neighbours,
        },
    }
}

// The space of these words, or what is wrong with them.
fn of_words<T: Tables>(
    alloc: Global,
    words: &[u32],
    most_allocs: u32,
) -> Result<Result<AllocatorOf<T>, StateFault>, AllocError> {
    let header = match header_of(words, T::Index::MAX, most_allocs) {
        Err(fault) => return Ok(Err(fault)),
        Ok(header) => header,
    };
    let end = words.len() - 1;
    let numbers = &words[..end];
    if checksum(numbers) != words[end] {
        return Ok(Err(StateFault {
            at: 4 * end,
            kind: StateFaultKind::Checksum,
        }));
    }
    let first_free = 7 + 2 * header.blocks as usize;
    let first_unused = first_free + header.free as usize;
    let blocks = &words[7..first_free];
    let free = &words[first_free..first_unused];
    let unused = &words[first_unused..end];
    let (mut store, found) = match build(
        alloc,
        header.size,
        header.max_allocs,
        blocks,
        free,
        unused,
    )? {
        Err(wrong) => return Ok(Err(fault_of(wrong, first_free, first_unused))),
        Ok(built) => built,
    };
    if found.used as u64 + 2 > header.max_allocs as u64 {
        return Ok(Err(StateFault {
            at: 16,
            kind: StateFaultKind::Counts,
        }));
    }
    // a space that is new has counted no access
    store.accesses = Accesses::new();
    Ok(Ok(AllocatorOf {
        size: header.size,
        max_allocs: header.max_allocs,
        free_total: found.free_units,
        store,
    }))
}

impl<T: Tables> AllocatorOf<T> {
    /// The space of these bytes, which [`write_state`](Self::write_state) has made, or what is wrong with them, and where: any
    /// bytes are taken. The space has the same handles, the same order in bins and the same unused names, in
    /// the same order, as the one that was written.
    ///
    /// `most_allocs` is the largest node limit that is accepted, since memory for the limit is reserved, as
    /// by [`with_max_allocs`](Self::with_max_allocs). Nothing else that is requested is more than 4 bytes for each 4 that were given.
    /// It takes time for the bytes. The space has the limit that was written: [`raised`](Self::raised) gives it a larger one.
    ///
    /// # Errors
    ///
    /// `ReadError::Fault` is returned exactly where the bytes are those of no state that is accepted, unless
    /// an allocation failed before that was known, which is `ReadError::Memory`. Then nothing is made.
    ///
    /// ```
    /// # use offset_allocator_proved::*;
    /// # let alloc = Global;
    /// let mut space = Allocator::<u32>::new(alloc, 1000)?;
    /// let mesh = space.allocate(300).unwrap();
    /// let bytes = space.write_state(alloc)?;
    /// let same = Allocator::<u32>::read_state(alloc, &bytes, 131_072).unwrap();
    /// assert!(same.is_live(mesh));
    /// # Ok::<(), AllocError>(())
    /// ```
    pub fn read_state(
        alloc: Global,
        bytes: &[u8],
        most_allocs: u32,
    ) -> Result<Self, ReadError<StateFault>> {
        if bytes.len() % 4 != 0 {
            return Err(ReadError::Fault(StateFault {
                at: bytes.len(),
                kind: StateFaultKind::Length,
            }));
        }
        let words = words_of(alloc, bytes)?;
        match of_words(alloc, &words, most_allocs)? {
            Err(fault) => Err(ReadError::Fault(fault)),
            Ok(space) => Ok(space),
        }
    }
}
