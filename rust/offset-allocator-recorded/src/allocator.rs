//! The recorded calls of an allocator with handles.

use crate::tape::Tape;
use crate::Recorded;
use offset_allocator_proved::{AllocError, Allocation, AllocatorOf, Global, Move, Progress, RoomCost, Tables};
use std::io::{self, Write};

impl<T: Tables, W: Write> Recorded<AllocatorOf<T>, W> {
    /// Records an allocator from now on. Live ranges that it has, as one that `read_state` or `try_clone` made, come first
    /// in the recording, as the grants from 1 on. An error is returned where the first lines cannot be written; and where the
    /// allocator has ranges of no units and lacks a node, or a unit, for one more.
    pub fn new(space: AllocatorOf<T>, out: W) -> io::Result<Self> {
        Ok(Recorded { tape: Tape::start(&space, out)?, space })
    }

    // The number of the grant of a handle: 0, which no grant has, where the handle is not live.
    fn number(&self, allocation: Allocation<T::Index>) -> u32 {
        let live = self.space.is_live(allocation);
        self.tape.number(live.then(|| allocation.to_parts().1))
    }

    /// `AllocatorOf::allocate`.
    pub fn allocate(&mut self, size: u32) -> Option<Allocation<T::Index>> {
        self.tape.write(format_args!("alloc {size}"));
        let found = self.space.allocate(size)?;
        self.tape.grant(found.to_parts().1);
        Some(found)
    }

    /// `AllocatorOf::allocate_aligned`: `align` has to be at least 1. For 0 it panics, and writes nothing.
    #[track_caller]
    pub fn allocate_aligned(&mut self, size: u32, align: u32) -> Option<Allocation<T::Index>> {
        self.check(align >= 1, "the alignment must be at least 1");
        self.tape.write(format_args!("align {size} {align}"));
        let found = self.space.allocate_aligned(size, align)?;
        self.tape.grant(found.to_parts().1);
        Some(found)
    }

    /// `AllocatorOf::allocate_tight`.
    pub fn allocate_tight(&mut self, size: u32) -> Option<Allocation<T::Index>> {
        self.tape.write(format_args!("tight {size}"));
        let found = self.space.allocate_tight(size)?;
        self.tape.grant(found.to_parts().1);
        Some(found)
    }

    /// `AllocatorOf::allocate_tight_aligned`: as `allocate_aligned`.
    #[track_caller]
    pub fn allocate_tight_aligned(&mut self, size: u32, align: u32) -> Option<Allocation<T::Index>> {
        self.check(align >= 1, "the alignment must be at least 1");
        self.tape.write(format_args!("tight {size} {align}"));
        let found = self.space.allocate_tight_aligned(size, align)?;
        self.tape.grant(found.to_parts().1);
        Some(found)
    }

    /// `AllocatorOf::allocate_at`.
    pub fn allocate_at(&mut self, offset: u32, size: u32) -> Option<Allocation<T::Index>> {
        self.tape.write(format_args!("at {offset} {size}"));
        let found = self.space.allocate_at(offset, size)?;
        self.tape.grant(found.to_parts().1);
        Some(found)
    }

    /// `AllocatorOf::free`: for a handle that is not live, `free 0` is written, and it panics.
    #[track_caller]
    pub fn free(&mut self, allocation: Allocation<T::Index>) {
        self.tape.write(format_args!("free {}", self.number(allocation)));
        self.space.free(allocation);
    }

    /// `AllocatorOf::free_if_live`: for a handle that is not live, `free 0` is written.
    pub fn free_if_live(&mut self, allocation: Allocation<T::Index>) -> bool {
        self.tape.write(format_args!("free {}", self.number(allocation)));
        self.space.free_if_live(allocation)
    }

    /// `AllocatorOf::shrink`: for a handle that is not live, `shrink 0` is written, and it panics.
    #[track_caller]
    pub fn shrink(&mut self, allocation: Allocation<T::Index>, size: u32) -> bool {
        self.tape.write(format_args!("shrink {} {size}", self.number(allocation)));
        self.space.shrink(allocation, size)
    }

    /// `AllocatorOf::grow_in_place`: for a handle that is not live, `grow 0` is written, and it panics.
    #[track_caller]
    pub fn grow_in_place(&mut self, allocation: Allocation<T::Index>, size: u32) -> bool {
        self.tape.write(format_args!("grow {} {size}", self.number(allocation)));
        self.space.grow_in_place(allocation, size)
    }

    /// `AllocatorOf::relocate`: for a handle that is not live, `relocate 0` is written, and it panics.
    #[track_caller]
    pub fn relocate(&mut self, allocation: Allocation<T::Index>) -> Option<Allocation<T::Index>> {
        self.tape.write(format_args!("relocate {}", self.number(allocation)));
        let found = self.space.relocate(allocation)?;
        self.tape.grant(found.to_parts().1);
        Some(found)
    }

    /// `AllocatorOf::relocate_aligned`: `align` has to be at least 1. For 0 it panics, and writes nothing; for
    /// a handle that is not live, `relocate 0` is written, and it panics.
    #[track_caller]
    pub fn relocate_aligned(&mut self, allocation: Allocation<T::Index>, align: u32) -> Option<Allocation<T::Index>> {
        self.check(align >= 1, "the alignment must be at least 1");
        self.tape.write(format_args!("relocate {} {align}", self.number(allocation)));
        let found = self.space.relocate_aligned(allocation, align)?;
        self.tape.grant(found.to_parts().1);
        Some(found)
    }

    /// `AllocatorOf::extend`.
    pub fn extend(&mut self, more: u32) -> bool {
        self.tape.write(format_args!("extend {more}"));
        self.space.extend(more)
    }

    /// `AllocatorOf::retract`.
    pub fn retract(&mut self, less: u32) -> bool {
        self.tape.write(format_args!("retract {less}"));
        self.space.retract(less)
    }

    /// `AllocatorOf::compact`.
    pub fn compact<F: FnMut(Move<T::Index>)>(&mut self, moved: F) {
        self.tape.write(format_args!("compact"));
        self.space.compact(moved);
    }

    /// `AllocatorOf::compact_by`: `step` has to be at least 1. For 0 it panics, and writes nothing.
    #[track_caller]
    pub fn compact_by<F: FnMut(Move<T::Index>)>(&mut self, step: u32, moved: F) -> bool {
        self.check(step >= 1, "step must be at least 1");
        self.tape.write(format_args!("compact {step}"));
        self.space.compact_by(step, moved)
    }

    /// `AllocatorOf::compact_within`: as `compact_by`.
    #[track_caller]
    pub fn compact_within<F: FnMut(Move<T::Index>)>(
        &mut self,
        step: u32,
        from: u32,
        most_units: u32,
        most_ranges: u32,
        moved: F,
    ) -> Option<Progress> {
        self.check(step >= 1, "step must be at least 1");
        self.tape.write(format_args!("compact {step} {from} {most_units} {most_ranges}"));
        self.space.compact_within(step, from, most_units, most_ranges, moved)
    }

    /// `AllocatorOf::make_room`.
    pub fn make_room<F: FnMut(Move<T::Index>)>(&mut self, size: u32, moved: F) -> Option<RoomCost> {
        self.tape.write(format_args!("room {size}"));
        self.space.make_room(size, moved)
    }

    /// `AllocatorOf::make_room_by`: `align` and `step` have to be at least 1. For 0 it panics, and writes nothing.
    #[track_caller]
    pub fn make_room_by<F: FnMut(Move<T::Index>)>(&mut self, size: u32, align: u32, step: u32, moved: F) -> Option<RoomCost> {
        self.check(align >= 1, "the alignment must be at least 1");
        self.check(step >= 1, "step must be at least 1");
        self.tape.write(format_args!("room {size} {align} {step}"));
        self.space.make_room_by(size, align, step, moved)
    }

    /// `AllocatorOf::reset`.
    pub fn reset(&mut self) {
        self.tape.write(format_args!("reset"));
        self.space.reset();
    }

    /// `AllocatorOf::raised` in place of this space: a larger node limit, with all that is live. A `space` line is written, with
    /// the lines after which its space is as this one, whose grants are numbered from 1 again.
    ///
    /// # Errors
    ///
    /// An error is returned only where an allocation failed; then nothing has changed.
    ///
    /// # Panics
    ///
    /// It panics unless `max_allocs` is at least the limit that there is, and at most that of the index type less 2.
    #[track_caller]
    pub fn raise_limit(&mut self, max_allocs: u32) -> Result<(), AllocError> {
        self.space = self.space.raised(Global, max_allocs)?;
        self.tape.begin(&self.space);
        Ok(())
    }
}
