// Printed by rust/erase from crates/offset_guarded/src/moves.rt: change it there.

//! Ranges that slide to the front of the space, all, within a budget, or to make room: by the step of the space,
//! by another one, or by none. It changes the allocator, and no serial.

use crate::GuardedOf;
use offset_allocator::{CompactCost, Move, Progress, RoomCost, Tables};

impl<T: Tables> GuardedOf<T> {
    /// Slides live ranges to the front of the space by the step of the space, so that **each keeps every alignment
    /// that was asked for**, as `compact_by(step)` does. Every ticket stays live, with its size; [`offset_of`](Self::offset_of) returns
    /// where its range begins. If `moved` panics, the guarded allocator must not be used any more: drop it.
    ///
    /// `false` is returned, and nothing changes, where the space has no step, or `Allocator::compact_by` returns
    /// `false`. It makes at most 40 accesses to the tables of the allocator, and 21 for each block.
    ///
    /// ```
    /// # use offset_allocator_guarded::*;
    /// # let alloc = Global;
    /// let mut guarded = Guarded::<u32>::new(alloc, 1000)?;
    /// let hole = guarded.allocate(300).unwrap();
    /// let mesh = guarded.allocate_aligned(100, 256).unwrap();
    /// guarded.free(hole);
    /// assert!(guarded.compact(|it| assert_eq!((it.from, it.to, it.size), (512, 0, 100))));
    /// assert_eq!(guarded.offset_of(mesh), Some(0));
    /// # Ok::<(), AllocError>(())
    /// ```
    pub fn compact<F: FnMut(Move<T::Index>)>(&mut self, mut moved: F) -> bool {
        let step = self.step_number();
        if step == 0 {
            return false;
        }
        self.compact_by(step, &mut moved)
    }

    /// As [`compact`](Self::compact), from the offset `from` on and within a budget, as `compact_within_by(step)` does: so a
    /// compaction can be done over several frames. **Each range keeps every alignment that was asked for.** The
    /// result says what moved, and where the next call goes on. If `moved` panics, the guarded allocator must not
    /// be used any more: drop it.
    ///
    /// `None` is returned, and nothing changes, where the space has no step, or `Allocator::compact_within` returns
    /// `None`. It makes at most 60 accesses to the tables of the allocator, and 26 for each block; and at most 60, 5 for
    /// each block, and 42 for each range of the budget, or for one.
    ///
    /// ```
    /// # use offset_allocator_guarded::*;
    /// # let alloc = Global;
    /// let mut guarded = Guarded::<u32>::new(alloc, 1000)?;
    /// let hole = guarded.allocate(300).unwrap();
    /// let mesh = guarded.allocate(100).unwrap();
    /// guarded.allocate(100);
    /// guarded.free(hole);
    /// let progress = guarded.compact_within(0, 150, 8, |_| {}).unwrap();
    /// assert_eq!((progress.units, progress.ranges, progress.next), (100, 1, Some(400)));
    /// assert_eq!(guarded.offset_of(mesh), Some(0));
    /// # Ok::<(), AllocError>(())
    /// ```
    pub fn compact_within<F: FnMut(Move<T::Index>)>(
        &mut self,
        from: u32,
        most_units: u32,
        most_ranges: u32,
        mut moved: F,
    ) -> Option<Progress> {
        let step = self.step_number();
        if step == 0 {
            return None;
        }
        self.compact_within_by(step, from, most_units, most_ranges, &mut moved)
    }

    /// Makes room for `allocate(size)`, where ranges have to move for it, by the step of the space: **each range
    /// that moves keeps every alignment that was asked for**. Every ticket stays live, with its size; [`offset_of`](Self::offset_of)
    /// returns where its range begins. If `moved` panics, the guarded allocator must not be used any more: drop it.
    ///
    /// It returns what [`room_cost`](Self::room_cost) would have returned before: `None` where no run of blocks gives up enough, or the
    /// space has no step, and then nothing changes. It makes at most 60 accesses to the tables of the allocator, 7 for each
    /// block, and 36 for each range that moves.
    ///
    /// ```
    /// # use offset_allocator_guarded::*;
    /// # let alloc = Global;
    /// let mut guarded = Guarded::<u32>::new(alloc, 1000)?;
    /// let hole = guarded.allocate(300).unwrap();
    /// guarded.allocate(100);
    /// guarded.free(hole);
    /// assert!(guarded.allocate(800).is_none());
    /// guarded.make_room(800, |it| assert_eq!((it.from, it.to, it.size), (300, 0, 100)));
    /// assert!(guarded.allocate(800).is_some());
    /// # Ok::<(), AllocError>(())
    /// ```
    pub fn make_room<F: FnMut(Move<T::Index>)>(
        &mut self,
        size: u32,
        mut moved: F,
    ) -> Option<RoomCost> {
        let step = self.step_number();
        if step == 0 {
            return None;
        }
        self.make_room_by(size, 1, step, &mut moved)
    }

    /// As [`make_room`](Self::make_room), for `allocate_aligned(size, align)`, where the alignment is from 1 on.
    ///
    /// # Panics
    ///
    /// It panics unless the alignment is at least 1.
    ///
    /// ```
    /// # use offset_allocator_guarded::*;
    /// # let alloc = Global;
    /// let mut guarded = Guarded::<u32>::new(alloc, 1000)?;
    /// let hole = guarded.allocate(300).unwrap();
    /// guarded.allocate_aligned(200, 256);
    /// guarded.free(hole);
    /// assert!(guarded.allocate_aligned(512, 256).is_none());
    /// guarded.make_room_aligned(512, 256, |it| assert_eq!((it.from, it.to, it.size), (512, 0, 200)));
    /// assert!(guarded.allocate_aligned(512, 256).is_some());
    /// # Ok::<(), AllocError>(())
    /// ```
    #[track_caller]
    pub fn make_room_aligned<F: FnMut(Move<T::Index>)>(
        &mut self,
        size: u32,
        align: u32,
        mut moved: F,
    ) -> Option<RoomCost> {
        assert!(1 <= align, "the alignment must be at least 1");
        let step = self.step_number();
        if step == 0 {
            return None;
        }
        self.make_room_by(size, align, step, &mut moved)
    }

    /// What [`compact`](Self::compact) would copy now, and what would be granted after it, without moving anything: as
    /// `Allocator::compact_cost_by` by the step of the space. `None` is returned exactly where `compact` would return
    /// `false`.
    ///
    /// ```
    /// # use offset_allocator_guarded::*;
    /// # let alloc = Global;
    /// let mut guarded = Guarded::<u32>::new(alloc, 1000)?;
    /// let hole = guarded.allocate(300).unwrap();
    /// guarded.allocate_aligned(100, 256);
    /// guarded.free(hole);
    /// let cost = guarded.compact_cost().unwrap();
    /// assert_eq!((cost.units, cost.ranges, cost.largest), (100, 1, 896));
    /// # Ok::<(), AllocError>(())
    /// ```
    pub fn compact_cost(&self) -> Option<CompactCost> {
        let step = self.step_number();
        if step == 0 {
            return None;
        }
        self.space.compact_cost_by(step)
    }

    /// What has to move at least for `allocate(size)`, as [`make_room`](Self::make_room) would move it: as `Allocator::room_cost_by`
    /// by the step of the space. `None` is returned where no run of blocks gives up enough, or the space has no step.
    ///
    /// ```
    /// # use offset_allocator_guarded::*;
    /// # let alloc = Global;
    /// let mut guarded = Guarded::<u32>::new(alloc, 1000)?;
    /// let hole = guarded.allocate(300).unwrap();
    /// guarded.allocate(100);
    /// guarded.free(hole);
    /// assert_eq!(guarded.room_cost(800).unwrap().units, 100);
    /// # Ok::<(), AllocError>(())
    /// ```
    pub fn room_cost(&self, size: u32) -> Option<RoomCost> {
        self.room_cost_aligned(size, 1)
    }

    /// As [`room_cost`](Self::room_cost), for `allocate_aligned(size, align)`, where the alignment is from 1 on.
    ///
    /// # Panics
    ///
    /// It panics unless the alignment is at least 1.
    ///
    /// ```
    /// # use offset_allocator_guarded::*;
    /// # let alloc = Global;
    /// let mut guarded = Guarded::<u32>::new(alloc, 1000)?;
    /// let hole = guarded.allocate(300).unwrap();
    /// guarded.allocate_aligned(200, 256);
    /// guarded.free(hole);
    /// assert_eq!(guarded.room_cost_aligned(512, 256).unwrap().units, 200);
    /// # Ok::<(), AllocError>(())
    /// ```
    #[track_caller]
    pub fn room_cost_aligned(&self, size: u32, align: u32) -> Option<RoomCost> {
        assert!(1 <= align, "the alignment must be at least 1");
        let step = self.step_number();
        if step == 0 {
            return None;
        }
        self.space.room_cost_by(size, align, step)
    }

    /// Slides live ranges to the front of the space by whole steps, as `Allocator::compact_by` does: each keeps
    /// its alignment where that divides `step`. Every ticket stays live, with its size; [`offset_of`](Self::offset_of) returns
    /// where its range begins. `false` is returned, and nothing changes, where that call returns `false`. It makes as
    /// many accesses as [`compact`](Self::compact). If `moved` panics, the guarded allocator must not be used any more: drop it.
    ///
    /// # Panics
    ///
    /// It panics unless the step is at least 1.
    ///
    /// ```
    /// # use offset_allocator_guarded::*;
    /// # let alloc = Global;
    /// let mut guarded = Guarded::<u32>::new(alloc, 1000)?;
    /// let hole = guarded.allocate(300).unwrap();
    /// let mesh = guarded.allocate_aligned(256, 256).unwrap();
    /// guarded.free(hole);
    /// assert!(guarded.compact_by(256, |it| assert_eq!((it.from, it.to, it.size), (512, 0, 256))));
    /// assert_eq!(guarded.offset_of(mesh), Some(0));
    /// # Ok::<(), AllocError>(())
    /// ```
    #[track_caller]
    pub fn compact_by<F: FnMut(Move<T::Index>)>(&mut self, step: u32, mut moved: F) -> bool {
        assert!(1 <= step, "the step must be at least 1");
        let done = self.space.compact_by(step, &mut moved);
        done
    }

    /// Slides live ranges to the front by whole steps, from the offset `from` on and within a budget, as
    /// `Allocator::compact_within` does: so a compaction can be done over several frames. Every ticket stays
    /// live, with its size; [`offset_of`](Self::offset_of) returns where its range begins. The result says what moved, and where
    /// the next call goes on; `None` is returned, and nothing changes, where that call returns `None`. It makes as
    /// many accesses as [`compact_within`](Self::compact_within). If `moved` panics, the guarded allocator must not be used any more: drop it.
    ///
    /// # Panics
    ///
    /// It panics unless the step is at least 1.
    ///
    /// ```
    /// # use offset_allocator_guarded::*;
    /// # let alloc = Global;
    /// let mut guarded = Guarded::<u32>::new(alloc, 1000)?;
    /// let hole = guarded.allocate(300).unwrap();
    /// let mesh = guarded.allocate(100).unwrap();
    /// guarded.allocate(100);
    /// guarded.free(hole);
    /// let progress = guarded.compact_within_by(1, 0, 150, 8, |_| {}).unwrap();
    /// assert_eq!((progress.units, progress.ranges, progress.next), (100, 1, Some(400)));
    /// assert_eq!(guarded.offset_of(mesh), Some(0));
    /// # Ok::<(), AllocError>(())
    /// ```
    #[track_caller]
    pub fn compact_within_by<F: FnMut(Move<T::Index>)>(
        &mut self,
        step: u32,
        from: u32,
        most_units: u32,
        most_ranges: u32,
        mut moved: F,
    ) -> Option<Progress> {
        assert!(1 <= step, "the step must be at least 1");
        let progress = self
            .space
            .compact_within(step, from, most_units, most_ranges, &mut moved);
        progress
    }

    /// Makes room for `allocate_aligned(size, align)` by whole steps, as `Allocator::make_room_by` does: each
    /// range that moves keeps its alignment where that divides `step`. Every ticket stays live, with its size;
    /// [`offset_of`](Self::offset_of) returns where its range begins. It returns what `room_cost_by` of `allocator()` would have
    /// returned before: `None` where no run of blocks gives up enough, and then nothing changes. It makes as many
    /// accesses as [`make_room`](Self::make_room). If `moved` panics, the guarded allocator must not be used any more: drop it.
    ///
    /// # Panics
    ///
    /// It panics unless the alignment is at least 1, and the step is at least 1.
    ///
    /// ```
    /// # use offset_allocator_guarded::*;
    /// # let alloc = Global;
    /// let mut guarded = Guarded::<u32>::new(alloc, 1000)?;
    /// let hole = guarded.allocate(300).unwrap();
    /// guarded.allocate_aligned(200, 256);
    /// guarded.free(hole);
    /// assert!(guarded.allocate_aligned(512, 256).is_none());
    /// guarded.make_room_by(512, 256, 256, |it| assert_eq!((it.from, it.to, it.size), (512, 0, 200)));
    /// assert!(guarded.allocate_aligned(512, 256).is_some());
    /// # Ok::<(), AllocError>(())
    /// ```
    #[track_caller]
    pub fn make_room_by<F: FnMut(Move<T::Index>)>(
        &mut self,
        size: u32,
        align: u32,
        step: u32,
        mut moved: F,
    ) -> Option<RoomCost> {
        assert!(1 <= align, "the alignment must be at least 1");
        assert!(1 <= step, "the step must be at least 1");
        let cost = self.space.make_room_by(size, align, step, &mut moved);
        cost
    }

    /// Slides every live range to the front of the space, as `Allocator::compact` does: **a moved range keeps no
    /// alignment**, whatever was asked for; [`compact`](Self::compact) keeps all. Every ticket stays live, with its size;
    /// [`offset_of`](Self::offset_of) returns where its range begins. It makes at most 384 accesses to the tables of the allocator, and 10
    /// for each block. If `moved` panics, the guarded allocator must not be used any more: drop it.
    ///
    /// ```
    /// # use offset_allocator_guarded::*;
    /// # let alloc = Global;
    /// let mut guarded = Guarded::<u32>::new(alloc, 1000)?;
    /// let hole = guarded.allocate(300).unwrap();
    /// let mesh = guarded.allocate(100).unwrap();
    /// guarded.free(hole);
    /// guarded.compact_unaligned(|it| assert_eq!((it.from, it.to, it.size), (300, 0, 100)));
    /// assert_eq!(guarded.offset_of(mesh), Some(0));
    /// # Ok::<(), AllocError>(())
    /// ```
    pub fn compact_unaligned<F: FnMut(Move<T::Index>)>(&mut self, mut moved: F) {
        self.space.compact(&mut moved);
    }

    /// Makes room for a request of `size` units, where ranges have to move for it, as `Allocator::make_room`
    /// does. **A moved range keeps no alignment**, whatever was asked for; [`make_room`](Self::make_room) keeps all. Every ticket
    /// stays live, with its size; [`offset_of`](Self::offset_of) returns where its range begins. It makes at most 20 accesses to the tables
    /// of the allocator, 6 for each block, and 40 for each range that moves. If `moved` panics, the guarded allocator
    /// must not be used any more: drop it.
    ///
    /// ```
    /// # use offset_allocator_guarded::*;
    /// # let alloc = Global;
    /// let mut guarded = Guarded::<u32>::new(alloc, 1000)?;
    /// let hole = guarded.allocate(300).unwrap();
    /// guarded.allocate(100);
    /// guarded.free(hole);
    /// assert!(guarded.allocate(800).is_none());
    /// guarded.make_room_unaligned(800, |it| assert_eq!((it.from, it.to, it.size), (300, 0, 100)));
    /// assert!(guarded.allocate(800).is_some());
    /// # Ok::<(), AllocError>(())
    /// ```
    pub fn make_room_unaligned<F: FnMut(Move<T::Index>)>(
        &mut self,
        size: u32,
        mut moved: F,
    ) -> Option<RoomCost> {
        self.space.make_room(size, &mut moved)
    }
}
