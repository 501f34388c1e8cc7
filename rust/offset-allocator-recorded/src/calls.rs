//! The calls of a space with tickets, each of which writes its line.

/// The calls, for a type that has: `calls`, what makes them; `line` and `request`, which write a line, of a request with its
/// name; `granted`, which takes what a request returned; `grant_of`, the number of the grant of a ticket; `unname`, where a name is that of
/// no call; `check`; and `ready`, before a call whose answer the node limit may decide.
macro_rules! calls_with_tickets {
    () => {
        /// `GuardedOf::allocate`.
        pub fn allocate(&mut self, size: u32) -> Option<Ticket> {
            self.ready();
            self.request(format_args!("alloc {size}"));
            let found = self.calls().allocate(size);
            self.granted(found)
        }

        /// `GuardedOf::allocate_aligned`: `align` has to be at least 1. For 0 it panics, and writes nothing.
        #[track_caller]
        pub fn allocate_aligned(&mut self, size: u32, align: u32) -> Option<Ticket> {
            self.check(align >= 1, "the alignment must be at least 1");
            self.ready();
            self.request(format_args!("align {size} {align}"));
            let found = self.calls().allocate_aligned(size, align);
            self.granted(found)
        }

        /// `GuardedOf::allocate_tight`.
        pub fn allocate_tight(&mut self, size: u32) -> Option<Ticket> {
            self.ready();
            self.request(format_args!("tight {size}"));
            let found = self.calls().allocate_tight(size);
            self.granted(found)
        }

        /// `GuardedOf::allocate_tight_aligned`: as `allocate_aligned`.
        #[track_caller]
        pub fn allocate_tight_aligned(&mut self, size: u32, align: u32) -> Option<Ticket> {
            self.check(align >= 1, "the alignment must be at least 1");
            self.ready();
            self.request(format_args!("tight {size} {align}"));
            let found = self.calls().allocate_tight_aligned(size, align);
            self.granted(found)
        }

        /// `GuardedOf::allocate_at`.
        pub fn allocate_at(&mut self, offset: u32, size: u32) -> Option<Ticket> {
            self.ready();
            self.request(format_args!("at {offset} {size}"));
            let found = self.calls().allocate_at(offset, size);
            self.granted(found)
        }

        /// `GuardedOf::free`: for a ticket that is not live, `free 0` is written.
        pub fn free(&mut self, ticket: Ticket) -> bool {
            self.line(format_args!("free {}", self.grant_of(ticket)));
            self.calls().free(ticket)
        }

        /// `GuardedOf::shrink`: for a ticket that is not live, `shrink 0` is written.
        pub fn shrink(&mut self, ticket: Ticket, size: u32) -> Option<bool> {
            self.ready();
            self.line(format_args!("shrink {} {size}", self.grant_of(ticket)));
            self.calls().shrink(ticket, size)
        }

        /// `GuardedOf::grow_in_place`: for a ticket that is not live, `grow 0` is written.
        pub fn grow_in_place(&mut self, ticket: Ticket, size: u32) -> Option<bool> {
            self.line(format_args!("grow {} {size}", self.grant_of(ticket)));
            self.calls().grow_in_place(ticket, size)
        }

        /// `GuardedOf::relocate`: the line has the alignment that the range keeps by the step of the space. For a ticket that is
        /// not live, `relocate 0` is written; where the space has no step, nothing.
        pub fn relocate(&mut self, ticket: Ticket) -> Option<Ticket> {
            match self.offset_of(ticket) {
                None => {
                    self.ready();
                    self.request(format_args!("relocate 0"));
                }
                Some(offset) => {
                    let (mut align, mut rest) = (self.step_of_call()?, offset);
                    self.ready();
                    while rest != 0 {
                        (align, rest) = (rest, align % rest);
                    }
                    self.request(format_args!("relocate {} {align}", self.grant_of(ticket)));
                }
            }
            let found = self.calls().relocate(ticket);
            self.granted(found)
        }

        /// `GuardedOf::relocate_unaligned`: for a ticket that is not live, `relocate 0` is written.
        pub fn relocate_unaligned(&mut self, ticket: Ticket) -> Option<Ticket> {
            self.ready();
            self.request(format_args!("relocate {}", self.grant_of(ticket)));
            let found = self.calls().relocate_unaligned(ticket);
            self.granted(found)
        }

        /// `GuardedOf::relocate_aligned`: `align` has to be at least 1. For 0 it panics, and writes nothing; for a
        /// ticket that is not live, `relocate 0` is written.
        #[track_caller]
        pub fn relocate_aligned(&mut self, ticket: Ticket, align: u32) -> Option<Ticket> {
            self.check(align >= 1, "the alignment must be at least 1");
            self.ready();
            self.request(format_args!("relocate {} {align}", self.grant_of(ticket)));
            let found = self.calls().relocate_aligned(ticket, align);
            self.granted(found)
        }

        /// `GuardedOf::extend`.
        pub fn extend(&mut self, more: u32) -> bool {
            self.ready();
            self.line(format_args!("extend {more}"));
            self.calls().extend(more)
        }

        /// `GuardedOf::compact`: the line has the step of the space. Where it has none, nothing is written, as of each call here
        /// that goes by it.
        pub fn compact<F: FnMut(Move<T::Index>)>(&mut self, moved: F) -> bool {
            let Some(step) = self.step_of_call() else { return false };
            self.ready();
            self.line(format_args!("compact {step}"));
            self.calls().compact(moved)
        }

        /// `GuardedOf::compact_unaligned`.
        pub fn compact_unaligned<F: FnMut(Move<T::Index>)>(&mut self, moved: F) {
            self.line(format_args!("compact"));
            self.calls().compact_unaligned(moved);
        }

        /// `GuardedOf::compact_by`: `step` has to be at least 1. For 0 it panics, and writes nothing.
        #[track_caller]
        pub fn compact_by<F: FnMut(Move<T::Index>)>(&mut self, step: u32, moved: F) -> bool {
            self.check(step >= 1, "step must be at least 1");
            self.ready();
            self.line(format_args!("compact {step}"));
            self.calls().compact_by(step, moved)
        }

        /// `GuardedOf::compact_within`: as `compact`.
        pub fn compact_within<F: FnMut(Move<T::Index>)>(
            &mut self,
            from: u32,
            most_units: u32,
            most_ranges: u32,
            moved: F,
        ) -> Option<Progress> {
            let step = self.step_of_call()?;
            self.ready();
            self.line(format_args!("compact {step} {from} {most_units} {most_ranges}"));
            self.calls().compact_within(from, most_units, most_ranges, moved)
        }

        /// `GuardedOf::compact_within_by`: as `compact_by`.
        #[track_caller]
        pub fn compact_within_by<F: FnMut(Move<T::Index>)>(
            &mut self,
            step: u32,
            from: u32,
            most_units: u32,
            most_ranges: u32,
            moved: F,
        ) -> Option<Progress> {
            self.check(step >= 1, "step must be at least 1");
            self.ready();
            self.line(format_args!("compact {step} {from} {most_units} {most_ranges}"));
            self.calls().compact_within_by(step, from, most_units, most_ranges, moved)
        }

        /// `GuardedOf::make_room`: as `compact`.
        pub fn make_room<F: FnMut(Move<T::Index>)>(&mut self, size: u32, moved: F) -> Option<RoomCost> {
            let step = self.step_of_call()?;
            self.ready();
            self.line(format_args!("room {size} 1 {step}"));
            self.calls().make_room(size, moved)
        }

        /// `GuardedOf::make_room_aligned`: as `compact`, and `align` has to be at least 1. For 0 it panics, and writes nothing.
        #[track_caller]
        pub fn make_room_aligned<F: FnMut(Move<T::Index>)>(&mut self, size: u32, align: u32, moved: F) -> Option<RoomCost> {
            self.check(align >= 1, "the alignment must be at least 1");
            let step = self.step_of_call()?;
            self.ready();
            self.line(format_args!("room {size} {align} {step}"));
            self.calls().make_room_aligned(size, align, moved)
        }

        /// `GuardedOf::make_room_unaligned`.
        pub fn make_room_unaligned<F: FnMut(Move<T::Index>)>(&mut self, size: u32, moved: F) -> Option<RoomCost> {
            self.ready();
            self.line(format_args!("room {size}"));
            self.calls().make_room_unaligned(size, moved)
        }

        /// `GuardedOf::make_room_by`: `align` and `step` have to be at least 1. For 0 it panics, and writes nothing.
        #[track_caller]
        pub fn make_room_by<F: FnMut(Move<T::Index>)>(&mut self, size: u32, align: u32, step: u32, moved: F) -> Option<RoomCost> {
            self.check(align >= 1, "the alignment must be at least 1");
            self.check(step >= 1, "step must be at least 1");
            self.ready();
            self.line(format_args!("room {size} {align} {step}"));
            self.calls().make_room_by(size, align, step, moved)
        }

        /// `GuardedOf::reset`.
        pub fn reset(&mut self) {
            self.line(format_args!("reset"));
            self.calls().reset();
        }

        /// `GuardedOf::raise_step`. No line is written, since each move by the step has it in its line.
        pub fn raise_step(&mut self, align: u32) {
            self.calls().raise_step(align);
        }

        // The step of the space, by which a call goes that is written next. Where there is none it changes nothing, and is not
        // written: a name that was given to it is that of no other call.
        fn step_of_call(&mut self) -> Option<u32> {
            let step = self.step();
            if step.is_none() {
                self.unname();
            }
            step
        }
    };
}

pub(crate) use calls_with_tickets;
