// Printed by rust/erase from crates/offset_calls/src/sliding.rt: change it there.

//! Calls that may slide ranges: the moves, and the numbers of the ranges that move. It changes the space and the
//! numbers, and no handle or ticket.

use crate::calls::{Call, Moved, Reply};
use crate::numbers::Numbers;
use crate::ticket_player::TicketPlayer;
use offset_allocator::{Allocation, AllocatorOf, Move, NodeIndex, Progress, RoomCost, Tables};
use offset_guarded::GuardedOf;
use offset_script::Answer;
use offset_script::keeper::KeeperOf;
use crate::memory::Vec;
use crate::memory::{AllocError, Global};

// The moves so far, without numbers, each with the handle of its range after it, unless memory for one was
// refused.
struct Seen<NI: NodeIndex> {
    found: Vec<(Allocation<NI>, Moved)>,
    is_refused: bool,
}

impl<NI: NodeIndex> Seen<NI> {
    // No moves.
    fn new(alloc: Global) -> Self {
        Seen {
            found: Vec::new(alloc),
            is_refused: false,
        }
    }

    // One more move.
    fn add(&mut self, range: Move<NI>) {
        let moved = Moved {
            number: 0,
            from: range.from,
            to: range.to,
            size: range.size,
        };
        if self.found.push((range.allocation(), moved)).is_err() {
            self.is_refused = true;
        }
    }
}

// What a call that may slide ranges comes to: a reply without its moves.
enum Slid {
    Refused,
    Compacted,
    CompactedWithin(Option<u32>),
    RoomMade(Option<RoomCost>),
}

// What a compaction comes to, which is done or refused.
fn done(is_done: bool) -> Slid {
    if is_done {
        Slid::Compacted
    } else {
        Slid::Refused
    }
}

// What one within a budget comes to, which came so far or is refused.
fn so_far(progress: Option<Progress>) -> Slid {
    match progress {
        None => Slid::Refused,
        Some(progress) => Slid::CompactedWithin(progress.next),
    }
}

// What a call comes to, which reports its moves to a closure, in their order.
fn slide<T: Tables, F: FnMut(Move<T::Index>)>(
    space: &mut AllocatorOf<T>,
    call: Call,
    moved: &mut F,
) -> Slid {
    match call {
        Call::Compact => {
            space.compact(moved);
            Slid::Compacted
        }
        Call::CompactBy(step) => done(space.compact_by(step, moved)),
        Call::CompactWithin(step, from, most_units, most_ranges) => {
            so_far(space.compact_within(step, from, most_units, most_ranges, moved))
        }
        Call::MakeRoom(size) => Slid::RoomMade(space.make_room(size, moved)),
        Call::MakeRoomBy(size, align, step) => {
            Slid::RoomMade(space.make_room_by(size, align, step, moved))
        }
        _ => unreachable!(),
    }
}

// The same of a space with tickets, which keeps its serials.
fn slide_guarded<T: Tables, F: FnMut(Move<T::Index>)>(
    space: &mut GuardedOf<T>,
    call: Call,
    report: &mut F,
) -> Slid {
    match call {
        Call::Compact => {
            space.compact_unaligned(report);
            Slid::Compacted
        }
        Call::CompactBy(step) => done(space.compact_by(step, report)),
        Call::CompactWithin(step, from, most_units, most_ranges) => {
            so_far(space.compact_within_by(step, from, most_units, most_ranges, report))
        }
        Call::MakeRoom(size) => Slid::RoomMade(space.make_room_unaligned(size, report)),
        Call::MakeRoomBy(size, align, step) => {
            Slid::RoomMade(space.make_room_by(size, align, step, report))
        }
        _ => unreachable!(),
    }
}

// What a call comes to, whose moves are collected. Its index type is a parameter too, which keeps the proof short,
// here and below.
fn collect<NI: NodeIndex, T: Tables<Index = NI>>(
    space: &mut AllocatorOf<T>,
    call: Call,
    seen: &mut Seen<NI>,
) -> Slid {
    slide(space, call, &mut |range: Move<NI>| seen.add(range))
}

// The same of a space with tickets.
fn collect_guarded<NI: NodeIndex, T: Tables<Index = NI>>(
    space: &mut GuardedOf<T>,
    call: Call,
    seen: &mut Seen<NI>,
) -> Slid {
    slide_guarded(space, call, &mut |range: Move<NI>| seen.add(range))
}

// The moves, with the numbers of the ranges.
fn numbered<NI: NodeIndex>(
    alloc: Global,
    numbers: &Numbers,
    slides: &[(Allocation<NI>, Moved)],
) -> Result<Vec<Moved>, AllocError> {
    let mut found = Vec::new(alloc);
    for i in 0..slides.len() {
        let (handle, moved) = slides[i];
        found.push(Moved {
            number: numbers.of(handle.name()),
            ..moved
        })?;
    }
    Ok(found)
}

// The same of a space with tickets, where the numbers are serials.
fn with_serials<T: Tables>(
    alloc: Global,
    space: &GuardedOf<T>,
    slides: &[(Allocation<T::Index>, Moved)],
) -> Result<Vec<Moved>, AllocError> {
    let mut found = Vec::new(alloc);
    for i in 0..slides.len() {
        let (handle, range) = slides[i];
        // it is live, so it has a ticket
        let number = match space.ticket(handle) {
            None => 0,
            Some(ticket) => ticket.serial(),
        };
        found.push(Moved { number, ..range })?;
    }
    Ok(found)
}

// The reply to a call that came to this, with these moves.
fn slid_reply(came_to: Slid, moves: Vec<Moved>) -> Reply {
    match came_to {
        Slid::Refused => Reply::Answer(Answer::Refused),
        Slid::Compacted => Reply::Compacted(moves),
        Slid::CompactedWithin(next) => Reply::CompactedWithin(next, moves),
        Slid::RoomMade(cost) => Reply::RoomMade(cost, moves),
    }
}

// The reply to a call.
#[inline(never)]
pub(crate) fn reply<T: Tables>(
    alloc: Global,
    player: &mut KeeperOf<T>,
    numbers: &mut Numbers,
    call: Call,
) -> Result<Reply, AllocError> {
    numbers.read(&player.handles, player.space.node_count())?;
    let mut seen = Seen::new(alloc);
    let came_to = collect(&mut player.space, call, &mut seen);
    if seen.is_refused {
        return Err(AllocError);
    }
    Ok(slid_reply(came_to, numbered(alloc, numbers, &seen.found)?))
}

// The reply of a space with tickets.
#[inline(never)]
pub(crate) fn reply_guarded<T: Tables>(
    alloc: Global,
    player: &mut TicketPlayer<T>,
    call: Call,
) -> Result<Reply, AllocError> {
    let mut seen = Seen::new(alloc);
    let came_to = collect_guarded(&mut player.space, call, &mut seen);
    if seen.is_refused {
        return Err(AllocError);
    }
    Ok(slid_reply(came_to, with_serials(alloc, &player.space, &seen.found)?))
}
