// Printed by rust/erase from crates/offset_calls/src/guarded_playing.rt: change it there.

//! The reply of a guarded allocator to one call, with the ticket that the call passes. It touches the space and the
//! tickets.

use crate::calls::{Call, Reply, begins, resized};
use crate::playing::{room_cost, room_cost_by};
use crate::ticket_player::{TicketPlayer, keep};
use crate::{guarded_ending, sliding};
use offset_allocator::Tables;
use offset_guarded::{GuardedOf, Ticket};
use offset_script::{Answer, Command, full_answer};
use crate::memory::{AllocError, Global};

// The answer to `alloc`.
fn allocate<T: Tables>(player: &mut TicketPlayer<T>, size: u32) -> Result<Answer, AllocError> {
    let granted = player.space.allocate(size);
    keep(&mut player.tickets, granted)
}

// The answer to `align`.
fn allocate_aligned<T: Tables>(
    player: &mut TicketPlayer<T>,
    size: u32,
    align: u32,
) -> Result<Answer, AllocError> {
    let granted = player.space.allocate_aligned(size, align);
    keep(&mut player.tickets, granted)
}

// The reply to `AllocateTight`.
fn allocate_tight<T: Tables>(player: &mut TicketPlayer<T>, size: u32) -> Result<Reply, AllocError> {
    let granted = player.space.allocate_tight(size);
    Ok(Reply::Answer(keep(&mut player.tickets, granted)?))
}

// The reply to `AllocateTightAligned`.
fn allocate_tight_aligned<T: Tables>(
    player: &mut TicketPlayer<T>,
    size: u32,
    align: u32,
) -> Result<Reply, AllocError> {
    let granted = player.space.allocate_tight_aligned(size, align);
    Ok(Reply::Answer(keep(&mut player.tickets, granted)?))
}

// The reply to `AllocateAt`.
fn allocate_at<T: Tables>(
    player: &mut TicketPlayer<T>,
    offset: u32,
    size: u32,
) -> Result<Reply, AllocError> {
    let granted = player.space.allocate_at(offset, size);
    Ok(Reply::Answer(keep(&mut player.tickets, granted)?))
}

// The answer to `free`.
fn release<T: Tables>(space: &mut GuardedOf<T>, ticket: Option<Ticket>) -> Answer {
    let Some(ticket) = ticket else {
        return Answer::Gone;
    };
    if space.free(ticket) {
        Answer::Freed
    } else {
        Answer::Gone
    }
}

// The answer to `size`.
fn size_of<T: Tables>(space: &GuardedOf<T>, ticket: Option<Ticket>) -> Answer {
    let Some(ticket) = ticket else {
        return Answer::Gone;
    };
    match space.size_of(ticket) {
        None => Answer::Gone,
        Some(size) => Answer::Size(size),
    }
}

// The reply to `Offset`.
fn offset_of<T: Tables>(space: &GuardedOf<T>, ticket: Option<Ticket>) -> Reply {
    let Some(ticket) = ticket else {
        return Reply::Answer(Answer::Gone);
    };
    match space.offset_of(ticket) {
        None => Reply::Answer(Answer::Gone),
        Some(offset) => Reply::Offset(offset),
    }
}

// The answer to `reset`.
fn reset<T: Tables>(space: &mut GuardedOf<T>) -> Answer {
    space.reset();
    Answer::Reset
}

// The answer to `extend`.
fn extend<T: Tables>(space: &mut GuardedOf<T>, more: u32) -> Answer {
    if space.extend(more) {
        Answer::Extended
    } else {
        Answer::Refused
    }
}

// The reply to `Shrink`.
fn shrink<T: Tables>(space: &mut GuardedOf<T>, ticket: Option<Ticket>, size: u32) -> Reply {
    let Some(ticket) = ticket else {
        return Reply::Answer(Answer::Gone);
    };
    match space.shrink(ticket, size) {
        None => Reply::Answer(Answer::Gone),
        Some(done) => resized(done),
    }
}

// The reply to `Grow`.
fn grow<T: Tables>(space: &mut GuardedOf<T>, ticket: Option<Ticket>, size: u32) -> Reply {
    let Some(ticket) = ticket else {
        return Reply::Answer(Answer::Gone);
    };
    match space.grow_in_place(ticket, size) {
        None => Reply::Answer(Answer::Gone),
        Some(done) => resized(done),
    }
}

// The answer to a command that passes this ticket.
pub(crate) fn answer<T: Tables>(
    alloc: Global,
    player: &mut TicketPlayer<T>,
    command: Command,
    ticket: Option<Ticket>,
) -> Result<Answer, AllocError> {
    match command {
        Command::Alloc(size) => allocate(player, size),
        Command::Free(_) => Ok(release(&mut player.space, ticket)),
        Command::Size(_) => Ok(size_of(&player.space, ticket)),
        Command::Report => Ok(Answer::Report(player.space.allocator().storage_report())),
        Command::Full => full_answer(alloc, player.space.allocator()),
        Command::Reset => Ok(reset(&mut player.space)),
        Command::Align(size, align) => allocate_aligned(player, size, align),
        Command::Extend(more) => Ok(extend(&mut player.space, more)),
    }
}

// The reply to a call that is no command, and passes this ticket.
#[inline(never)]
pub(crate) fn other<T: Tables>(
    alloc: Global,
    player: &mut TicketPlayer<T>,
    call: Call,
    ticket: Option<Ticket>,
) -> Result<Reply, AllocError> {
    match call {
        Call::Command(_) => unreachable!(),
        Call::Shrink(_, size) => Ok(shrink(&mut player.space, ticket, size)),
        Call::Grow(_, size) => Ok(grow(&mut player.space, ticket, size)),
        Call::Compact => sliding::reply_guarded(alloc, player, call),
        Call::CompactBy(_) => sliding::reply_guarded(alloc, player, call),
        Call::CompactWithin(_, _, _, _) => sliding::reply_guarded(alloc, player, call),
        Call::Offset(_) => Ok(offset_of(&player.space, ticket)),
        Call::Refusal(size) => Ok(Reply::Refusal(player.space.allocator().refusal(size))),
        Call::RefusalAligned(size, align) => Ok(Reply::Refusal(
            player.space.allocator().refusal_aligned(size, align),
        )),
        Call::AllocateTight(size) => allocate_tight(player, size),
        Call::AllocateTightAligned(size, align) => allocate_tight_aligned(player, size, align),
        Call::AllocateAt(offset, size) => allocate_at(player, offset, size),
        Call::RefusalTight(size) => Ok(Reply::Refusal(
            player.space.allocator().refusal_tight(size),
        )),
        Call::RefusalTightAligned(size, align) => Ok(Reply::Refusal(
            player.space.allocator().refusal_tight_aligned(size, align),
        )),
        Call::WouldBegin(size, align) => Ok(begins(
            player.space.allocator().would_begin(size, align),
        )),
        Call::MakeRoom(_) => sliding::reply_guarded(alloc, player, call),
        Call::MakeRoomBy(_, _, _) => sliding::reply_guarded(alloc, player, call),
        Call::RoomCost(size) => Ok(room_cost(player.space.allocator(), size)),
        Call::RoomCostBy(size, align, step) => {
            Ok(room_cost_by(player.space.allocator(), size, align, step))
        }
        Call::Relocate(_) => guarded_ending::relocate(player, ticket),
        Call::RelocateAligned(_, align) => guarded_ending::relocate_aligned(player, ticket, align),
        Call::Retract(less) => Ok(guarded_ending::retract(&mut player.space, less)),
        Call::FirstLive => Ok(guarded_ending::first_live(player)),
        Call::LastLive => Ok(guarded_ending::last_live(player)),
        Call::LiveBefore(_) => Ok(guarded_ending::live_before(player, ticket)),
        Call::LiveAfter(_) => Ok(guarded_ending::live_after(player, ticket)),
    }
}
