// Printed by rust/erase from crates/offset_calls/src/guarded_ending.rt: change it there.

//! The replies of a guarded allocator to calls at the end of a space. It touches the space and the tickets.

use crate::calls::{LiveRange, Reply, resized};
use crate::ticket_player::{TicketPlayer, keep};
use offset_allocator::Tables;
use offset_guarded::{GuardedOf, Ticket};
use offset_script::Answer;
use crate::memory::AllocError;

// The reply to `Relocate`. The ticket of a grant is kept.
pub(crate) fn relocate<T: Tables>(
    player: &mut TicketPlayer<T>,
    ticket: Option<Ticket>,
) -> Result<Reply, AllocError> {
    let Some(ticket) = ticket else {
        return Ok(Reply::Answer(Answer::Gone));
    };
    if !player.space.is_live(ticket) {
        return Ok(Reply::Answer(Answer::Gone));
    }
    let granted = player.space.relocate_unaligned(ticket);
    Ok(Reply::Answer(keep(&mut player.tickets, granted)?))
}

// The reply to `RelocateAligned`. The ticket of a grant is kept.
pub(crate) fn relocate_aligned<T: Tables>(
    player: &mut TicketPlayer<T>,
    ticket: Option<Ticket>,
    align: u32,
) -> Result<Reply, AllocError> {
    let Some(ticket) = ticket else {
        return Ok(Reply::Answer(Answer::Gone));
    };
    if !player.space.is_live(ticket) {
        return Ok(Reply::Answer(Answer::Gone));
    }
    let granted = player.space.relocate_aligned(ticket, align);
    Ok(Reply::Answer(keep(&mut player.tickets, granted)?))
}

// The reply to `Retract`.
pub(crate) fn retract<T: Tables>(space: &mut GuardedOf<T>, less: u32) -> Reply {
    resized(space.retract(less))
}

// The range of a live ticket, whose number is its serial, or none.
fn numbered(found: Option<Ticket>) -> Reply {
    match found {
        None => Reply::Found(None),
        Some(ticket) => Reply::Found(Some(LiveRange {
            number: ticket.serial(),
            offset: ticket.offset,
        })),
    }
}

// The reply to `FirstLive`.
pub(crate) fn first_live<T: Tables>(player: &TicketPlayer<T>) -> Reply {
    numbered(player.space.first_live())
}

// The reply to `LastLive`.
pub(crate) fn last_live<T: Tables>(player: &TicketPlayer<T>) -> Reply {
    numbered(player.space.last_live())
}

// The reply to `LiveBefore`.
pub(crate) fn live_before<T: Tables>(player: &TicketPlayer<T>, ticket: Option<Ticket>) -> Reply {
    let Some(ticket) = ticket else {
        return Reply::Answer(Answer::Gone);
    };
    if !player.space.is_live(ticket) {
        return Reply::Answer(Answer::Gone);
    }
    numbered(player.space.live_before(ticket))
}

// The reply to `LiveAfter`.
pub(crate) fn live_after<T: Tables>(player: &TicketPlayer<T>, ticket: Option<Ticket>) -> Reply {
    let Some(ticket) = ticket else {
        return Reply::Answer(Answer::Gone);
    };
    if !player.space.is_live(ticket) {
        return Reply::Answer(Answer::Gone);
    }
    numbered(player.space.live_after(ticket))
}
