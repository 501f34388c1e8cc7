// Printed by rust/erase from crates/offset_calls/src/guarded.rt: change it there.

//! Plays calls on a guarded allocator, which it makes and alone touches. Each call may pass any ticket.

use crate::calls::{Call, Reply};
use crate::guarded_playing::{answer, other};
use crate::ticket_player::TicketPlayer;
use offset_allocator::{NodeIndex, Tables};
use offset_guarded::{GuardedOf, Ticket};
use offset_script::Command;
use crate::memory::Vec;
use crate::memory::{AllocError, Global};

/// A call to a guarded allocator.
#[derive(Clone, Copy, PartialEq, Debug)]
pub struct TicketCall {
    /// The call. Without a ticket it passes the one that the grant of its number gave, whether it is live or
    /// not.
    pub call: Call,
    /// The ticket that the call passes instead: any numbers.
    pub ticket: Option<Ticket>,
}

/// The replies to calls on a guarded allocator, and the tickets of its grants.
#[derive(Debug)]
pub struct Played {
    /// The replies, in order, one for each call.
    pub replies: Vec<Reply>,
    /// The ticket of grant k is at k - 1.
    pub tickets: Vec<Ticket>,
}

// The number in a call, or 0 where it has none.
fn number_in(call: &Call) -> u32 {
    match call {
        Call::Command(Command::Free(number)) => *number,
        Call::Command(Command::Size(number)) => *number,
        Call::Shrink(number, _) => *number,
        Call::Grow(number, _) => *number,
        Call::Offset(number) => *number,
        Call::Relocate(number) => *number,
        Call::RelocateAligned(number, _) => *number,
        Call::LiveBefore(number) => *number,
        Call::LiveAfter(number) => *number,
        _ => 0,
    }
}

// The ticket of the grant of this number.
fn ticket_of(tickets: &[Ticket], number: u32) -> Option<Ticket> {
    if number == 0 {
        return None;
    }
    match tickets.get(number as usize - 1) {
        None => None,
        Some(ticket) => Some(*ticket),
    }
}

// The ticket that a call passes, if there is one.
fn passed(tickets: &[Ticket], call: &TicketCall) -> Option<Ticket> {
    match call.ticket {
        None => ticket_of(tickets, number_in(&call.call)),
        Some(ticket) => Some(ticket),
    }
}

// Appends the reply to a call that is no command.
#[inline(never)]
fn append_other<T: Tables>(
    alloc: Global,
    player: &mut TicketPlayer<T>,
    call: &TicketCall,
    replies: &mut Vec<Reply>,
) -> Result<(), AllocError> {
    let ticket = passed(&player.tickets, call);
    let reply = other(alloc, player, call.call, ticket)?;
    replies.push(reply)?;
    Ok(())
}

// Appends the reply to one call: those of calls that are no commands out of line, as a player without tickets does.
#[inline(always)]
fn append<T: Tables>(
    alloc: Global,
    player: &mut TicketPlayer<T>,
    call: &TicketCall,
    replies: &mut Vec<Reply>,
) -> Result<(), AllocError> {
    match call.call {
        Call::Command(command) => {
            let ticket = passed(&player.tickets, call);
            let answer = answer(alloc, player, command, ticket)?;
            replies.push(Reply::Answer(answer))?;
            Ok(())
        }
        _ => append_other(alloc, player, call, replies),
    }
}

/// Plays calls on a guarded allocator of `size` units with the node limit `max_allocs` and a realm, and
/// returns the replies in order, one for each, and the tickets of the grants.
///
/// The calls may pass any tickets: live ones, those of ranges that were freed or reset, altered ones, random
/// numbers. The limit has to be 2 to `T::Index::MAX - 2`, each alignment and each step at
/// least 1.
///
/// # Errors
///
/// It fails only where an allocation fails.
///
/// # Panics
///
/// It panics unless `max_allocs` is at least 2, and `max_allocs` is at most `NI::MAX - 2`, and each
/// alignment is at least 1.
///
/// ```
/// # use offset_calls::*;
/// # let alloc = Global;
/// let call = TicketCall { call: Call::AllocateTight(300), ticket: None };
/// let played = play_guarded::<offset_allocator::ByNode<u32>>(alloc, 1000, 16, 7, &[call])?;
/// assert_eq!((played.tickets[0].realm(), played.tickets[0].serial()), (7, 1));
/// # Ok::<(), AllocError>(())
/// ```
#[track_caller]
pub fn play_guarded<T: Tables>(
    alloc: Global,
    size: u32,
    max_allocs: u32,
    realm: u32,
    calls: &[TicketCall],
) -> Result<Played, AllocError> {
    assert!(2 <= max_allocs, "max_allocs must be at least 2");
    assert!(max_allocs < T::Index::MAX - 1, "max_allocs must be at most NI::MAX - 2");
    assert!(calls.iter().all(|it| it.call.is_valid()), "each alignment must be at least 1");
    let mut player: TicketPlayer<T> = TicketPlayer {
        space: GuardedOf::with_realm(alloc, size, max_allocs, realm)?,
        tickets: Vec::new(alloc),
    };
    let mut replies = Vec::with_capacity(alloc, calls.len())?;
    for call in calls {
        append(alloc, &mut player, call, &mut replies)?;
    }
    Ok(Played {
        replies,
        tickets: player.tickets,
    })
}
