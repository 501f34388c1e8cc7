// Printed by rust/erase from crates/offset_calls/src/ticket_player.rt: change it there.

//! A guarded allocator with the tickets of its grants. It touches the list of tickets alone.

use offset_allocator::Tables;
use offset_guarded::{GuardedOf, Ticket};
use offset_script::Answer;
use crate::memory::Vec;
use crate::memory::AllocError;

// A guarded allocator, with the tickets of all grants so far.
pub(crate) struct TicketPlayer<T: Tables> {
    pub(crate) space: GuardedOf<T>,
    pub(crate) tickets: Vec<Ticket>,
}

// The answer to a request with this result. The ticket of a grant is kept.
pub(crate) fn keep(tickets: &mut Vec<Ticket>, granted: Option<Ticket>) -> Result<Answer, AllocError> {
    match granted {
        None => Ok(Answer::Refused),
        Some(ticket) => {
            tickets.push(ticket)?;
            Ok(Answer::Grant {
                number: tickets.len() as u64,
                offset: ticket.offset,
            })
        }
    }
}
