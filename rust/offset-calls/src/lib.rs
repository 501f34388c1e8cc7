// Printed by rust/erase from crates/offset_calls/src/lib.rt: change it there.

#![doc = include_str!("../README.md")]
#![forbid(unsafe_code)]
#![allow(rustdoc::redundant_explicit_links)] // printed links say in full where they lead
#![warn(missing_docs)]
#![expect(clippy::let_and_return)] // a step of a proof stands before the return, and is left out here
#![expect(clippy::manual_map)] // a `match` needs no closure, whose calls would need a proof
#![expect(clippy::needless_range_loop)] // the proof speaks of the places of grants and of moves

pub use offset_allocator_memory as memory;
pub use offset_allocator_memory::{AllocError, Global};
pub use offset_allocator::{Allocation, Allocator, AllocatorOf, ByField, ByNode, NodeIndex, NodeIndexNonMax};
pub use offset_allocator::{Refusal, RoomCost, StorageReport, Tables};
pub use offset_guarded::{Guarded, GuardedOf, Ticket};
pub use offset_script::{Answer, Command, FullRow, PlayerOf};
// Each module uses those before it alone: calls, numbers, ticket_player, sliding, ending, playing, player, guarded_ending,
// guarded_playing, guarded.

mod calls;
mod ending;
mod guarded;
mod guarded_ending;
mod guarded_playing;
mod numbers;
mod player;
mod playing;
mod sliding;
mod ticket_player;

pub use calls::{Call, LiveRange, Moved, Reply, are_valid};
pub use guarded::{Played, TicketCall, play_guarded};
pub use player::{CallPlayer, CallPlayerOf};
pub use playing::{play_calls, play_calls_of};
