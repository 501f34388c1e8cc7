// Printed by rust/erase from crates/offset_allocator/src/moves.rt: change it there.

//! Live ranges that slide, what that costs and copies, and what empties the end of a space.

pub(crate) mod compact;
pub(crate) mod compact_cost;
pub(crate) mod gap;
pub(crate) mod make_room;
pub(crate) mod one_move;
pub(crate) mod over_frames;
pub(crate) mod pieces;
pub(crate) mod relocate;
pub(crate) mod retract;
pub(crate) mod room;
pub(crate) mod room_by_steps;
pub(crate) mod runs;
pub(crate) mod slide;
