// Printed by rust/erase from crates/offset_allocator/src/states.rt: change it there.

//! Spaces as bytes, and copies of spaces: the bytes are read off tables, the others make tables.

pub(crate) mod building;
pub(crate) mod copy;
pub(crate) mod restore;
pub(crate) mod save;
pub(crate) mod state;
