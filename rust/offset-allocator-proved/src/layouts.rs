// Printed by rust/erase from crates/offset_allocator/src/layouts.rt: change it there.

//! The two lawful layouts of the tables. They alone touch cells.

pub(crate) mod by_field;
pub(crate) mod by_node;
pub(crate) mod fills;
