// Printed by rust/erase from crates/offset_guarded/src/laws.rt: change it there.

//! What holds of every guarded allocator. Its functions do nothing. With them are questions with a count of their
//! accesses.

pub use crate::allocate::would_begin_counted;
pub use crate::walks::in_the_way_counted;
