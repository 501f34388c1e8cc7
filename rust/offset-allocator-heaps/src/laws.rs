// Printed by rust/erase from crates/offset_heaps/src/laws.rt: change it there.

//! Laws: what holds of all heaps. Its functions do nothing, but that two look at each slot. With them are the calls
//! that leave all heaps as they are, with a count of their accesses.

pub use crate::foretell::refusal_aligned_counted;
pub use crate::heap_numbers::{first_heap_counted, heap_after_counted};
pub use crate::relocate::emptiest_counted;
pub use crate::tight::refusal_tight_aligned_counted;
