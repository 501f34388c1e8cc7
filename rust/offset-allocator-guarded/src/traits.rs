//! Traits of plain Rust that Rattle lacks. Written by hand.

use core::fmt;
use core::hash::{Hash, Hasher};

use crate::refusal::Refusal;
use crate::state::StateFault;

impl Eq for Refusal {}

impl Hash for Refusal {
    fn hash<H: Hasher>(&self, state: &mut H) {
        core::mem::discriminant(self).hash(state);
    }
}

impl core::error::Error for Refusal {}

/// The text says what is wrong, and where: `a realm of more than 32 bits, at byte 32`.
impl fmt::Display for StateFault {
    fn fmt(&self, f: &mut fmt::Formatter<'_>) -> fmt::Result {
        write!(f, "{}, at byte {}", self.kind, self.at)
    }
}

impl core::error::Error for StateFault {}
