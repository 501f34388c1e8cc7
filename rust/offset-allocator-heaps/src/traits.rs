//! Traits of plain Rust that Rattle lacks. Written by hand.

use core::fmt;

use crate::refusal::Refusal;
use crate::state::StateFault;

impl Eq for Refusal {}

impl core::error::Error for Refusal {}

/// The text says what is wrong, and where: `limits that are not admitted, at byte 32`.
impl fmt::Display for StateFault {
    fn fmt(&self, f: &mut fmt::Formatter<'_>) -> fmt::Result {
        write!(f, "{}, at byte {}", self.kind, self.at)
    }
}

impl core::error::Error for StateFault {}
