//! A third lawful index type: the numbers 0 to 7, of which 0 to 6 name nodes.

use offset_allocator::{NodeIndex, NodeIndexNonMax};
use std::fmt;

/// A number up to 7.
#[derive(Clone, Copy, Default)]
pub struct Tiny {
    value: u8,
}

/// A number up to 6.
#[derive(Clone, Copy, PartialEq, Default)]
pub struct NonMaxTiny {
    value: u8,
}

impl fmt::Debug for NonMaxTiny {
    fn fmt(&self, f: &mut fmt::Formatter<'_>) -> fmt::Result {
        fmt::Debug::fmt(&self.value, f)
    }
}

impl fmt::Display for NonMaxTiny {
    fn fmt(&self, f: &mut fmt::Formatter<'_>) -> fmt::Result {
        fmt::Display::fmt(&self.value, f)
    }
}

impl NodeIndexNonMax for NonMaxTiny {
    fn to_usize(self) -> usize {
        self.value as usize
    }
}

impl NodeIndex for Tiny {
    type NonMax = NonMaxTiny;

    const MAX: u32 = 7;

    fn from_u32(val: u32) -> Self {
        Tiny {
            value: (val % 8) as u8,
        }
    }

    fn to_usize(self) -> usize {
        self.value as usize
    }

    fn to_nonmax(self) -> Option<NonMaxTiny> {
        (self.value < 7).then_some(NonMaxTiny { value: self.value })
    }

    fn of_nonmax(n: NonMaxTiny) -> Self {
        Tiny { value: n.value }
    }
}
