// Printed by rust/erase from crates/offset_pictures/src/shapes.rt: change it there.

//! The rectangle of a life, in hundredths of a pixel. It only computes.

use crate::ages::age_of;
use crate::living::Life;
use crate::plots::Plot;

/// A rectangle before it is made thicker, in hundredths of a pixel. Merging orders rectangles by these
/// fields, the first one first.
#[derive(Clone, Copy, PartialEq, Debug)]
pub struct Shape {
    pub top: u32,
    pub bottom: u32,
    /// The group of its age.
    pub age: usize,
    pub left: u32,
    pub right: u32,
}

impl Shape {
    /// How wide it is.
    pub fn width(&self) -> u32 {
        self.right.saturating_sub(self.left)
    }

    /// How high it is.
    pub fn height(&self) -> u32 {
        self.bottom.saturating_sub(self.top)
    }
}

/// The rectangle of a life: from the call that granted it to the one that ended it, as high as its range, and
/// of the age of its grant.
pub fn shape_of(plot: &Plot, life: &Life) -> Shape {
    Shape {
        top: plot.units.up(u64::from(life.offset) + u64::from(life.size)),
        bottom: plot.units.up(u64::from(life.offset)),
        age: age_of(life.lived),
        left: plot.calls.right(life.first.saturating_add(1) as u64),
        right: plot.calls.right(life.last.saturating_add(1) as u64),
    }
}
