//! All layouts, with each index type.

use super::tiny::Tiny;
use offset_allocator::{ByField, ByNode, Tables};

/// All layouts of an index type.
#[derive(Clone, Copy)]
pub enum Layout {
    Wide,
    Narrow,
    Tiny,
}

/// Each index type once.
pub const ALL: [Layout; 3] = [Layout::Wide, Layout::Narrow, Layout::Tiny];

/// What is expected of a layout, whichever it is.
pub trait Expectation {
    fn check<T: Tables>(&self);
}

/// Checks it of these, one after another.
pub fn check_each<E: Expectation>(layouts: &[Layout], expected: &E) {
    for layout in layouts {
        match layout {
            Layout::Wide => {
                expected.check::<ByNode<u32>>();
                expected.check::<ByField<u32>>();
            }
            Layout::Narrow => {
                expected.check::<ByNode<u16>>();
                expected.check::<ByField<u16>>();
            }
            Layout::Tiny => {
                expected.check::<ByNode<Tiny>>();
                expected.check::<ByField<Tiny>>();
            }
        }
    }
}

/// Checks it of the first ones.
pub fn check<E: Expectation>(expected: &E) {
    check_each(&[Layout::Wide], expected);
}
