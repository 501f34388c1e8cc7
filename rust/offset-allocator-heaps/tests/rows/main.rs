//! Calls of many heaps, and what they have to return, as rows that were worked out by hand.

mod dropping;
mod in_place;
mod places;
mod raising;
mod relocating;
mod states;

use offset_allocator::{Global, Tables};
use offset_allocator_heaps::{Granted, HeapsOf, Limits, Place, Refusal};

/// Calls a function for each layout and index type.
macro_rules! in_each_layout {
    ($check:ident) => {
        $check::<offset_allocator::ByNode<u32>>();
        $check::<offset_allocator::ByField<u32>>();
        $check::<offset_allocator::ByNode<u16>>();
        $check::<offset_allocator::ByField<u16>>();
    };
}
pub(crate) use in_each_layout;

/// Heaps of so many units and nodes, which begin with all of these, or with as many as `first_allocs`.
fn limits(size: u32, max_allocs: u32, first_allocs: u32, most: u32, most_larger: u32) -> Limits {
    Limits { size, first_size: size, max_allocs, first_allocs, most, most_larger }
}

/// No heap yet, of the realm 9.
fn new<T: Tables>(limits: Limits) -> HeapsOf<T> {
    HeapsOf::with_realm(Global, limits, 9).expect("memory")
}

/// The place of a grant.
#[track_caller]
fn granted<T: Tables>(heaps: &mut HeapsOf<T>, size: u32) -> Place {
    heaps.allocate(size).expect("a grant").place
}

/// What a request gets: the heap, the offset, and whether the heap is new.
fn shown(answer: Result<Granted, Refusal>) -> Result<(u32, u32, bool), Refusal> {
    answer.map(|granted| (granted.place.heap, granted.offset, granted.is_new))
}

/// Where a live place is: its heap and its offset.
fn at<T: Tables>(heaps: &HeapsOf<T>, place: Place) -> Option<(u32, u32)> {
    heaps.offset_of(place).map(|offset| (place.heap, offset))
}

/// Where the second range of a place is, which makes no heap.
fn second_at(answer: Option<Granted>) -> Option<(u32, u32)> {
    answer.map(|granted| {
        assert!(!granted.is_new);
        (granted.place.heap, granted.offset)
    })
}

/// The place of other heaps with the same numbers.
fn elsewhere(mut place: Place) -> Place {
    place.realm = 8;
    place
}

/// A place that is live nowhere.
fn nowhere() -> Place {
    Place::from_parts(9, 0, 0, 0, 0).expect("a name")
}
