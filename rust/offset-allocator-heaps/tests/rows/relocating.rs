//! Heaps that are emptied into others.

use super::{at, elsewhere, granted, in_each_layout, limits, new, nowhere, second_at};
use offset_allocator::Tables;
use offset_allocator_heaps::HeapsOf;

// Three heaps of 96 units, of which live ranges of 70, 30 and 50 units stay.
fn expect_pass<T: Tables>() {
    let heaps: &mut HeapsOf<T> = &mut new(limits(96, 8, 8, 3, 0));
    assert_eq!(heaps.emptiest(), None);
    let a = granted(heaps, 40);
    let b = granted(heaps, 30);
    let gone = granted(heaps, 26);
    let c = granted(heaps, 20);
    let d = granted(heaps, 10);
    let also = granted(heaps, 64);
    let e = granted(heaps, 50);
    assert_eq!(at(heaps, also), Some((1, 30)));
    assert_eq!(at(heaps, e), Some((2, 0)));
    assert!(heaps.free(gone));
    assert!(heaps.free(also));
    assert_eq!(heaps.emptiest(), Some(1));
    // from the end: 10 units at 20, then 20 at 0
    assert_eq!(heaps.last_live(1), Some(d));
    assert_eq!(heaps.live_before(d), Some(c));
    assert_eq!(heaps.live_before(c), None);
    assert_eq!(heaps.last_live(3), None);
    // 10 units fit behind the 70 of heap 0
    let d2 = heaps.relocate(d);
    assert_eq!(second_at(d2), Some((0, 70)));
    // 16 are left there, so 20 go behind the 50 of heap 2
    let c2 = heaps.relocate(c);
    assert_eq!(second_at(c2), Some((2, 50)));
    assert_eq!(heaps.size_of(c), Some(20));
    // the old ones were read until now
    assert!(heaps.free(d));
    assert!(heaps.free(c));
    assert_eq!(heaps.live_before(d), None);
    assert_eq!(heaps.relocate(d), None);
    assert_eq!(heaps.drop_empty(0), Some(1));
    assert_eq!(heaps.last_live(1), None);
    // 80 and 70 live units; heap 0 has no room for 50
    assert_eq!(heaps.emptiest(), Some(2));
    assert_eq!(heaps.relocate(e), None);
    // 70 and 70: the last heap is the emptiest, and as many live units are enough
    assert!(heaps.free(d2.expect("a range").place));
    assert_eq!(heaps.emptiest(), Some(2));
    let c3 = heaps.relocate(c2.expect("a range").place);
    assert_eq!(second_at(c3), Some((0, 70)));
    assert!(heaps.free(c2.expect("a range").place));
    // 90 and 50: heap 2 has room for 40 and for 20, but fewer are live there
    assert_eq!(heaps.relocate(a), None);
    assert_eq!(heaps.relocate(b), None);
    assert_eq!(heaps.relocate(c3.expect("a range").place), None);
    let other = elsewhere(e);
    assert_eq!(heaps.relocate(other), None);
    assert_eq!(heaps.live_before(other), None);
    assert_eq!(heaps.relocate(nowhere()), None);
}

#[test]
fn relocation() {
    in_each_layout!(expect_pass);
}

// Two heaps of 96 units: behind 41 live ones a second range of 20 begins at 64, at a multiple of 32, and another at 41.
fn expect_aligned<T: Tables>() {
    let heaps: &mut HeapsOf<T> = &mut new(limits(96, 8, 8, 2, 0));
    let first = granted(heaps, 41);
    let gone = granted(heaps, 52);
    let moved = granted(heaps, 20);
    assert_eq!(at(heaps, moved), Some((1, 0)));
    assert!(heaps.free(gone));
    // 55 units from 41 on are filed as 52: 20 + 31 units fit, 20 + 63 do not
    assert_eq!(heaps.relocate_aligned(moved, 64), None);
    assert_eq!(second_at(heaps.relocate_aligned(moved, 32)), Some((0, 64)));
    // 12 units are left from 84 on, and 23 from 41 on, which are filed as 22: 20 + 7 do not fit, 20 do
    assert_eq!(heaps.relocate_aligned(moved, 8), None);
    assert_eq!(second_at(heaps.relocate_aligned(moved, 1)), Some((0, 41)));
    assert!(heaps.free(moved));
    assert_eq!(heaps.relocate_aligned(moved, 1), None);
    assert_eq!(heaps.relocate_aligned(first, 1), None);
}

#[test]
fn aligned_relocation() {
    in_each_layout!(expect_aligned);
}

// Ranges of no units, which `shrink` leaves: they go to a heap with more live units or, of as many, with a lower number,
// where one unit is free.
fn expect_no_units<T: Tables>() {
    let heaps: &mut HeapsOf<T> = &mut new(limits(96, 8, 8, 3, 0));
    let first = granted(heaps, 96);
    let second = granted(heaps, 96);
    let third = granted(heaps, 96);
    assert_eq!([first.heap, second.heap, third.heap], [0, 1, 2]);
    // nothing is free in the heaps 0 and 1
    assert_eq!(heaps.shrink(third, 0), Some(true));
    assert_eq!(heaps.emptiest(), Some(2));
    assert_eq!(heaps.relocate(third), None);
    // no unit is live in the heaps 1 and 2: the range of heap 2 goes to heap 1, which has a lower number, and not back
    assert_eq!(heaps.shrink(second, 0), Some(true));
    assert_eq!(heaps.emptiest(), Some(2));
    let moved = heaps.relocate(third);
    assert_eq!((second_at(moved), moved.and_then(|granted| heaps.size_of(granted.place))), (Some((1, 0)), Some(0)));
    assert!(heaps.free(third));
    assert_eq!(heaps.relocate(second), None);
    assert_eq!(heaps.drop_empty(0), Some(2));
    // heap 0 has live units, and then a free one
    assert_eq!(heaps.shrink(first, 95), Some(true));
    let last = heaps.relocate_aligned(second, 5);
    assert_eq!(second_at(last), None);
    assert_eq!(second_at(heaps.relocate(second)), Some((0, 95)));
    assert_eq!(heaps.relocate(first), None);
}

#[test]
fn relocation_of_no_units() {
    in_each_layout!(expect_no_units);
}
