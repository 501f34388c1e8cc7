//! Growth, larger heaps, dropping, and places that are not live.

use super::{elsewhere, granted, in_each_layout, limits, new, shown};
use offset_allocator::Tables;
use offset_allocator_heaps::Refusal::{Empty, Full};
use offset_allocator_heaps::{Heaps, HeapsOf, Refusal};

// The numbers of the heaps that are dropped, the first three.
fn dropped<T: Tables>(heaps: &mut HeapsOf<T>, keep: u32) -> [Option<u32>; 3] {
    [heaps.drop_empty(keep), heaps.drop_empty(keep), heaps.drop_empty(keep)]
}

// Two heaps of 100 units, whose class is that of 96, and one larger heap.
fn expect_growth<T: Tables>(heaps: &mut HeapsOf<T>) {
    assert_eq!(shown(heaps.allocate(0)), Err(Empty));
    let first = granted(heaps, 60);
    assert_eq!(shown(heaps.allocate(60)), Ok((1, 0, true)));
    // the first heap has 40 units left: 36 of them, and then 4
    assert_eq!(shown(heaps.allocate(36)), Ok((0, 60, false)));
    assert_eq!(shown(heaps.allocate(60)), Err(Full));
    // 4 units from a multiple of 32 on take room for 35, which the second heap has from 60 on
    assert_eq!(shown(heaps.allocate_aligned(4, 32)), Ok((1, 64, false)));
    // 97 units are more than the class of a heap has
    assert_eq!(shown(heaps.allocate(97)), Ok((2, 0, true)));
    assert_eq!(shown(heaps.allocate_aligned(96, 2)), Err(Full));
    let totals = heaps.totals();
    assert_eq!(totals.heaps, 3);
    assert_eq!(totals.units, 297);
    assert_eq!(totals.live_units, 257);
    assert_eq!(totals.largest_free_region, 32);
    assert!(heaps.is_live(first));
    assert_eq!(heaps.size_of(first), Some(60));
    assert_eq!(heaps.offset_of(first), Some(0));
}

// The first heap is emptied, and its number used again.
fn expect_drops<T: Tables>(heaps: &mut HeapsOf<T>) {
    heaps.reset();
    assert_eq!(heaps.totals().live_units, 0);
    assert_eq!(dropped(heaps, 1), [Some(2), Some(1), None]);
    let old = granted(heaps, 50);
    assert_eq!(old.heap, 0);
    assert_eq!(dropped(heaps, 0), [None, None, None]);
    assert!(heaps.free(old));
    assert!(!heaps.free(old));
    assert_eq!(dropped(heaps, 0), [Some(0), None, None]);
    let new = granted(heaps, 50);
    assert_eq!(new.heap, 0);
    assert_eq!(new.heap_realm(), 4);
    assert!(heaps.is_live(new));
    assert!(!heaps.is_live(old));
    let other = elsewhere(new);
    assert!(!heaps.free(other));
    assert!(heaps.give_up(0));
    assert!(!heaps.give_up(0));
    assert!(!heaps.give_up(3));
    assert!(!heaps.is_live(new));
    assert!(heaps.heap(0).is_none());
}

fn heaps_come_and_go<T: Tables>() {
    let mut heaps: HeapsOf<T> = new(limits(100, 8, 8, 2, 1));
    expect_growth(&mut heaps);
    expect_drops(&mut heaps);
}

#[test]
fn heaps() {
    in_each_layout!(heaps_come_and_go);
}

// 1001 units are of the class of 960, and a request for them is one of the class of 1024: so the heap that was
// made for them has no room for them once it is empty, until it is dropped.
fn expect_the_drop_of_a_larger_heap<T: Tables>() {
    let mut heaps: HeapsOf<T> = new(limits(1000, 8, 8, 1, 1));
    let first = granted(&mut heaps, 1001);
    assert!(heaps.free(first));
    assert_eq!(shown(heaps.allocate(1001)), Err(Full));
    assert_eq!(shown(heaps.allocate(961)), Err(Full));
    assert!(heaps.drop_heap(first.heap));
    assert_eq!(shown(heaps.allocate(1001)), Ok((1, 0, true)));
    assert!(!heaps.is_live(first));
}

#[test]
fn an_empty_larger_heap_is_dropped_first() {
    in_each_layout!(expect_the_drop_of_a_larger_heap);
}

// The first range of a heap begins at 0, a multiple of every alignment: so a page at an alignment fits a page, and
// takes no larger heap. A heap that is there is asked for 1024 + 255 units.
fn expect_an_aligned_page<T: Tables>() {
    let mut heaps: HeapsOf<T> = new(limits(1024, 8, 8, 2, 1));
    let first = heaps.allocate_aligned(1024, 256).expect("a grant");
    assert_eq!(shown(Ok(first)), Ok((0, 0, true)));
    assert_eq!(shown(heaps.allocate_aligned(1024, 1 << 31)), Ok((1, 0, true)));
    assert_eq!(shown(heaps.allocate_aligned(1025, 256)), Ok((2, 0, true)));
    assert!(heaps.free(first.place));
    assert_eq!(shown(heaps.allocate_aligned(1024, 256)), Err(Full));
    assert_eq!(shown(heaps.allocate(1024)), Ok((0, 0, false)));
}

#[test]
fn an_aligned_page_fits_a_page() {
    in_each_layout!(expect_an_aligned_page);
}

#[test]
fn heaps_are_shown() {
    let heaps: Heaps = new(limits(10, 4, 4, 1, 0));
    assert_eq!(
        format!("{heaps:?}, {}", Refusal::Full),
        "Heaps { realm: 9, limits: Limits { size: 10, first_size: 10, max_allocs: 4, first_allocs: 4, most: 1, most_larger: 0 }, made: 0, \
         totals: Totals { heaps: 0, units: 0, live_units: 0, free_units: 0, largest_free_region: 0 } }, \
         no heap has room, and no other may be made"
    );
}
