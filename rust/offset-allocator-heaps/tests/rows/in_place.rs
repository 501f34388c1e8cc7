//! What is asked of heaps and changed in place: units, walks, sizes of ranges, and all as JSON.

use super::{at, elsewhere, granted, in_each_layout, limits, new};
use offset_allocator::{Global, Tables};
use offset_allocator_heaps::{json_of, Heaps, HeapsOf, Limits};

// Two heaps of 100 units, and two larger.
fn few() -> Limits {
    limits(100, 8, 8, 2, 2)
}

// The heaps 0, 1 and 3 are met, and in them all live ranges, from the first one on.
fn expect_walks<T: Tables>() {
    let heaps: &mut HeapsOf<T> = &mut new(few());
    assert_eq!((heaps.first_heap(), heaps.first_place()), (None, None));
    let a = granted(heaps, 60);
    let b = granted(heaps, 30);
    let c = granted(heaps, 50);
    let large = granted(heaps, 150);
    let d = granted(heaps, 120);
    assert!(heaps.give_up(large.heap));
    assert_eq!(heaps.units_of_heap(1), Some(100));
    assert_eq!(heaps.units_of_heap(2), None);
    assert_eq!(heaps.units_of_heap(3), Some(120));
    assert_eq!((heaps.first_heap(), heaps.heap_after(0)), (Some(0), Some(1)));
    assert_eq!((heaps.heap_after(1), heaps.heap_after(2)), (Some(3), Some(3)));
    assert_eq!((heaps.heap_after(3), heaps.heap_after(u32::MAX)), (None, None));
    assert_eq!((heaps.first_place(), heaps.place_after(a)), (Some(a), Some(b)));
    assert_eq!((heaps.place_after(b), heaps.place_after(c)), (Some(c), Some(d)));
    assert_eq!((heaps.place_after(d), heaps.place_after(large)), (None, None));
    assert_eq!((heaps.first_live(0), heaps.first_live(2)), (Some(a), None));
    assert_eq!((heaps.live_after(a), heaps.live_after(b)), (Some(b), None));
    // a heap with no live range is passed over
    assert!(heaps.free(c));
    assert_eq!((heaps.live_after(c), heaps.place_after(b)), (None, Some(d)));
}

// The answers of `shrink` and `grow_in_place`, and what they leave for others.
fn expect_sizes<T: Tables>() {
    let heaps: &mut HeapsOf<T> = &mut new(few());
    let a = granted(heaps, 60);
    let b = granted(heaps, 30);
    assert_eq!(heaps.grow_in_place(b, 40), Some(true));
    assert_eq!(heaps.grow_in_place(b, 41), Some(false));
    assert_eq!(heaps.grow_in_place(b, 39), Some(false));
    assert_eq!(heaps.grow_in_place(a, 61), Some(false));
    // the heap is full, and noted so
    assert_eq!(heaps.totals().free_units, 0);
    assert_eq!(heaps.shrink(a, 61), Some(false));
    assert_eq!(heaps.shrink(a, 40), Some(true));
    assert_eq!((heaps.size_of(a), heaps.size_of(b)), (Some(40), Some(40)));
    // the 20 units between them are noted
    let c = granted(heaps, 20);
    assert_eq!(at(heaps, c), Some((0, 40)));
    let other = elsewhere(a);
    assert_eq!((heaps.shrink(other, 10), heaps.grow_in_place(other, 50)), (None, None));
    assert!(heaps.free(b));
    assert_eq!((heaps.shrink(b, 10), heaps.grow_in_place(b, 50)), (None, None));
}

#[test]
fn in_place() {
    in_each_layout!(expect_walks);
    in_each_layout!(expect_sizes);
}

#[test]
fn heaps_as_json() {
    let mut heaps: Heaps = new(few());
    let first = granted(&mut heaps, 100);
    let large = granted(&mut heaps, 200);
    let text = json_of(Global, &heaps).expect("memory");
    assert_eq!((first.heap, large.heap), (2, 3));
    assert_eq!(
        &*text,
        "{\"totals\":{\"heaps\":2,\"units\":300,\"live_units\":300,\"free_units\":0,\"largest_free_region\":0},\
          \"heaps\":[{\"number\":2,\"space\":{\"size\":100,\"max_allocs\":4,\"live_ranges\":1,\"live_units\":100,\
          \"free_blocks\":0,\"free_units\":0,\"largest_free_block\":0,\"largest_free_region\":0,\"unused_nodes\":3,\
          \"blocks\":[{\"offset\":0,\"size\":100,\"name\":0}]}},{\"number\":3,\"space\":{\"size\":200,\"max_allocs\":4,\
          \"live_ranges\":1,\"live_units\":200,\"free_blocks\":0,\"free_units\":0,\"largest_free_block\":0,\
          \"largest_free_region\":0,\"unused_nodes\":3,\"blocks\":[{\"offset\":0,\"size\":200,\"name\":0}]}}]}"
    );
}
