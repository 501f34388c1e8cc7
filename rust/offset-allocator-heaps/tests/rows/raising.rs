//! Heaps that begin with few nodes, beside heaps that begin with all.

use super::{at, granted, in_each_layout, limits, new, second_at};
use offset_allocator::Tables;
use offset_allocator_heaps::{Granted, HeapsOf, Limits, Place, Refusal};

// Two heaps of 200 units, and a larger one.
fn few() -> Limits {
    limits(200, 40, 8, 2, 1)
}

// The node limits of the first two heaps, and of the larger one.
fn limits_of<T: Tables>(heaps: &HeapsOf<T>) -> [Option<u32>; 3] {
    [0, 1, 2].map(|number| heaps.heap(number).map(|heap| heap.allocator().max_allocs()))
}

// A request for 0 to 4 units, from any offset or from an even one on.
fn request<T: Tables>(heaps: &mut HeapsOf<T>, step: u32) -> Result<Granted, Refusal> {
    heaps.allocate_aligned(step % 5, 1 + step % 2)
}

// The same calls have the same results, and the same ranges are live: `few` begins with few nodes, and `all`
// with all.
fn expect_alike<T: Tables>() {
    let mut few: HeapsOf<T> = new(few());
    let mut all: HeapsOf<T> = new(limits(200, 40, 40, 2, 1));
    let mut last: Option<Place> = None;
    for step in 0..120 {
        let answer = request(&mut few, step);
        let wanted = request(&mut all, step);
        assert_eq!(answer, wanted, "at {step}");
        if step % 7 == 3 {
            if let Some(place) = last {
                assert_eq!(few.free(place), all.free(place), "at {step}");
            }
        }
        if let Ok(granted) = answer {
            last = Some(granted.place);
        }
        assert_eq!(few.totals(), all.totals(), "at {step}");
    }
}

#[test]
fn heaps_that_are_raised_grant_as_others_do() {
    in_each_layout!(expect_alike);
}

// A heap has 8 nodes, then 16, 32 and 40, each time before a grant that its space would refuse: so one of 8 nodes with seven
// blocks has its limit raised, since one node stays unused, and one with six does not.
fn expect_raises<T: Tables>() {
    let mut heaps: HeapsOf<T> = new(few());
    assert_eq!(limits_of(&heaps), [None, None, None]);
    let mut raised = Vec::new();
    for step in 0..38 {
        let before = limits_of(&heaps)[0];
        let place = heaps.allocate(1).expect("a grant").place;
        assert_eq!(place.heap, 0, "at {step}");
        if before.is_some() && limits_of(&heaps)[0] != before {
            raised.push(step);
        }
    }
    // n live ranges and the free block are n + 1 blocks
    assert_eq!(raised, [6, 14, 30]);
    assert_eq!(limits_of(&heaps), [Some(40), None, None]);
    // 38 live ranges and a free block: of 40 nodes one stays unused, and the next heap has 8 of them
    let next = heaps.allocate(1).expect("a grant");
    assert_eq!((next.place.heap, next.is_new), (1, true));
    assert_eq!(limits_of(&heaps), [Some(40), Some(8), None]);
    // a larger heap has 4, and is never raised
    assert_eq!(granted(&mut heaps, 201).heap, 2);
    assert_eq!(limits_of(&heaps), [Some(40), Some(8), Some(4)]);
}

// Heap 0 has seven blocks: its limit would have to be raised for a range of heap 1, and it takes none, since `relocate`
// takes no memory. A request raises it, and then the heap takes the range.
fn expect_relocation<T: Tables>() {
    let heaps: &mut HeapsOf<T> = &mut new(few());
    let own: Vec<Place> = (0..6).map(|_| granted(heaps, 30)).collect();
    let moved = granted(heaps, 30);
    assert_eq!(at(heaps, own[5]), Some((0, 150)));
    assert_eq!(at(heaps, moved), Some((1, 0)));
    assert!(heaps.free(own[1]));
    // 30 units at 0, 30 free ones, 30 at 60, 90, 120 and 150, and 20 free ones
    assert_eq!(second_at(heaps.relocate(moved)), None);
    assert_eq!(limits_of(heaps), [Some(8), Some(8), None]);
    let last = granted(heaps, 20);
    assert_eq!(at(heaps, last), Some((0, 180)));
    assert_eq!(limits_of(heaps), [Some(16), Some(8), None]);
    assert_eq!(second_at(heaps.relocate(moved)), Some((0, 30)));
    assert_eq!(limits_of(heaps), [Some(16), Some(8), None]);
}

// With six blocks it takes a range that may begin anywhere, which may add one block, and none at an alignment, which may
// add two.
fn expect_aligned_relocation<T: Tables>() {
    let heaps: &mut HeapsOf<T> = &mut new(few());
    for _ in 0..5 {
        granted(heaps, 30);
    }
    // 50 units are free, which are filed as 48
    let moved = granted(heaps, 49);
    assert_eq!(at(heaps, moved), Some((1, 0)));
    assert_eq!(heaps.shrink(moved, 40), Some(true));
    assert_eq!(second_at(heaps.relocate_aligned(moved, 4)), None);
    assert_eq!(second_at(heaps.relocate(moved)), Some((0, 150)));
    assert_eq!(limits_of(heaps), [Some(8), Some(8), None]);
}

// A limit is raised for units at the end only where they become a further block; and none is raised for `shrink`, which is
// refused where the space refuses it.
fn expect_extension<T: Tables>() {
    let heaps: &mut HeapsOf<T> = &mut new(few());
    let own: Vec<Place> = (0..6).map(|_| granted(heaps, 30)).collect();
    assert_eq!((heaps.extend_heap(0, 0), heaps.extend_heap(0, 10)), (Ok(true), Ok(true)));
    assert_eq!(heaps.units_of_heap(0), Some(210));
    // the last range takes the 30 free units: six blocks, and the last one is used
    assert_eq!(heaps.grow_in_place(own[5], 60), Some(true));
    assert_eq!(heaps.shrink(own[5], 60), Some(true));
    assert_eq!(heaps.shrink(own[0], 20), Some(true));
    // seven blocks: 20 units at 0, 10 free ones, and five ranges
    assert_eq!(heaps.shrink(own[1], 20), Some(false));
    assert_eq!(heaps.shrink(own[0], 15), Some(true));
    assert_eq!(heaps.extend_heap(0, 0), Ok(true));
    assert_eq!(limits_of(heaps), [Some(8), None, None]);
    assert_eq!(heaps.extend_heap(0, 10), Ok(true));
    assert_eq!(limits_of(heaps), [Some(16), None, None]);
    assert_eq!(heaps.shrink(own[1], 20), Some(true));
}

#[test]
fn node_limits_are_raised() {
    in_each_layout!(expect_raises);
    in_each_layout!(expect_relocation);
    in_each_layout!(expect_aligned_relocation);
    in_each_layout!(expect_extension);
}
