//! What a place is: five numbers, none of which a move changes.

use super::{at, granted, in_each_layout, limits, new};
use offset_allocator::Tables;
use offset_allocator_heaps::{HeapsOf, Place};

#[test]
fn a_place_takes_24_bytes() {
    assert_eq!((size_of::<Place>(), size_of::<Option<Place>>()), (24, 24));
}

fn expect_parts<T: Tables>() {
    let heaps: &mut HeapsOf<T> = &mut new(limits(100, 8, 8, 2, 1));
    let gone = granted(heaps, 30);
    let place = granted(heaps, 20);
    // the heap, the realm, and in the heap the second name, the second grant and the first realm
    assert_eq!(place.to_parts(), (0, 9, 1, 2, 1));
    assert_eq!((place.name(), place.serial(), place.heap_realm()), (1, 2, 1));
    assert_eq!(format!("{place:?}"), "Place { heap: 0, realm: 9, name: 1, serial: 2, heap_realm: 1 }");
    assert_eq!(place.ticket(30).to_parts(), (30, 1, 2, 1));
    assert_eq!(heaps.heap(0).and_then(|heap| heap.size_of(place.ticket(7))), Some(20));
    assert_eq!(at(heaps, place), Some((0, 30)));
    assert!(heaps.free(gone));
    heaps.compact(&mut |_, _| ());
    assert_eq!((heaps.first_live(0), at(heaps, place)), (Some(place), Some((0, 0))));
}

#[test]
fn places() {
    in_each_layout!(expect_parts);
}

#[test]
fn places_of_numbers() {
    let place = Place::from_parts(3, 9, 1, 1 << 40 | 7, 5).expect("a name");
    assert_eq!(place.to_parts(), (3, 9, 1, 1 << 40 | 7, 5));
    assert_eq!(Place::from_ticket(3, 9, place.ticket(0)), place);
    assert_eq!(Place::from_parts(3, 9, u32::MAX, 7, 5), None);
    for other in [(4, 9, 1, 1 << 40 | 7, 5), (3, 8, 1, 1 << 40 | 7, 5), (3, 9, 0, 1 << 40 | 7, 5), (3, 9, 1, 7, 5), (3, 9, 1, 1 << 40, 5), (3, 9, 1, 1 << 40 | 7, 6)] {
        let (heap, realm, name, serial, heap_realm) = other;
        assert_ne!(Place::from_parts(heap, realm, name, serial, heap_realm), Some(place));
    }
}
