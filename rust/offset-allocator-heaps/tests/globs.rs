//! A program that imports all of a crate has std's `Vec` and `String` still.

#[test]
fn vec_and_string_are_those_of_std() {
    mod of_spaces {
        use offset_allocator::*;

        pub fn bytes() -> Vec<u8> {
            let space = Allocator::<u32>::new(Global, 10).unwrap();
            let mut own: Vec<u8> = Vec::new();
            own.push(1);
            own.extend(Vec::from(space.write_state(Global).unwrap()));
            assert_eq!(String::from("text"), "text");
            own
        }
    }
    mod of_tickets {
        use offset_guarded::*;

        pub fn bytes() -> Vec<u8> {
            let space = Guarded::<u32>::new(Global, 10).unwrap();
            let mut own: Vec<u8> = Vec::new();
            own.push(1);
            own.extend(Vec::from(space.write_state(Global).unwrap()));
            assert_eq!(String::from("text"), "text");
            own
        }
    }
    mod of_heaps {
        use offset_allocator_heaps::*;

        pub fn bytes() -> Vec<u8> {
            let limits = Limits { size: 10, first_size: 10, max_allocs: 4, first_allocs: 4, most: 1, most_larger: 0 };
            let heaps = Heaps::<u32>::with_realm(Global, limits, 1).unwrap();
            let mut own: Vec<u8> = Vec::new();
            own.push(1);
            own.extend(Vec::from(heaps.write_state(Global).unwrap()));
            assert_eq!(String::from("text"), "text");
            own
        }
    }
    assert_eq!([of_spaces::bytes().len(), of_tickets::bytes().len(), of_heaps::bytes().len()], [45, 101, 105]);
}
