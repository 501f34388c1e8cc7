//! Handles: their size, as keys, as numbers and back, and what a panic says of them.
use std::collections::{HashMap, HashSet};
use std::error::Error;
use std::mem::size_of;
use std::panic::{catch_unwind, set_hook, take_hook, AssertUnwindSafe};
use std::sync::{Arc, Mutex};

use offset_allocator_proved::ext::min_allocator_size;
use offset_allocator_proved::small_float::float_to_uint;
use offset_allocator_proved::{laws, Accesses, Allocation, Allocator, Global, IsMax, NodeIndex, NonMaxU16, NonMaxU32, Refusal};

#[test]
fn sizes() {
    assert_eq!((size_of::<NonMaxU32>(), size_of::<Option<NonMaxU32>>()), (4, 4));
    assert_eq!((size_of::<NonMaxU16>(), size_of::<Option<NonMaxU16>>()), (2, 2));
    assert_eq!((size_of::<Allocation>(), size_of::<Option<Allocation>>()), (8, 8));
    assert_eq!((size_of::<Allocation<u16>>(), size_of::<Option<Allocation<u16>>>()), (8, 8));
}

#[test]
fn parts() {
    let mut a = Allocator::<u32>::with_max_allocs(Global, 100, 16).unwrap();
    let first = a.allocate(10).unwrap();
    let second = a.allocate(20).unwrap();
    for h in [first, second] {
        let (offset, name) = h.to_parts();
        assert_eq!(offset, h.offset);
        assert_eq!(Allocation::from_parts(offset, name), Some(h));
    }
    assert_ne!(first.to_parts().1, second.to_parts().1);
    // only the name counts
    let (_, name) = second.to_parts();
    let made: Allocation = Allocation::from_parts(7, name).unwrap();
    assert_eq!((made.offset, a.allocation_size(made), a.allocation_offset(made)), (7, 20, Some(10)));
    a.free(made);
    assert!(!a.is_live(second));
    for name in [15, 16, 4_294_967_294] {
        assert!(!a.is_live(Allocation::from_parts(0, name).unwrap()));
    }
    assert_eq!(Allocation::<u32>::from_parts(0, u32::MAX), None);
    assert_eq!(Allocation::<u16>::from_parts(1 << 20, 65_534).map(Allocation::to_parts), Some((1 << 20, 65_534)));
    for name in [65_535, 65_536, u32::MAX] {
        assert_eq!(Allocation::<u16>::from_parts(0, name), None);
    }
}

#[test]
fn keys() {
    let mut a = Allocator::<u16>::with_max_allocs(Global, 100, 16).unwrap();
    let mut names = HashMap::new();
    for i in 0..9 {
        names.insert(a.allocate(i).unwrap(), i);
    }
    assert_eq!(names.len(), 9);
    for (h, size) in &names {
        assert_eq!(a.allocation_size(*h), *size);
        let (offset, name) = h.to_parts();
        assert_eq!(names[&Allocation::from_parts(offset, name).unwrap()], *size);
        // an equal name with another offset is another key, as for `==`
        assert!(!names.contains_key(&Allocation::from_parts(offset + 50, name).unwrap()));
    }
    let reasons: HashSet<_> = [Refusal::Nodes, Refusal::TooLarge, Refusal::Space, Refusal::Fragmented, Refusal::Space].into();
    assert_eq!(reasons.len(), 4);
    let numbers: HashSet<_> = (0..10).map(|n| NonMaxU16::new(n % 5).unwrap()).collect();
    assert_eq!(numbers.len(), 5);
}

// What a program keeps of its ranges stands in a table by name, which `compact` does not change.
#[test]
fn a_side_table_by_name() {
    let mut heap = Allocator::<u32>::with_max_allocs(Global, 100, 16).unwrap();
    let mut meshes: Vec<Option<&str>> = vec![None; heap.max_allocs() as usize];
    for text in ["rock", "tree"] {
        let range = heap.allocate(10).unwrap();
        meshes[range.name() as usize] = Some(text);
    }
    let rock = heap.blocks().last().and_then(|block| block.allocation).unwrap();
    assert_eq!(meshes[rock.name() as usize].take(), Some("rock"));
    heap.free(rock);
    heap.compact(|_| {});
    let tree = heap.blocks().last().and_then(|block| block.allocation).unwrap();
    assert_eq!((tree.offset, meshes[tree.name() as usize]), (0, Some("tree")));
    assert!(meshes.iter().flatten().count() == 1 && tree.name() < heap.node_count());
}

// A handle that a move has is another key than that of the grant, and has the same name.
#[test]
fn a_moved_handle_is_another_key() {
    let mut heap = Allocator::<u32>::with_max_allocs(Global, 100, 16).unwrap();
    let (first, second) = (heap.allocate(10).unwrap(), heap.allocate(10).unwrap());
    let known = HashSet::from([second]);
    heap.free(first);
    let mut moved = Vec::new();
    heap.compact(|range| moved.push(range.allocation()));
    assert!(moved.len() == 1 && !known.contains(&moved[0]) && moved[0].name() == second.name());
}

#[test]
fn names_of_numbers() {
    assert_eq!((NonMaxU32::try_from(7).map(u32::from), NonMaxU32::try_from(u32::MAX)), (Ok(7), Err(IsMax)));
    assert_eq!((NonMaxU16::try_from(65_534).map(u16::from), NonMaxU16::try_from(65_535)), (Ok(65_534), Err(IsMax)));
    assert!(NonMaxU32::new(3) < NonMaxU32::new(4) && NonMaxU16::default() < NonMaxU16::new(1).unwrap());
    assert_eq!(IsMax.to_string(), "the largest number names no node");
}

#[test]
fn refusals_are_errors_with_a_text() {
    let texts = [
        (Refusal::Nodes, "too few nodes are left"),
        (Refusal::TooLarge, "the request is too large for the space"),
        (Refusal::Space, "too few units are free"),
        (Refusal::Fragmented, "no free block is large enough until the space is compacted"),
    ];
    for (why, text) in texts {
        let error: Box<dyn Error> = why.into();
        assert_eq!(error.to_string(), text);
    }
}

// An index type that is not lawful: its largest number is below 4, so no limit is admitted.
#[derive(Clone, Copy, Default)]
struct Three(u16);

impl NodeIndex for Three {
    type NonMax = NonMaxU16;

    const MAX: u32 = 3;

    fn from_u32(val: u32) -> Self {
        Three(val as u16)
    }

    fn to_usize(self) -> usize {
        self.0 as usize
    }

    fn to_nonmax(self) -> Option<NonMaxU16> {
        NonMaxU16::new(self.0)
    }

    fn of_nonmax(n: NonMaxU16) -> Self {
        Three(n.get())
    }
}

/// The line and the message of the panic of a call.
fn panics(call: impl FnOnce()) -> (String, u32, String) {
    let met = Arc::new(Mutex::new(None));
    let seen = met.clone();
    set_hook(Box::new(move |info| {
        let place = info.location().unwrap();
        let message = info.payload().downcast_ref::<String>().cloned().or(info.payload().downcast_ref::<&str>().map(|s| s.to_string()));
        *seen.lock().unwrap() = Some((place.file().to_string(), place.line(), message.unwrap()));
    }));
    assert!(catch_unwind(AssertUnwindSafe(call)).is_err());
    drop(take_hook());
    let found = met.lock().unwrap().take();
    found.unwrap()
}

// One test, since the hook is the program's: each call that has a condition names the caller's line.
#[test]
fn a_panic_names_the_line_of_the_call_and_the_handle() {
    let mut a = Allocator::<u32>::with_max_allocs(Global, 100, 16).unwrap();
    a.allocate(10).unwrap();
    let h = a.allocate(20).unwrap();
    a.free(h);
    let name = h.to_parts().1;
    let dead = format!("the handle must be live: Allocation {{ offset: 10, metadata: {name} }}");
    let align = "the alignment must be at least 1";
    macro_rules! expect { ($message:expr, $call:expr) => {
        assert_eq!(panics(|| { let _ = $call; }), (file!().to_string(), line!(), $message.to_string()));
    } }
    expect!(dead, a.free(h));
    expect!(dead, a.shrink(h, 1));
    expect!(dead, a.grow_in_place(h, 30));
    expect!(align, a.allocate_aligned(1, 0));
    expect!(align, a.refusal_aligned(1, 0));
    expect!(align, a.allocate_tight_aligned(1, 0));
    expect!(align, a.refusal_tight_aligned(1, 0));
    expect!(align, a.would_begin(1, 0));
    expect!(align, laws::refusal_tight_aligned_counted(&a, 1, 0, &mut Accesses::new()));
    expect!(align, laws::refusal_aligned_counted(&a, 1, 0, &mut Accesses::new()));
    expect!("max_allocs must be at least 2", Allocator::<u32>::with_max_allocs(Global, 1, 1));
    expect!("max_allocs must be at least 2", Allocator::<Three>::new(Global, 1));
    expect!("max_allocs must be at most NI::MAX - 2", Allocator::<u16>::with_max_allocs(Global, 1, 65_534));
    expect!("needed_object_size must be at most 4026531840", min_allocator_size(u32::MAX));
    expect!("float_value must be below 256", float_to_uint(256));
    expect!("MAX is the name of no node", u32::MAX.to_name());
    expect!("MAX is the name of no node", u16::MAX.to_name());
}
