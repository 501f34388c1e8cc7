//! A call whose condition is not met panics, with the message in `table.py`.
use offset_allocator_proved::ext::min_allocator_size;
use offset_allocator_proved::small_float::float_to_uint;
use offset_allocator_proved::{laws, Accesses, Allocator, Global, NodeIndex};

fn space() -> Allocator {
    Allocator::with_max_allocs(Global, 100, 16).unwrap()
}

#[test]
#[should_panic(expected = "max_allocs must be at least 2")]
fn no_node() {
    let _ = Allocator::<u32>::with_max_allocs(Global, 100, 0);
}

#[test]
#[should_panic(expected = "max_allocs must be at least 2")]
fn one_node() {
    let _ = Allocator::<u32>::with_max_allocs(Global, 100, 1);
}

#[test]
#[should_panic(expected = "max_allocs must be at most NI::MAX - 2")]
fn too_many_nodes() {
    let _ = Allocator::<u32>::with_max_allocs(Global, 100, u32::MAX - 1);
}

#[test]
#[should_panic(expected = "max_allocs must be at most NI::MAX - 2")]
fn too_many_nodes_of_16_bits() {
    let _ = Allocator::<u16>::with_max_allocs(Global, 100, 65_534);
}

#[test]
#[should_panic(expected = "the handle must be live")]
fn freed_twice() {
    let mut a = space();
    let h = a.allocate(1).unwrap();
    a.free(h);
    a.free(h);
}

#[test]
#[should_panic(expected = "the handle must be live")]
fn freed_elsewhere() {
    let mut wide = Allocator::<u32>::with_max_allocs(Global, 100, 1000).unwrap();
    let h = wide.allocate(1).unwrap();
    space().free(h);
}

#[test]
#[should_panic(expected = "the handle must be live")]
fn freed_after_reset() {
    let mut a = space();
    let h = a.allocate(1).unwrap();
    a.reset();
    a.free(h);
}

#[test]
#[should_panic(expected = "the handle must be live")]
fn shrunk_after_it_was_freed() {
    let mut a = space();
    let h = a.allocate(2).unwrap();
    a.free(h);
    a.shrink(h, 1);
}

#[test]
#[should_panic(expected = "the handle must be live")]
fn grown_after_it_was_freed() {
    let mut a = space();
    let h = a.allocate(2).unwrap();
    a.free(h);
    a.grow_in_place(h, 3);
}

#[test]
#[should_panic(expected = "the alignment must be at least 1")]
fn asked_of_an_alignment_of_0() {
    let _ = space().refusal_aligned(1, 0);
}

#[test]
#[should_panic(expected = "the alignment must be at least 1")]
fn asked_of_no_alignment() {
    let _ = laws::refusal_aligned_counted(&space(), 1, 0, &mut Accesses::new());
}

#[test]
#[should_panic(expected = "the alignment must be at least 1")]
fn aligned_to_nothing() {
    space().allocate_aligned(1, 0);
}

#[test]
#[should_panic(expected = "the alignment must be at least 1")]
fn asked_where_nothing_is_aligned_to() {
    let _ = space().would_begin(1, 0);
}

#[test]
#[should_panic(expected = "needed_object_size must be at most 4026531840")]
fn no_space_is_that_large() {
    min_allocator_size(4_026_531_841);
}

#[test]
#[should_panic(expected = "float_value must be below 256")]
fn no_class() {
    float_to_uint(256);
}

#[test]
#[should_panic(expected = "MAX is the name of no node")]
fn no_name() {
    u32::MAX.to_name();
}

#[test]
#[should_panic(expected = "MAX is the name of no node")]
fn no_name_of_16_bits() {
    u16::MAX.to_name();
}
