//! What an allocator is made of.

use super::asserts::{assert_same, assert_that};
use super::layouts::{check, Expectation};
use offset_allocator::Global;
use offset_allocator::{laws, AllocatorOf, NodeIndex, Tables};

struct OneSet;

impl Expectation for OneSet {
    // `unused_nodes` names every field of an allocator with its type, so that another one does not compile.
    fn check<T: Tables>(&self) {
        assert_that(3 < T::Index::MAX - 1);
        let mut space = AllocatorOf::<T>::with_max_allocs(Global, 100, 3).expect("memory");
        assert_same(&laws::unused_nodes(&space), &2);
        assert_that(space.allocate(10).is_some());
        assert_same(&laws::unused_nodes(&space), &1);
    }
}

#[test]
fn keeps_one_set_of_tables() {
    check(&OneSet);
}
