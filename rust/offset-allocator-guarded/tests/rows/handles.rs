//! Handles that are stale, freed twice, altered or of another space.

use super::asserts::{assert_same, assert_that};
use super::layouts::{check_each, Expectation, Layout};
use super::steps::Limit::{Few, Limited};
use super::steps::Step::{Frees, FreesAltered, Gone, Grants, Lives};
use super::steps::{expect_all, follow, make_allocator, Case, Step};
use offset_allocator::{Allocation, AllocatorOf, Tables};

// A stale handle equals the live handle of a newer grant with the same node.
const FREED_TWICE: [Step; 7] = [
    Grants(8, 0),
    Frees(0),
    Gone(0),
    Grants(8, 0),
    Lives(0, 8),
    Frees(0),
    Gone(1),
];

const FREED: [Case; 3] = [
    Case {
        name: "a stale handle",
        size: 64,
        limit: Few,
        steps: &FREED_TWICE,
    },
    Case {
        name: "a stale handle",
        size: 64,
        limit: Limited(8),
        steps: &FREED_TWICE,
    },
    // `free` goes by the node index alone.
    Case {
        name: "a handle with another offset",
        size: 64,
        limit: Limited(8),
        steps: &[
            Grants(8, 0),
            Grants(8, 8),
            FreesAltered(0, 8),
            Gone(0),
            Lives(1, 8),
            Grants(8, 0),
        ],
    },
];

#[test]
fn handles_that_are_stale_or_altered() {
    expect_all(&FREED);
}

// The handles of a space with many nodes.
fn of_another_space<T: Tables>() -> Vec<Allocation<T::Index>> {
    let mut handles = Vec::new();
    let space = make_allocator::<T>(198, Limited(200)).expect("memory");
    if let Some(mut space) = space {
        for _ in 0..198u32 {
            if let Some(handle) = space.allocate(1) {
                handles.push(handle);
            }
        }
    }
    assert_same(&handles.len(), &198);
    handles
}

// The number of live handles. Each of them has this size; all others have size 0.
fn count_live<T: Tables>(
    allocator: &AllocatorOf<T>,
    handles: &[Allocation<T::Index>],
    size: u32,
) -> u32 {
    let mut count = 0u32;
    for handle in handles {
        if allocator.is_live(*handle) {
            count = count.saturating_add(1);
            assert_same(&allocator.allocation_size(*handle), &size);
        } else {
            assert_same(&allocator.allocation_size(*handle), &0);
        }
    }
    count
}

struct Foreign;

impl Expectation for Foreign {
    fn check<T: Tables>(&self) {
        let handles = of_another_space::<T>();
        let made = make_allocator::<T>(64, Limited(4)).expect("memory");
        let mut space = made.expect("a lawful limit");
        assert_same(&count_live(&space, &handles, 0), &0);
        follow("a space with foreign handles", &mut space, &[Grants(5, 0)]);
        assert_that(count_live(&space, &handles, 5) <= 1);
    }
}

#[test]
fn handles_of_another_space() {
    check_each(&[Layout::Wide, Layout::Narrow], &Foreign);
}
