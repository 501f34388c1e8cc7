//! How all memory of the tables is written at the start. This file has one test, so that nothing else touches memory
//! meanwhile.
#![cfg(target_os = "linux")]
use offset_allocator_proved::{Allocator, Global};

/// How many pages the program was the first to touch.
fn pages() -> u64 {
    let stat = std::fs::read_to_string("/proc/self/stat").unwrap();
    let (_, numbers) = stat.rsplit_once(')').unwrap();
    numbers.split_whitespace().nth(7).unwrap().parse().unwrap()
}

#[test]
fn every_page_is_touched_at_the_start() {
    const NODES: u32 = 1_000_000;
    let space = || Allocator::<u32>::with_max_allocs(Global, 1 << 20, NODES).unwrap();
    // the pages that are touched while all nodes come into use
    let grown = |space: &mut Allocator| {
        let before = pages();
        for _ in 0..NODES - 2 {
            assert!(space.allocate(1).is_some());
        }
        assert!(space.is_full());
        pages() - before
    };
    // 28 bytes a node: 6,836 pages, or 14 where the system has pages of 2 MiB
    let later = grown(&mut space());
    assert!(later >= 13, "{later}");
    let mut space = space();
    for _ in 1..space.max_allocs() {
        space.allocate(0);
    }
    assert!(space.is_full());
    space.reset();
    assert_eq!((space.block_count(), space.storage_report().total_free_space), (1, 1 << 20));
    // a page for the text of the test
    let later = grown(&mut space);
    assert!(later <= 2, "{later}");
}
