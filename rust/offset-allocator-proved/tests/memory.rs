//! The memory of the tables. This file has one test, so that nothing else takes memory meanwhile.
#![cfg(target_os = "linux")]
use offset_allocator_proved::{Allocator, Global, NodeIndex};

/// The bytes that the program has mapped, and those of the pages that it was the first to touch. (The system counts
/// resident pages on each processor, and adds them up too seldom for this.)
fn bytes() -> (u64, u64) {
    let read = |file| std::fs::read_to_string(file).unwrap();
    let (statm, stat) = (read("/proc/self/statm"), read("/proc/self/stat"));
    let (_, numbers) = stat.rsplit_once(')').unwrap();
    let pages = [statm.split(' ').next(), numbers.split_whitespace().nth(7)];
    let [mapped, touched] = pages.map(|n| n.unwrap().parse::<u64>().unwrap() * 4096);
    (mapped, touched)
}

/// The bytes that an allocator maps, those that it touches when it is made, and those after 1,000 grants in all.
fn bytes_of<NI: NodeIndex>(nodes: u32) -> (u64, u64, u64) {
    let before = bytes();
    let mut space = Allocator::<NI>::with_max_allocs(Global, 200_000, nodes).unwrap();
    let made = bytes();
    for _ in 0..1000.min(nodes - 2) {
        assert!(space.allocate(100).is_some());
    }
    let used = bytes();
    drop(space);
    (made.0 - before.0, made.1 - before.1, used.1 - before.1)
}

#[test]
fn bytes_of_a_node() {
    // first, so that the thread's own memory is mapped before
    bytes_of::<u32>(100);
    // each table is large enough to be mapped separately, with at most a page and a header more than its cells. All
    // together are larger than 32 MiB: once a smaller piece is freed, the C library takes the next ones from its heap.
    let nodes = 2_000_000;
    let (mapped, made, used) = bytes_of::<u32>(nodes as u32);
    assert!((28 * nodes..28 * nodes + 4 * 8192).contains(&mapped), "{mapped}");
    // what is touched depends on the nodes that are used, and not on the limit
    assert!(made <= 64 * 1024, "{made}");
    assert!(used <= 28 * 1001 + 64 * 1024, "{used}");
    let heads_and_masks = 256 * 4 + 4 * 8;
    assert!(std::mem::size_of::<Allocator<u32>>() <= heads_and_masks + 2 * 24 + 8 * 4);
}
