//! The memory of 1,000 heaps of at most 65,536 nodes, with 100 live ranges each, which begin with 64 nodes.
//!
//!     cargo run --release --offline -p offset-allocator-heaps --example resident

use offset_allocator_heaps::{Global, Heaps, Limits};

// The addresses that are taken, and the pages of memory that are resident, in bytes.
fn taken() -> (u64, u64) {
    let statm = std::fs::read_to_string("/proc/self/statm").expect("Linux");
    let mut pages = statm.split(' ').map(|it| it.parse::<u64>().unwrap_or(0) * 4096);
    (pages.next().unwrap(), pages.next().unwrap())
}

fn main() {
    let before = taken();
    let limits = Limits { size: 100 * 8192, first_size: 100 * 8192, max_allocs: 65_536, first_allocs: 64, most: 1_000, most_larger: 0 };
    let mut heaps = Heaps::<u32>::new(Global, limits).unwrap();
    let empty = taken().1 - before.1;
    // 100 ranges fill a heap
    let places: Vec<_> = (0..100_000).map(|_| heaps.allocate(8192).unwrap().place).collect();
    let list = (places.capacity() * std::mem::size_of_val(&places[0])) as u64;
    let now = taken();
    let (addresses, full) = (now.0 - before.0 - list, now.1 - before.1 - list);
    assert_eq!(heaps.totals().heaps, 1_000);
    assert_eq!(places[99_999].heap, 999);
    assert!(places.iter().all(|&place| heaps.is_live(place)));
    println!("{:.1} MB with no heap, {:.1} MB with 1,000, of {:.1} MB of addresses", empty as f64 / 1e6, full as f64 / 1e6, addresses as f64 / 1e6);
    // 128 nodes, unused names and serials, and 1.2 KB for each number
    assert!(full < 12_000_000 && addresses < 60_000_000);
}
