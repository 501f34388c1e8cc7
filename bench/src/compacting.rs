//! `compact` beside what a caller can do without it: free all live ranges, at once or one by one, and grant each anew. In
//! space order that leaves them where `compact` does.
use crate::workloads::Random;
use offset_allocator_proved::{Allocation, Allocator, Global};
use std::time::Instant;

struct Range {
    handle: Allocation,
    size: u32,
}

/// A space, and its live ranges in space order.
pub struct Pool {
    space: Allocator,
    ranges: Vec<Range>,
}

impl Pool {
    /// This many live ranges of 1 to 1,024 units, with about half as many holes: of twice as many, half are freed at random.
    fn new(live: u32) -> Self {
        let mut random = Random(0x9e3779b97f4a7c15);
        let nodes = (2 * live + 2).next_power_of_two();
        let mut space = Allocator::with_max_allocs(Global, live * 4096, nodes).unwrap();
        let grant = |size| Range { handle: space.allocate(size).unwrap(), size };
        let mut ranges: Vec<Option<Range>> = (0..2 * live).map(|_| random.size(10)).map(grant).map(Some).collect();
        for slot in &random.shuffled(2 * live)[..live as usize] {
            space.free(ranges[*slot as usize].take().unwrap().handle);
        }
        Pool { space, ranges: ranges.into_iter().flatten().collect() }
    }

    fn grant_anew(&mut self) {
        for range in &mut self.ranges {
            range.handle = self.space.allocate(range.size).unwrap();
        }
    }

    /// Whether each range begins where the one before it ends.
    fn is_packed(&self) -> bool {
        let mut end = 0;
        self.ranges.iter().all(|range| {
            let start = std::mem::replace(&mut end, range.handle.offset + range.size);
            range.handle.offset == start && self.space.allocation_size(range.handle) == range.size
        })
    }
}

#[no_mangle]
#[inline(never)]
pub fn compacting_compact(pool: &mut Pool) {
    let mut ranges = pool.ranges.iter_mut();
    pool.space.compact(|moved| {
        // the next range that was there: those before the first hole do not move
        ranges.find(|range| range.handle.offset == moved.from).unwrap().handle = moved.allocation();
    });
}

#[no_mangle]
#[inline(never)]
pub fn compacting_reset(pool: &mut Pool) {
    pool.space.reset();
    pool.grant_anew();
}

#[no_mangle]
#[inline(never)]
pub fn compacting_free(pool: &mut Pool) {
    for range in &pool.ranges {
        pool.space.free(range.handle);
    }
    pool.grant_anew();
}

/// The ways, and their names.
pub const WAYS: [(&str, fn(&mut Pool)); 3] = [("compact", compacting_compact), ("reset", compacting_reset), ("free", compacting_free)];

/// One run, in nanoseconds.
pub fn run(live: u32, way: fn(&mut Pool)) -> f64 {
    let mut pool = Pool::new(live);
    let start = Instant::now();
    way(&mut pool);
    let taken = start.elapsed().as_nanos() as f64;
    assert!(pool.is_packed() && pool.space.block_count() == live + 1);
    taken
}

/// Nanoseconds a live range, of the fastest run of each way. The ways take turns.
pub fn times(live: u32) -> [f64; 3] {
    let mut fastest = [f64::MAX; 3];
    for _ in 0..(200_000 / live).max(25) {
        for (best, (_, way)) in fastest.iter_mut().zip(WAYS) {
            *best = best.min(run(live, way) / f64::from(live));
        }
    }
    fastest
}
