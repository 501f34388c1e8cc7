//! One arena, owned by one thread; eight threads hold its ranges, and release them. A release goes through a queue, which
//! the owner drains: so no call of the allocator waits for a lock.
//!
//! `Range` is neither `Clone` nor `Copy`, and its drop sends its handle once: so each handle that the owner frees is live.

use offset_allocator_proved::{AllocError, Allocation, Allocator, Global};
use std::collections::VecDeque;
use std::sync::mpsc::{channel, Receiver, Sender};

/// A space that one thread owns.
pub struct Arena {
    space: Allocator,
    released: Receiver<Allocation>,
    queue: Sender<Allocation>,
}

/// A range that any thread may hold. When it is dropped, its units go back to its arena.
#[derive(Debug)]
pub struct Range {
    handle: Allocation,
    units: u32,
    queue: Sender<Allocation>,
}

impl Arena {
    pub fn new(units: u32, nodes: u32) -> Result<Self, AllocError> {
        let (queue, released) = channel();
        Ok(Arena { space: Allocator::with_max_allocs(Global, units, nodes)?, released, queue })
    }

    /// Frees what was released since the last call, say once a frame. Returns how many ranges that were.
    pub fn drain(&mut self) -> usize {
        let space = &mut self.space;
        self.released.try_iter().map(|handle| space.free(handle)).count()
    }

    /// Requests a range. Only where that is refused, the queue is drained for it.
    pub fn request(&mut self, units: u32) -> Option<Range> {
        let handle = match self.space.allocate(units) {
            Some(handle) => handle,
            None if self.drain() > 0 => self.space.allocate(units)?,
            None => return None,
        };
        Some(Range { handle, units, queue: self.queue.clone() })
    }

    pub fn space(&self) -> &Allocator {
        &self.space
    }
}

impl Range {
    pub fn start(&self) -> u32 {
        self.handle.offset
    }

    pub fn units(&self) -> u32 {
        self.units
    }
}

impl Drop for Range {
    fn drop(&mut self) {
        // without its arena there is nothing to free
        let _ = self.queue.send(self.handle);
    }
}

#[allow(dead_code)] // tests/release_queue.rs uses the arena alone
fn main() -> Result<(), AllocError> {
    const THREADS: u32 = 8;
    const RANGES: u32 = 80_000;
    // large enough that no request waits for a range which a worker keeps: at most 160 of 300 units, and 161 free blocks of
    // less than 320
    const UNITS: u32 = 1 << 17;
    let mut arena = Arena::new(UNITS, 4096)?;
    std::thread::scope(|scope| {
        let mut workers = Vec::new();
        for _ in 0..THREADS {
            let (to, ranges) = channel::<Range>();
            // a worker holds up to 20 ranges, and drops the oldest
            scope.spawn(move || {
                let mut held = VecDeque::new();
                for range in ranges {
                    held.push_back(range);
                    if held.len() > 20 {
                        held.pop_front();
                    }
                }
            });
            workers.push(to);
        }
        for number in 0..RANGES {
            let range = loop {
                match arena.request(1 + number % 300) {
                    Some(range) => break range,
                    None => std::thread::yield_now(),
                }
            };
            let worker = &workers[(number % THREADS) as usize];
            worker.send(range).expect("a worker runs until its queue ends");
        }
    });
    arena.drain();
    let report = arena.space().storage_report();
    assert_eq!((arena.space().block_count(), report.total_free_space), (1, UNITS));
    println!("{RANGES} ranges were released by {THREADS} threads, and all units are free");
    Ok(())
}
