//! Plays a recorded program on `Heaps`, as `bench/heaps` does beside others. One empty heap is kept.
//!
//!     cargo run --release --offline -p offset-allocator-heaps --example programs -- PAGE RUNS < SCRIPT
//!
//! It prints the peak of usual heaps, of larger ones and of their bytes, how many were made, and the time of a
//! call in ns.

use offset_allocator_heaps::{Global, Heaps, Limits, Place};
use std::io::Read;
use std::time::Instant;

#[derive(Default)]
struct Peaks {
    now: [u64; 2],
    bytes: u64,
    most: [u64; 2],
    most_bytes: u64,
    made: u64,
}

struct Store {
    heaps: Heaps,
    limits: Limits,
    spare: Option<u32>,
    peaks: Peaks,
}

impl Store {
    fn allocate(&mut self, size: u32) -> Place {
        let granted = self.heaps.allocate(size).expect("room");
        if granted.is_new {
            let larger = (granted.place.heap >= self.limits.most) as usize;
            let peaks = &mut self.peaks;
            peaks.made += 1;
            peaks.now[larger] += 1;
            peaks.bytes += if larger == 1 { size } else { self.limits.size } as u64;
            peaks.most[larger] = peaks.most[larger].max(peaks.now[larger]);
            peaks.most_bytes = peaks.most_bytes.max(peaks.bytes);
        }
        granted.place
    }

    fn is_empty(&self, number: u32) -> bool {
        self.heaps.heap(number).is_some_and(|heap| heap.allocator().is_empty())
    }

    fn free(&mut self, place: Place) {
        let number = place.heap;
        assert!(self.heaps.free(place));
        if !self.is_empty(number) {
            return;
        }
        let larger = number >= self.limits.most;
        if larger || self.spare.is_some_and(|spare| spare != number && self.is_empty(spare)) {
            self.peaks.bytes -= self.heaps.heap(number).unwrap().allocator().size() as u64;
            self.peaks.now[larger as usize] -= 1;
            assert!(self.heaps.drop_heap(number));
        } else {
            self.spare = Some(number);
        }
    }
}

fn main() {
    let words: Vec<String> = std::env::args().collect();
    let (page, runs) = (words[1].parse().unwrap(), words[2].parse().unwrap());
    let mut script = String::new();
    std::io::stdin().read_to_string(&mut script).unwrap();
    // the slot of each grant, and its size, or 0 to free it
    let mut steps = Vec::new();
    let mut slots = 0;
    let mut nodes = 0;
    for line in script.lines() {
        let words: Vec<&str> = line.split(' ').collect();
        match words[..] {
            ["space", _, "nodes", limit, ..] => nodes = limit.parse().unwrap(),
            ["alloc", size] => {
                steps.push((slots, size.parse::<u32>().unwrap()));
                slots += 1;
            }
            ["free", grant] => steps.push((grant.parse::<usize>().unwrap() - 1, 0)),
            _ => {}
        }
    }
    let limits = Limits { size: page, first_size: page, max_allocs: nodes, first_allocs: nodes, most: 512, most_larger: 1024 };
    let mut best = f64::MAX;
    let mut peaks = Peaks::default();
    for _ in 0..runs {
        let heaps = Heaps::new(Global, limits).unwrap();
        let mut store = Store { heaps, limits, spare: None, peaks: Peaks::default() };
        let mut places: Vec<Option<Place>> = vec![None; slots];
        let start = Instant::now();
        for &(slot, size) in &steps {
            if size == 0 {
                store.free(places[slot].take().unwrap());
            } else {
                places[slot] = Some(store.allocate(size));
            }
        }
        best = best.min(start.elapsed().as_nanos() as f64 / steps.len() as f64);
        peaks = store.peaks;
    }
    println!("{} {} {} {} {best:.0}", peaks.most[0], peaks.most[1], peaks.most_bytes, peaks.made);
}
