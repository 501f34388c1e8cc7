//! Times `room_cost`, `make_room` and `compact` on the erased side, beside a walk by `blocks`.
//!
//! - `room time BLOCKS ORDER`: nanoseconds of the fastest call of each of `WAYS`, and how many there were.
//! - `room once BLOCKS ORDER WAY`: one call, for a counter of instructions; prints the units and the ranges of its cost.
//!
//! Every other block is free. The nodes are in space order, or, with the ORDER `mixed`, in none.
// for its random numbers alone
#[allow(dead_code)]
mod traces;
#[allow(dead_code)]
mod workloads;

use offset_allocator_proved::{Allocation, Allocator, Global, RoomCost};
use std::hint::black_box;
use std::time::{Duration, Instant};
use workloads::Random;

/// For how long each way is called, if it is not once more than `LEAST` times.
const LONG: Duration = Duration::from_secs(2);
const LEAST: u32 = 25;
/// The units of a block, at most.
const LARGEST: u32 = 1024;
/// A request of about ten free blocks; a class value.
const SMALL: u32 = 5120;

fn grant(space: &mut Allocator, size: u32) -> Allocation {
    space.allocate(size).unwrap()
}

/// As many blocks of 1 to 1,024 units, and none of them larger at the end.
fn space(blocks: u32, mixed: bool) -> Allocator {
    let mut random = Random(0x9e3779b97f4a7c15);
    let mut space = Allocator::with_max_allocs(Global, blocks * 1280, blocks + 2).unwrap();
    if mixed {
        // the nodes come back in this order, and are handed out in the reverse one
        let handles: Vec<Allocation> = (0..blocks).map(|_| grant(&mut space, 1)).collect();
        random.shuffled(blocks).iter().for_each(|at| space.free(handles[*at as usize]));
    }
    let handles: Vec<Allocation> = (0..blocks).map(|_| grant(&mut space, 1 + random.below(LARGEST))).collect();
    assert!(space.retract(space.free_units()));
    handles.iter().step_by(2).for_each(|handle| space.free(*handle));
    assert!(space.block_count() == blocks && space.statistics().largest_free_block <= LARGEST);
    space
}

#[no_mangle]
#[inline(never)]
pub fn room_walk(space: &mut Allocator, _size: u32) -> Option<RoomCost> {
    let mut found = RoomCost { units: 0, ranges: 0 };
    for block in space.blocks() {
        if block.allocation.is_some() {
            found = RoomCost { units: found.units + block.size, ranges: found.ranges + 1 };
        }
    }
    Some(found)
}

#[no_mangle]
#[inline(never)]
pub fn room_ask(space: &mut Allocator, size: u32) -> Option<RoomCost> {
    space.room_cost(size)
}

#[no_mangle]
#[inline(never)]
pub fn room_make(space: &mut Allocator, size: u32) -> Option<RoomCost> {
    let mut found = RoomCost { units: 0, ranges: 0 };
    let cost = space.make_room(size, |moved| {
        found = RoomCost { units: found.units + moved.size, ranges: found.ranges + 1 };
    });
    assert_eq!(cost, Some(found));
    cost
}

#[no_mangle]
#[inline(never)]
pub fn room_compact(space: &mut Allocator, _size: u32) -> Option<RoomCost> {
    let mut found = RoomCost { units: 0, ranges: 0 };
    space.compact(|moved| {
        found = RoomCost { units: found.units + moved.size, ranges: found.ranges + 1 };
    });
    Some(found)
}

type Call = fn(&mut Allocator, u32) -> Option<RoomCost>;

/// Each way: its name, its call, whether its request is for half of the free units, and whether it changes the space.
const WAYS: [(&str, Call, bool, bool); 5] = [
    ("walk", room_walk, false, false),
    ("small", room_ask, false, false),
    ("half", room_ask, true, false),
    ("make", room_make, true, true),
    ("compact", room_compact, false, true),
];

fn size(space: &Allocator, half: bool) -> u32 {
    if half { space.free_units() / 2 } else { SMALL }
}

/// Nanoseconds of the fastest of the runs of each way, and how many these were. The ways take turns.
fn times(blocks: u32, mixed: bool) -> [(f64, u32); WAYS.len()] {
    let mut kept = space(blocks, mixed);
    // so many calls in a run, where they change nothing
    let many = 1 + 100_000 / blocks;
    let mut found = [(f64::MAX, 0); WAYS.len()];
    let begun = Instant::now();
    while begun.elapsed() < LONG * WAYS.len() as u32 || found[0].1 < LEAST {
        for (best, (_, call, half, changes)) in found.iter_mut().zip(WAYS) {
            let asked = size(&kept, half);
            let mut copy = changes.then(|| kept.try_clone(Global).unwrap());
            let calls = if changes { 1 } else { many };
            let start = Instant::now();
            for _ in 0..calls {
                black_box(call(black_box(copy.as_mut().unwrap_or(&mut kept)), asked));
            }
            let taken = start.elapsed().as_nanos() as f64 / f64::from(calls);
            *best = (best.0.min(taken), best.1 + 1);
        }
    }
    found
}

fn main() {
    let words: Vec<String> = std::env::args().skip(1).collect();
    let words: Vec<&str> = words.iter().map(String::as_str).collect();
    match words[..] {
        ["time", blocks, order] => {
            for (ns, runs) in times(blocks.parse().unwrap(), order == "mixed") {
                println!("{ns}\t{runs}");
            }
        }
        ["once", blocks, order, name] => {
            let mut space = space(blocks.parse().unwrap(), order == "mixed");
            let (_, call, half, _) = WAYS.into_iter().find(|way| way.0 == name).unwrap_or_else(|| panic!("no way {name}"));
            let asked = size(&space, half);
            let found = call(&mut space, asked).unwrap();
            println!("{}\t{}", found.units, found.ranges);
        }
        _ => panic!("room time BLOCKS ORDER | once BLOCKS ORDER WAY"),
    }
}
