//! The uploads of single frames, in one buffer: a frame's ranges are freed when the GPU is done with it, some frames
//! later. It uses only the original's public surface.

use offset_allocator::{Allocation, Allocator};
use std::collections::{BTreeMap, VecDeque};

/// The number of frames in flight.
const IN_FLIGHT: usize = 3;
const FRAMES: u32 = 1_000;
const BUFFER: u32 = 1 << 22;

struct Frame {
    number: u32,
    ranges: Vec<Allocation>,
}

fn main() {
    let mut space: Allocator = Allocator::new(BUFFER);
    let mut frames = VecDeque::new();
    // the live ranges by their first byte: the first byte after each, and its frame
    let mut live = BTreeMap::new();
    let mut granted = 0;
    let mut random = 7u32;
    for number in 0..FRAMES {
        if frames.len() == IN_FLIGHT {
            let done: Frame = frames.pop_front().unwrap();
            for range in done.ranges {
                let (end, frame) = live.remove(&range.offset).unwrap();
                assert_eq!((end - range.offset, frame), (space.allocation_size(range), done.number));
                space.free(range);
            }
        }
        let mut frame = Frame { number, ranges: Vec::new() };
        for _ in 0..number % 200 {
            random = random.wrapping_mul(1_664_525).wrapping_add(1_013_904_223);
            let bytes = 64 + (random >> 24) * 16;
            let range = space.allocate(bytes).expect("the buffer has room for the frames in flight");
            let end = range.offset + bytes;
            assert!(end <= BUFFER);
            let before = live.range(..range.offset).next_back();
            assert!(before.is_none_or(|(_, (end, _))| *end <= range.offset), "in the range before");
            let after = live.range(range.offset..).next();
            assert!(after.is_none_or(|(start, _)| end <= *start), "in the range after");
            live.insert(range.offset, (end, number));
            frame.ranges.push(range);
            granted += 1;
        }
        frames.push_back(frame);
    }
    for frame in frames {
        frame.ranges.into_iter().for_each(|range| space.free(range));
    }
    let report = space.storage_report();
    assert_eq!((report.total_free_space, report.largest_free_region), (BUFFER, BUFFER));
    println!("{FRAMES} frames, {IN_FLIGHT} in flight: all {granted} ranges granted, and no two met");
}
