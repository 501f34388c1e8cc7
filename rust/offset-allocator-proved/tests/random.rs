//! The public calls with random handles and numbers. A call panics exactly where its condition is not met, with the
//! message in `table.py`; a `free` that panics has changed no count of free blocks. Live ranges share no unit.
//!
//! Only with `debug_assertions`, as `cargo test` builds: a sum that wraps panics then.
#![cfg(debug_assertions)]

#[path = "../../random.rs"]
mod random;

use offset_allocator_proved::ext::min_allocator_size;
use offset_allocator_proved::small_float::{float_to_uint, uint_to_float_round_down, uint_to_float_round_up};
use offset_allocator_proved::{laws, Accesses, Allocation, Allocator, Global, NodeIndex, NonMaxU16, NonMaxU32, StorageReportFull};
use random::Random;
use std::panic::{catch_unwind, AssertUnwindSafe};

const ALLOCATORS: u64 = 300;
const CALLS: u64 = 400;

impl Random {
    /// A random number: of a random number of bits, beside a power of two, or near the largest.
    fn any(&mut self) -> u32 {
        let bits = self.below(33);
        let number = (self.next() & ((1 << bits) - 1)) as u32;
        match self.below(3) {
            0 => number,
            1 => (1u32 << (bits % 32)).wrapping_add(self.below(3)).wrapping_sub(1),
            _ => u32::MAX - (number >> (bits / 2)),
        }
    }

    /// An alignment: a power of two, a small number, 0 too, or any one.
    fn align(&mut self) -> u32 {
        match self.below(4) {
            0 => self.any(),
            1 => self.below(1000),
            _ => 1 << self.below(32),
        }
    }
}

/// The result of a call, or the message of its panic.
fn result<T>(call: impl FnOnce() -> T) -> Result<T, String> {
    catch_unwind(AssertUnwindSafe(call)).map_err(|panic| match panic.downcast::<&str>() {
        Ok(message) => message.to_string(),
        Err(panic) => *panic.downcast::<String>().unwrap(),
    })
}

/// The result, if the condition is met; else asserts that the call panicked with this message.
fn expect<T>(found: Result<T, String>, met: bool, message: &str) -> Option<T> {
    match found {
        Ok(value) => {
            assert!(met, "no panic: {message}");
            Some(value)
        }
        Err(panic) => {
            assert!(!met, "a panic: {panic}");
            assert_eq!(panic, message);
            None
        }
    }
}

/// An allocator, and a plain list of its live ranges.
struct Pair<NI: NodeIndex> {
    space: Allocator<NI>,
    size: u32,
    live: Vec<(Allocation<NI>, u32)>,
}

impl<NI: NodeIndex> Pair<NI> {
    fn grant(&mut self, found: Option<Allocation<NI>>, size: u32, align: u32) {
        let Some(handle) = found else { return };
        let (start, end) = (u64::from(handle.offset), u64::from(handle.offset) + u64::from(size));
        assert!(end <= u64::from(self.size));
        assert_eq!(handle.offset % align, 0);
        for (other, size) in &self.live {
            let (first, last) = (u64::from(other.offset), u64::from(other.offset) + u64::from(*size));
            assert!(end <= first || last <= start, "two ranges have a unit in common");
        }
        self.live.push((handle, size));
    }

    fn check(&self) {
        for (handle, size) in &self.live {
            assert!(self.space.is_live(*handle));
            assert_eq!(self.space.allocation_size(*handle), *size);
        }
        let held: u32 = self.live.iter().map(|(_, size)| size).sum();
        let report = self.space.storage_report();
        assert!([0, self.size - held].contains(&report.total_free_space));
        assert_eq!((self.space.live_units(), self.space.free_units()), (held, self.size - held));
        let found = self.space.statistics();
        assert_eq!((found.live_units, found.free_units, found.live_ranges as usize), (held, self.size - held, self.live.len()));
        assert_eq!(self.space.is_empty(), self.live.is_empty());
        assert!(report.largest_free_region <= report.total_free_space);
        assert_eq!(self.space.size(), self.size);
        assert_eq!(self.space.is_full(), self.space.block_count() + 1 == self.space.max_allocs());
    }

    fn call(&mut self, random: &mut Random, handles: &mut Vec<Allocation<NI>>) {
        let mut count = Accesses::new();
        match random.below(18) {
            0..=3 => {
                let size = if random.below(2) == 0 { random.any() } else { random.below(self.size / 8 + 2) };
                let most = self.space.storage_report().largest_free_region;
                let refusal = result(|| self.space.refusal(size)).unwrap();
                assert_eq!(laws::refusal_counted(&self.space, size, &mut count), refusal);
                let found = result(|| self.space.allocate(size)).unwrap();
                assert_eq!(found.is_none(), refusal.is_some());
                assert!(size == 0 || found.is_some() == (size <= most));
                handles.extend(found);
                self.grant(found, size, 1);
            }
            4..=5 => {
                let size = if random.below(2) == 0 { random.any() } else { random.below(self.size / 8 + 2) };
                let align = random.align();
                let (is_some, message) = (align >= 1, "the alignment must be at least 1");
                let refusal = expect(result(|| self.space.refusal_aligned(size, align)), is_some, message);
                let counted = result(|| laws::refusal_aligned_counted(&self.space, size, align, &mut count));
                assert_eq!(expect(counted, is_some, message), refusal);
                let found = result(|| self.space.allocate_aligned(size, align));
                if let Some(found) = expect(found, is_some, message) {
                    assert_eq!(found.is_none(), refusal.unwrap().is_some());
                    handles.extend(found);
                    self.grant(found, size, align);
                }
            }
            6..=10 if !handles.is_empty() => {
                // of this allocator or of another one, live or not
                let mut handle = handles[random.below(handles.len() as u32) as usize];
                handle.offset ^= random.below(2) * random.any();
                let is_live = result(|| self.space.is_live(handle)).unwrap();
                assert_eq!(laws::is_live_counted(&self.space, handle, &mut count), is_live);
                let size = result(|| self.space.allocation_size(handle)).unwrap();
                assert_eq!(laws::allocation_size_counted(&self.space, handle, &mut count), size);
                let offset = result(|| self.space.allocation_offset(handle)).unwrap();
                assert_eq!(laws::allocation_offset_counted(&self.space, handle, &mut count), offset);
                assert_eq!(offset.is_some(), is_live);
                let other = if random.below(2) == 0 { random.any() } else { size.saturating_add(random.below(9)).saturating_sub(random.below(9)) };
                for grows in [false, true] {
                    let resize = || if grows { self.space.grow_in_place(handle, other) } else { self.space.shrink(handle, other) };
                    if expect(result(resize), is_live, &format!("the handle must be live: {handle:?}")) == Some(true) {
                        let live = &self.space;
                        self.live.iter_mut().for_each(|(handle, size)| *size = live.allocation_size(*handle));
                    }
                }
                let size = self.space.allocation_size(handle);
                let before = self.space.storage_report_full().free_regions.map(|region| region.count);
                let found = result(|| self.space.free(handle));
                if expect(found, is_live, &format!("the handle must be live: {handle:?}")).is_some() {
                    assert!(!self.space.is_live(handle));
                    let live = &self.space;
                    let there = self.live.len();
                    self.live.retain(|(other, _)| live.is_live(*other));
                    assert_eq!(self.live.len() + 1, there);
                } else {
                    assert_eq!(self.space.storage_report_full().free_regions.map(|region| region.count), before);
                    assert_eq!(size, 0);
                }
            }
            11 => {
                let more = if random.below(2) == 0 { random.any() } else { random.below(100) };
                if result(|| self.space.extend(more)).unwrap() {
                    self.size += more;
                }
            }
            12 => {
                let blocks: Vec<_> = result(|| self.space.blocks().collect()).unwrap();
                assert_eq!(blocks.len(), self.space.block_count() as usize);
                let last = laws::next_block_counted(&mut self.space.blocks(), &mut count).unwrap();
                assert_eq!((last.offset, last.size), (blocks[0].offset, blocks[0].size));
                assert_eq!(blocks.iter().filter_map(|block| block.allocation).count(), self.live.len());
                if random.below(4) == 0 {
                    let live = &mut self.live;
                    let compact = || {
                        self.space.compact(|range| {
                            let moved = live.iter_mut().find(|(handle, size)| (handle.offset, *size) == (range.from, range.size));
                            moved.unwrap().0 = range.allocation();
                        })
                    };
                    result(compact).unwrap();
                }
                let most = self.space.storage_report().largest_free_region;
                let size = random.any();
                let granted = result(|| laws::undo(&mut self.space, size)).unwrap();
                assert!(size == 0 || granted == (size <= most));
            }
            13 => {
                let report: StorageReportFull = result(|| self.space.storage_report_full()).unwrap();
                let counted = laws::storage_report_full_counted(&self.space, &mut count);
                assert_eq!(report.free_regions.map(|r| r.count), counted.free_regions.map(|r| r.count));
                laws::storage_report_counted(&self.space, &mut count);
                assert!(!format!("{:?} {report:?}", self.space).is_empty());
            }
            15..=16 => {
                let size = if random.below(2) == 0 { random.any() } else { random.below(self.size / 4 + 2) };
                let align = random.align();
                let (is_some, message) = (align >= 1, "the alignment must be at least 1");
                let refusal = expect(result(|| self.space.refusal_tight_aligned(size, align)), is_some, message);
                let counted = result(|| laws::refusal_tight_aligned_counted(&self.space, size, align, &mut count));
                assert_eq!(expect(counted, is_some, message), refusal);
                let found = result(|| self.space.allocate_tight_aligned(size, align));
                if let Some(found) = expect(found, is_some, message) {
                    assert_eq!(found.is_none(), refusal.unwrap().is_some());
                    handles.extend(found);
                    self.grant(found, size, align);
                }
                let (has_room, most) = (!self.space.is_full(), self.space.statistics().largest_free_block);
                let refusal = result(|| self.space.refusal_tight(size)).unwrap();
                assert_eq!(laws::refusal_tight_counted(&self.space, size, &mut count), refusal);
                let found = result(|| self.space.allocate_tight(size)).unwrap();
                assert_eq!(found.is_none(), refusal.is_some());
                assert!(size == 0 || found.is_some() == (has_room && size <= most));
                handles.extend(found);
                self.grant(found, size, 1);
            }
            17 => {
                let offset = if random.below(2) == 0 { random.any() } else { random.below(self.size.saturating_add(1)) };
                let size = if random.below(2) == 0 { random.any() } else { random.below(self.size / 8 + 2) };
                let is_free = result(|| self.space.is_free_at(offset, size)).unwrap();
                assert_eq!(laws::is_free_at_counted(&self.space, offset, size, &mut count), is_free);
                let way = result(|| self.space.in_the_way(offset, size)).unwrap();
                assert_eq!(laws::in_the_way_counted(&self.space, offset, size, &mut count), way);
                assert_eq!(result(|| self.space.live_at(offset)).unwrap(), self.space.in_the_way(offset, 1));
                let found = result(|| self.space.allocate_at(offset, size)).unwrap();
                assert!(found.is_none() || is_free && way.is_none());
                if let Some(handle) = found {
                    assert_eq!(handle.offset, offset);
                    assert!(size == 0 || self.space.in_the_way(offset, size) == found);
                }
                handles.extend(found);
                self.grant(found, size, 1);
            }
            14 if random.below(20) == 0 => {
                result(|| self.space.reset()).unwrap();
                self.live.clear();
            }
            _ => {}
        }
        self.check();
    }
}

fn play<NI: NodeIndex>(random: &mut Random) {
    // from earlier allocators too, so that many of them are not live, or name another range
    let mut handles = Vec::new();
    for _ in 0..ALLOCATORS {
        let size = random.any();
        // a large limit that is admitted would only take memory
        let max_allocs = match random.below(5) {
            0 => random.below(4),
            1 => NI::MAX - random.below(4),
            _ => random.below(200),
        };
        let met = 2 <= max_allocs && max_allocs < NI::MAX - 1;
        if met && max_allocs > 1_000_000 {
            continue;
        }
        let message = if max_allocs < 2 { "max_allocs must be at least 2" } else { "max_allocs must be at most NI::MAX - 2" };
        let Some(space) = expect(result(|| Allocator::with_max_allocs(Global, size, max_allocs)), met, message) else { continue };
        let mut pair = Pair { space: space.unwrap(), size, live: Vec::new() };
        for _ in 0..CALLS {
            pair.call(random, &mut handles);
        }
        handles.truncate(500);
    }
    let mut pair = Pair { space: Allocator::<NI>::new(Global, u32::MAX).unwrap(), size: u32::MAX, live: Vec::new() };
    for _ in 0..CALLS {
        pair.call(random, &mut handles);
    }
}

fn numbers(random: &mut Random) {
    for _ in 0..100_000 {
        let n = random.any();
        let (up, down) = (uint_to_float_round_up(n), uint_to_float_round_down(n));
        assert!(down <= up && up <= down + 1 && up <= 240);
        expect(result(|| float_to_uint(n)), n < 256, "float_value must be below 256");
        let least = expect(result(|| min_allocator_size(n)), n <= 4_026_531_840, "needed_object_size must be at most 4026531840");
        assert!(least.is_none_or(|least| least >= n));
        assert_eq!(NonMaxU32::new(n).map(NonMaxU32::get), Some(n).filter(|n| *n < u32::MAX));
        let narrow = n as u16;
        assert_eq!(NonMaxU16::new(narrow).map(NonMaxU16::get), Some(narrow).filter(|n| *n < u16::MAX));
        let message = "MAX is the name of no node";
        if let Some(name) = expect(result(|| n.to_name()), n < u32::MAX, message) {
            assert_eq!(u32::of_nonmax(name), n);
        }
        if let Some(name) = expect(result(|| narrow.to_name()), narrow < u16::MAX, message) {
            assert_eq!(u16::of_nonmax(name), narrow);
        }
        assert_eq!(n.to_nonmax().map(u32::of_nonmax), Some(n).filter(|n| *n < u32::MAX));
        assert_eq!((NodeIndex::to_usize(narrow), u16::from_u32(n)), (narrow as usize, narrow));
    }
}

#[test]
fn no_other_panic() {
    // hundreds of panics are expected, and should not be printed
    let printed = std::panic::take_hook();
    std::panic::set_hook(Box::new(|_| {}));
    let found = result(|| {
        let mut random = Random(14);
        play::<u32>(&mut random);
        play::<u16>(&mut random);
        numbers(&mut random);
    });
    std::panic::set_hook(printed);
    found.unwrap();
}
