//! Makes random calls on the wrapper and on the original, and compares all results.
#[path = "../../random.rs"]
mod random;

use random::Random;
use std::panic::catch_unwind;

impl Random {
    fn any(&mut self) -> u32 {
        let bits = self.below(33);
        (self.next() & ((1 << bits) - 1)) as u32
    }
}

fn size(random: &mut Random, space: u32) -> u32 {
    match random.below(6) {
        0 => random.any(),
        1 => random.below(10),
        2 => (8 + random.below(8)) << random.below(29),
        _ => {
            let share = 1 + random.below(64);
            random.below((space / share).max(1))
        }
    }
}

macro_rules! compare_calls { ($name:ident $width:ty) => {
    /// Makes random calls on both, and returns the number of calls.
    fn $name(random: &mut Random) -> u64 {
        let space = random.any();
        let max_allocs = 2 + [random.below(5), random.below(300), random.below(3_000)][random.below(3) as usize];
        let mut ours = wrapper::Allocator::<$width>::with_max_allocs(space, max_allocs);
        let mut theirs = offset_allocator::Allocator::<$width>::with_max_allocs(space, max_allocs);
        let mut live = Vec::new();
        let calls = 20 + random.below(400);
        for _ in 0..calls {
            match random.below(20) {
                0..=9 => {
                    let size = size(random, space);
                    match (ours.allocate(size), theirs.allocate(size)) {
                        (None, None) => {}
                        (Some(a), Some(b)) => {
                            assert_eq!(a.offset, b.offset);
                            live.push((a, b));
                        }
                        (a, b) => panic!("{size} units: {}, {}", a.is_some(), b.is_some()),
                    }
                }
                10..=16 if !live.is_empty() => {
                    let (a, b) = live.swap_remove(random.below(live.len() as u32) as usize);
                    assert_eq!(ours.allocation_size(a), theirs.allocation_size(b));
                    ours.free(a);
                    theirs.free(b);
                }
                17 if random.below(20) == 0 => {
                    ours.reset();
                    theirs.reset();
                    live.clear();
                }
                18 => {
                    let (a, b) = (ours.storage_report_full(), theirs.storage_report_full());
                    assert_eq!(format!("{a:?}"), format!("{b:?}"));
                }
                _ => {
                    let (a, b) = (ours.storage_report(), theirs.storage_report());
                    assert_eq!((a.total_free_space, a.largest_free_region), (b.total_free_space, b.largest_free_region));
                    assert_eq!(format!("{ours:?} {a:#?}"), format!("{theirs:?} {b:#?}"));
                }
            }
        }
        calls.into()
    }
} }
compare_calls! { wide u32 }
compare_calls! { narrow u16 }

/// Asserts that both admit, or both refuse, a node limit.
fn compare_limits(max_allocs: u32) {
    let admitted = (
        catch_unwind(|| wrapper::Allocator::<u16>::with_max_allocs(9, max_allocs)).is_ok(),
        catch_unwind(|| offset_allocator::Allocator::<u16>::with_max_allocs(9, max_allocs)).is_ok(),
    );
    assert_eq!(admitted.0, admitted.1, "a limit of {max_allocs}");
}

fn main() {
    let mut random = Random(2);
    let mut calls = 0;
    for _ in 0..5_000 {
        calls += wide(&mut random) + narrow(&mut random);
    }
    for _ in 0..100_000 {
        let size = random.any();
        assert_eq!(wrapper::ext::min_allocator_size(size), offset_allocator::ext::min_allocator_size(size));
    }
    std::panic::set_hook(Box::new(|_| {}));
    for max_allocs in [2, 3, 65_532, 65_533, 65_534, 65_535, 65_536, u32::MAX] {
        compare_limits(max_allocs);
    }
    println!("{calls} calls on the wrapper and on the original: all alike");
}
