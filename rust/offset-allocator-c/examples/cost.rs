//! What a step costs in Rust: slots that are filled and emptied at random. `tests/cost.cpp` makes the same steps.

use offset_allocator_proved::{Allocation, Allocator, Global};

fn below(state: &mut u64, n: u32) -> u32 {
    *state ^= *state << 13;
    *state ^= *state >> 7;
    *state ^= *state << 17;
    (((*state >> 32) * u64::from(n)) >> 32) as u32
}

fn main() -> Result<(), Box<dyn std::error::Error>> {
    let steps: u32 = std::env::args().nth(1).ok_or("the number of steps")?.parse()?;
    let mut state = 88_172_645_463_325_252;
    let mut a = Allocator::<u32>::with_max_allocs(Global, 0x0800_0000, 131_072)?;
    let mut slots: Vec<Option<Allocation>> = vec![None; 4096];
    let mut sum = 0u64;
    for _ in 0..steps {
        let slot = below(&mut state, 4096) as usize;
        let size = 1 + below(&mut state, 4000);
        match slots[slot].take() {
            Some(handle) => {
                a.free(handle);
                sum = sum.wrapping_mul(31).wrapping_add(7);
            }
            None => {
                slots[slot] = a.allocate(size);
                sum = sum.wrapping_mul(31).wrapping_add(u64::from(slots[slot].map_or(u32::MAX, |handle| handle.offset)));
            }
        }
    }
    println!("{sum:016x}");
    Ok(())
}
