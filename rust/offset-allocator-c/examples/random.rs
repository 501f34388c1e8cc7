//! A million random calls: a line for each. `tests/random.cpp` prints the same through the C interface.

use std::io::Write;

use offset_allocator_proved::{Allocation, Allocator, Global, Refusal};

fn below(state: &mut u64, n: u32) -> u32 {
    *state ^= *state << 13;
    *state ^= *state >> 7;
    *state ^= *state << 17;
    (((*state >> 32) * u64::from(n)) >> 32) as u32
}

fn number(refusal: Option<Refusal>) -> u32 {
    match refusal {
        None => 0,
        Some(Refusal::Nodes) => 1,
        Some(Refusal::TooLarge) => 2,
        Some(Refusal::Space) => 3,
        Some(Refusal::Fragmented) => 4,
    }
}

fn main() -> Result<(), Box<dyn std::error::Error>> {
    let mut out = std::io::BufWriter::new(std::io::stdout().lock());
    let mut state = 88_172_645_463_325_252;
    let mut a = Allocator::<u32>::with_max_allocs(Global, 1 << 24, 4096)?;
    let mut live: Vec<Allocation> = Vec::new();
    for step in 0..1_000_000 {
        let bits = 4 + below(&mut state, 12);
        let size = below(&mut state, 1 << bits);
        let kind = below(&mut state, 100);
        let place = if live.is_empty() { 0 } else { below(&mut state, live.len() as u32) as usize };
        if kind < 46 {
            match if kind < 38 { a.allocate(size) } else { a.allocate_aligned(size, 1 << (size % 12)) } {
                None => writeln!(out, "grant {0} {0}", u32::MAX)?,
                Some(handle) => {
                    live.push(handle);
                    let (offset, name) = handle.to_parts();
                    writeln!(out, "grant {offset} {name}")?;
                }
            }
        } else if live.is_empty() {
            writeln!(out, "none")?;
        } else if kind < 90 {
            a.free(live.swap_remove(place));
            writeln!(out, "free 1")?;
        } else if kind < 94 {
            let (shrunk, grown) = (a.shrink(live[place], size), a.grow_in_place(live[place], size));
            writeln!(out, "resize {} {}", u32::from(shrunk), u32::from(grown))?;
        } else if kind < 98 {
            let report = a.storage_report();
            let (plain, aligned) = (number(a.refusal(size)), number(a.refusal_aligned(size, 64)));
            writeln!(out, "report {} {} {plain} {aligned}", report.total_free_space, report.largest_free_region)?;
        } else if step % 997 == 0 {
            let mut moved = 0u32;
            a.compact(|range: offset_allocator_proved::Move| {
                let name = range.allocation().to_parts().1;
                let sum = range.from.wrapping_mul(7).wrapping_add(range.to.wrapping_mul(3)).wrapping_add(range.size);
                moved = moved.wrapping_mul(31).wrapping_add(sum).wrapping_add(name);
            });
            writeln!(out, "compact {moved}")?;
        } else {
            let at = a.allocation_offset(live[place]).ok_or("not live")?;
            writeln!(out, "at {at} {}", a.allocation_size(live[place]))?;
        }
    }
    out.flush()?;
    Ok(())
}
