//! Many heaps alone, as a program has them: runs for a counter of instructions.
//!
//! - `heaps NAME COUNT`: at most so many steps of a recorded program by `Heaps::allocate` and `free`: how many, and the checksum of the
//!   answers.
//! - `heap_mut NAME COUNT`: the same in one heap, by `heap_mut`.
//! - `elsewhere`: calls the second call sites, which a compiler would leave out otherwise.
// not all of what the programs share is used here
#![allow(dead_code, unused_imports, unused_macros)]
mod player;
mod traces;
mod workloads;

use offset_allocator_heaps::{Global, Heaps, Limits, Place, Ticket};
use player::Space;
use std::hint::black_box;
use traces::REFUSED;
use workloads::Work;

/// Of a space of a program usual heaps have this part.
const PART: u32 = 16;

fn made(size: u32, max_allocs: u32, most: u32, most_larger: u32) -> Heaps<u32> {
    let limits = Limits { size, first_size: size, max_allocs, first_allocs: max_allocs, most, most_larger };
    Heaps::with_realm(Global, limits, 1).unwrap()
}

/// Heaps that are kept, whatever is live in them.
pub struct Many(Heaps<u32>);

impl Space for Many {
    type Slot = Option<Place>;
    const EMPTY: Option<Place> = None;

    #[inline(always)]
    fn make(size: u32, max_allocs: u32) -> Self {
        Many(made(size / PART, max_allocs, 2 * PART, 2 * PART))
    }

    #[inline(always)]
    fn request(&mut self, slot: &mut Option<Place>, size: u32) -> u64 {
        match self.0.allocate(size) {
            Err(_) => REFUSED,
            Ok(granted) => {
                *slot = Some(granted.place);
                u64::from(granted.offset) | u64::from(granted.place.heap) << 34
            }
        }
    }

    #[inline(always)]
    fn release(&mut self, slot: &mut Option<Place>) -> bool {
        let Some(place) = slot.take() else { return false };
        assert!(self.0.free(place));
        true
    }

    #[inline(always)]
    fn clear(&mut self) {
        self.0.reset();
    }

    #[inline(always)]
    fn free_units(&self) -> u64 {
        self.0.totals().free_units
    }
}

/// The one heap that there is.
pub struct One(Heaps<u32>);

impl Space for One {
    type Slot = Option<Ticket>;
    const EMPTY: Option<Ticket> = None;

    #[inline(always)]
    fn make(size: u32, max_allocs: u32) -> Self {
        let mut heaps = made(size, max_allocs, 1, 0);
        let first = heaps.allocate(1).unwrap().place;
        assert!(heaps.free(first));
        One(heaps)
    }

    #[inline(always)]
    fn request(&mut self, slot: &mut Option<Ticket>, size: u32) -> u64 {
        *slot = self.0.heap_mut(0).unwrap().allocate(size);
        match slot {
            None => REFUSED,
            Some(ticket) => ticket.offset.into(),
        }
    }

    #[inline(always)]
    fn release(&mut self, slot: &mut Option<Ticket>) -> bool {
        let Some(ticket) = slot.take() else { return false };
        assert!(self.0.heap_mut(0).unwrap().free(ticket));
        true
    }

    #[inline(always)]
    fn clear(&mut self) {
        self.0.reset();
    }

    #[inline(always)]
    fn free_units(&self) -> u64 {
        self.0.totals().free_units
    }
}

player::exported! { many_play many_make Many }
player::exported! { one_play one_make One }
player::second_site! { many_elsewhere Many }
player::second_site! { one_elsewhere One }

fn main() {
    let words: Vec<String> = std::env::args().skip(1).collect();
    let words: Vec<&str> = words.iter().map(String::as_str).collect();
    match words[..] {
        [side @ ("heaps" | "heap_mut"), name, count] => {
            let w = workloads::all(Some(name)).pop().unwrap_or_else(|| panic!("no workload {name}"));
            let Work::Steps { slots, steps } = &w.work else { panic!("{name} has no steps") };
            let count = steps.len().min(count.parse().unwrap());
            let play = if side == "heaps" { many_play } else { one_play };
            println!("{count}\t{}", black_box(unsafe { play(w.space, w.nodes, *slots, steps.as_ptr(), count) }));
        }
        ["elsewhere"] => println!("{} {}", many_elsewhere(&mut Many::make(16_000, 100), 1000), one_elsewhere(&mut One::make(1000, 100), 1000)),
        _ => panic!("heaps | heap_mut | elsewhere"),
    }
}
