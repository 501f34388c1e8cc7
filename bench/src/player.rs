//! The player of the sides in Rust: the same steps on each.
use crate::traces::{Step, REFUSED, RELEASED};

/// A space of a side, whose grants the caller keeps in slots.
pub trait Space: Sized {
    /// A grant, or none.
    type Slot: Clone;
    const EMPTY: Self::Slot;
    fn make(size: u32, max_allocs: u32) -> Self;
    /// Puts a range of this many units into an empty slot. Returns its offset, or `REFUSED`.
    fn request(&mut self, slot: &mut Self::Slot, size: u32) -> u64;
    /// Frees the range of a slot, after an assertion that it is live, and empties the slot. Returns whether it had one.
    fn release(&mut self, slot: &mut Self::Slot) -> bool;
    fn clear(&mut self);
    fn free_units(&self) -> u64;
}

#[inline(always)]
fn take<S: Space>(space: &mut S, slot: &mut S::Slot, size: u32) -> u64 {
    if space.release(slot) {
        RELEASED
    } else {
        space.request(slot, size)
    }
}

#[inline(always)]
pub unsafe fn play<S: Space>(size: u32, max_allocs: u32, slots: usize, steps: *const Step, count: usize) -> u64 {
    let steps = std::slice::from_raw_parts(steps, count);
    let mut space = S::make(size, max_allocs);
    let mut slots = vec![S::EMPTY; slots];
    let mut sum = 0u64;
    for step in steps {
        match slots.get_mut(step.slot as usize) {
            None => space.clear(),
            Some(slot) => sum = sum.wrapping_mul(31).wrapping_add(take(&mut space, slot, step.size)),
        }
    }
    sum
}

/// What is free after the construction.
pub fn make<S: Space>(size: u32, max_allocs: u32) -> u64 {
    S::make(size, max_allocs).free_units()
}

/// A second place that requests a range, frees one, and resets a space, as a program has several: a function with one
/// call site is compiled into it, and saves the call.
#[inline(always)]
pub fn elsewhere<S: Space>(space: &mut S, size: u32) -> bool {
    let mut slot = S::EMPTY;
    if space.request(&mut slot, size) == REFUSED || !space.release(&mut slot) {
        space.clear();
    }
    space.free_units() == u64::from(size)
}

/// The functions of a side that are measured.
macro_rules! exported { ($play:ident $make:ident $space:ty) => {
    #[no_mangle]
    #[inline(never)]
    pub unsafe extern "C" fn $play(size: u32, max_allocs: u32, slots: usize, steps: *const crate::workloads::Step, count: usize) -> u64 {
        crate::player::play::<$space>(size, max_allocs, slots, steps, count)
    }
    #[no_mangle]
    #[inline(never)]
    pub unsafe extern "C" fn $make(size: u32, max_allocs: u32) -> u64 {
        crate::player::make::<$space>(size, max_allocs)
    }
} }

/// Their second call sites.
macro_rules! second_site { ($name:ident $space:ty) => {
    #[no_mangle]
    #[inline(never)]
    pub fn $name(space: &mut $space, size: u32) -> bool {
        crate::player::elsewhere(space, size)
    }
} }

pub(crate) use {exported, second_site};
