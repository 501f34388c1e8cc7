//! The sides. Each plays steps by one call. The peers are those that are linked.
pub use crate::peers::{Answers, Play, REFUSED, RELEASED};
use crate::workloads::Step;
#[cfg(not(feature = "other-sites"))]
use crate::guarded;
use crate::{erased, original, peers};

pub type Make = unsafe extern "C" fn(u32, u32) -> u64;

/// The calls of a side, for node indices of 16 bits and of 32. A peer has one width, and no tables to construct.
pub struct Side {
    pub name: String,
    pub play: [Play; 2],
    pub answers: [Answers; 2],
    pub make: Option<[Make; 2]>,
}

macro_rules! declared { ($($play:ident $make:ident)*) => {
    extern "C" { $(
        fn $play(size: u32, max_allocs: u32, slots: usize, steps: *const Step, count: usize) -> u64;
        fn $make(size: u32, max_allocs: u32) -> u64;
    )* }
} }
declared! { offset_play_32 offset_make_32 offset_play_16 offset_make_16 tuned_play_32 tuned_make_32 tuned_play_16 tuned_make_16 }
declared! { by_field_play_32 by_field_make_32 by_field_play_16 by_field_make_16 }
declared! { offset_guarded_play_32 offset_guarded_make_32 offset_guarded_play_16 offset_guarded_make_16 }

extern "C" {
    fn tuned_answers_16(size: u32, max_allocs: u32, slots: usize, steps: *const Step, count: usize, to: *mut u64) -> u64;
    fn tuned_answers_32(size: u32, max_allocs: u32, slots: usize, steps: *const Step, count: usize, to: *mut u64) -> u64;
}

/// All sides: those that must have the same answers, and then the peers.
pub fn all() -> Vec<Side> {
    let same = |name: &str, play: [Play; 2], make: [Make; 2]| Side {
        name: name.to_string(),
        play,
        // the checksums of all of these are compared, so these are the answers of each
        answers: [tuned_answers_16, tuned_answers_32],
        make: Some(make),
    };
    let mut found = vec![
        same(
            "original",
            [original::original_play_16, original::original_play_32],
            [original::original_make_16, original::original_make_32],
        ),
        same("ours", [offset_play_16, offset_play_32], [offset_make_16, offset_make_32]),
        same("erased", [erased::erased_play_16, erased::erased_play_32], [erased::erased_make_16, erased::erased_make_32]),
        same("c", [tuned_play_16, tuned_play_32], [tuned_make_16, tuned_make_32]),
        same("by field", [by_field_play_16, by_field_play_32], [by_field_make_16, by_field_make_32]),
        same("ours guarded", [offset_guarded_play_16, offset_guarded_play_32], [offset_guarded_make_16, offset_guarded_make_32]),
        // its calls would be further call sites of the erased side
        #[cfg(not(feature = "other-sites"))]
        same("guarded", [guarded::guarded_play_16, guarded::guarded_play_32], [guarded::guarded_make_16, guarded::guarded_make_32]),
    ];
    let peer = |(name, play, answers)| Side { name, play: [play; 2], answers: [answers; 2], make: None };
    found.extend(peers::all().into_iter().map(peer));
    found
}
