//! The peers that are linked.
pub use crate::traces::{REFUSED, RELEASED};
use crate::traces::Step;
use std::ffi::{c_char, CStr};

pub type Play = unsafe extern "C" fn(u32, u32, usize, *const Step, usize) -> u64;
/// Plays the steps, and stores every answer.
pub type Answers = unsafe extern "C" fn(u32, u32, usize, *const Step, usize, *mut u64) -> u64;

#[repr(C)]
struct Peer {
    name: *const c_char,
    play: Option<Play>,
    answers: Option<Answers>,
}

extern "C" {
    /// The last one has no name.
    static PEERS: [Peer; 0];
}

/// The name and the calls of each.
pub fn all() -> Vec<(String, Play, Answers)> {
    let mut found = Vec::new();
    let mut next = unsafe { PEERS.as_ptr() };
    while let Peer { name, play: Some(play), answers: Some(answers) } = unsafe { &*next } {
        let name = unsafe { CStr::from_ptr(*name) }.to_str().unwrap().to_string();
        found.push((name, *play, *answers));
        next = unsafe { next.add(1) };
    }
    found
}
