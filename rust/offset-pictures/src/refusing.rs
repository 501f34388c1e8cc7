// Printed by rust/erase from crates/offset_pictures/src/refusing.rt: change it there.

//! Which calls were refused, and why: what a space says after a refused call, which left it as it was. It
//! only asks the space.

use offset_allocator::{AllocatorOf, Refusal, Tables};
use offset_script::{Answer, Command};
use crate::memory::Vec;
use crate::memory::AllocError;

/// What a refused call asked for, in the words of scripts and recordings.
#[derive(Clone, Copy, PartialEq, Debug)]
pub enum Asked {
    /// `alloc N`: a range of N units.
    Alloc(u32),
    /// `align N A`: a range of N units that begins at a multiple of A.
    Align(u32, u32),
    /// `extend N`: N more units at the end of the space.
    Extend(u32),
    /// `shrink K N`: N units for grant K, which are fewer than it has.
    Shrink(u32, u32),
    /// `grow K N`: N units for grant K, which are more than it has, where it is.
    Grow(u32, u32),
}

/// Why a call was refused.
#[derive(Clone, Copy, PartialEq, Debug)]
pub enum Reason {
    /// What the allocator says of a request; `Nodes` of the other calls too.
    Request(Refusal),
    /// More units than a space may have: `extend`.
    TooManyUnits,
    /// Too few units directly after the range are free: `grow`.
    NoRoom,
    /// The range has fewer units: `shrink`.
    Smaller,
    /// The range has more units: `grow`.
    Larger,
}

/// A refused call.
#[derive(Clone, Copy, PartialEq, Debug)]
pub struct Refused {
    /// The call, counted from 0.
    pub call: usize,
    /// What it asked for.
    pub asked: Asked,
    /// Why it was refused.
    pub why: Reason,
}

/// Whether a call returned `none`.
pub fn is_refusal(answer: &Answer) -> bool {
    matches!(answer, Answer::Refused)
}

// Why a space refuses a request.
fn shortage<T: Tables>(space: &AllocatorOf<T>, size: u32, align: u32) -> Refusal {
    match space.refusal_aligned(size, align) {
        Some(why) => why,
        // It would be granted.
        None => Refusal::Fragmented,
    }
}

// Why a space refuses more units.
fn why_extend<T: Tables>(space: &AllocatorOf<T>, more: u32) -> Reason {
    if space.size().checked_add(more).is_some() {
        Reason::Request(Refusal::Nodes)
    } else {
        Reason::TooManyUnits
    }
}

// What the call asked for and why it was refused; `None` for a command that is never refused.
fn refused_call<T: Tables>(space: &AllocatorOf<T>, call: usize, command: Command) -> Option<Refused> {
    let (asked, why) = match command {
        Command::Alloc(size) => (
            Asked::Alloc(size),
            Reason::Request(shortage(space, size, 1)),
        ),
        Command::Align(size, align) => (
            Asked::Align(size, align),
            Reason::Request(shortage(space, size, align)),
        ),
        Command::Extend(more) => (Asked::Extend(more), why_extend(space, more)),
        _ => return None,
    };
    Some(Refused { call, asked, why })
}

/// Adds a call to those that were refused, if its answer is `none`. This is the space after it.
///
/// # Panics
///
/// It panics unless an alignment is at least 1.
#[track_caller]
pub fn note<T: Tables>(
    refused: &mut Vec<Refused>,
    space: &AllocatorOf<T>,
    call: usize,
    command: Command,
    answer: &Answer,
) -> Result<(), AllocError> {
    assert!(!matches!(command, Command::Align(_, 0)), "an alignment must be at least 1");
    if !is_refusal(answer) {
        return Ok(());
    }
    if let Some(found) = refused_call(space, call, command) {
        refused.push(found)?;
    }
    Ok(())
}
