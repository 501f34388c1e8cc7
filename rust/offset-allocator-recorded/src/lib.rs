//! Records the calls of an allocator as a text, line by line as they happen, and reads, plays and draws such
//! recordings.
//!
//! Written by hand, over the crates that are printed from proved sources: what a recording has is tested, not proved.
#![doc = include_str!("../README.md")]
#![forbid(unsafe_code)]
#![warn(missing_docs)]

mod allocator;
mod beginning;
mod calls;
mod drawing;
mod guarded;
mod many;
mod one_heap;
mod playing;
mod reading;
mod tape;

pub use drawing::{course, draw, draw_heap, draw_one, Drawn};
pub use many::{Part, Recording, RecordedHeaps};
pub use one_heap::RecordedHeap;
pub use offset_allocator_guarded::{Beside, Guarded, GuardedOf, Ticket};
pub use offset_allocator_heaps::{Granted, Heaps, HeapsOf, Limits, Place, Refusal as HeapRefusal};
pub use offset_allocator_proved::{AllocError, Allocation, Allocator, AllocatorOf, ByField, ByNode, Global};
pub use offset_allocator_proved::{Move, Progress, Refusal, RoomCost, Tables};
pub use offset_calls::{Call, CallPlayer, LiveRange, Moved, Reply};
pub use offset_pictures::Course;
pub use offset_script::{Answer, Command, IndexWidth, RunFault, ScriptFault};
pub use playing::{play, put_reply};
pub use reading::{Header, HeapLine, Line, Lines, NoHeap, Reader, call};
use reading::word_of;
use std::io::{self, Write};
use std::ops::Deref;
use tape::Tape;

/// An allocator, `AllocatorOf` or `GuardedOf`, whose calls are written to `out` as they happen.
///
/// The calls that change the space are methods here, with the arguments and the results of the allocator's own; its
/// questions are reached as its own (`recorded.storage_report()`), and are not written. The line of a call is written
/// and flushed before the call is made: so a crash, of the call too, keeps it. A file needs no buffer of its own.
///
/// The first failure of `out` ends the recording, and not the program: calls go on, `failure` has the error, and
/// `finish` returns it. A recording takes 4 to 8 bytes of memory for each node that was granted, 1 or 2 more where some have
/// names, and those of a line.
pub struct Recorded<A, W: Write> {
    space: A,
    tape: Tape<W>,
}

impl<A, W: Write> Recorded<A, W> {
    /// The name of the next request, for who reads the recording: a `#` line before it. Line ends become spaces.
    pub fn name(&mut self, name: &str) -> &mut Self {
        self.tape.comment(name);
        self
    }

    /// How many bytes a unit has, for the page: a mark. Of a heap of a `Recording` it is of that heap alone.
    pub fn unit(&mut self, bytes: u32) {
        self.tape.mark(format_args!("unit {bytes}"));
    }

    /// A frame ends here: a mark, which changes no answer. The page shows what lives from one mark to another. It is of the whole
    /// file: of several heaps of a `Recording` call it on one alone, or on that.
    pub fn frame_end(&mut self) {
        self.tape.mark(format_args!("frame"));
    }

    /// A time, in nanoseconds from a begin of the caller's: a mark of the whole file.
    pub fn time(&mut self, nanoseconds: u64) {
        self.tape.mark(format_args!("time {nanoseconds}"));
    }

    /// The calls from here on are those of the thread of this number: a mark.
    pub fn thread(&mut self, number: u64) {
        self.tape.mark(format_args!("thread {number}"));
    }

    /// A mark of the whole file with a text of the caller's, such as the name of a level. Line ends become spaces.
    pub fn mark(&mut self, text: &str) {
        self.tape.mark(format_args!("mark {}", tape::in_one_line(text)));
    }

    // Panics where a call could not be read again. A name that was given to it is that of no other call.
    #[track_caller]
    fn check(&mut self, is_valid: bool, condition: &str) {
        if !is_valid {
            self.tape.unname();
        }
        assert!(is_valid, "{condition}");
    }

    /// The error that ended the recording, if one did.
    pub fn failure(&self) -> Option<&io::Error> {
        self.tape.failure()
    }

    /// Ends the recording: the allocator goes on without, and what was written is flushed.
    pub fn finish(self) -> (A, io::Result<W>) {
        (self.space, self.tape.finish())
    }
}

impl<A, W: Write> Deref for Recorded<A, W> {
    type Target = A;

    fn deref(&self) -> &A {
        &self.space
    }
}
