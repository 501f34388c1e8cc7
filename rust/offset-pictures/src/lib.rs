// Printed by rust/erase from crates/offset_pictures/src/lib.rt: change it there.

#![doc = include_str!("../README.md")]
#![forbid(unsafe_code)]
#![allow(rustdoc::redundant_explicit_links)] // printed links say in full where they lead
#![expect(clippy::collapsible_match)] // an arm of a `match` and a test within it have a name each in the proof

pub use offset_allocator_memory as memory;
pub use offset_allocator_memory::{AllocError, Global};
pub use offset_allocator::{AllocatorOf, ByField, ByNode, Refusal, StorageReport, Tables};
pub use offset_script::{Answer, Command, FromRead, IndexWidth, IntoWrite, RunFault, Script, ScriptFault, Sink, Source};
pub use offset_script::{TextBuffer, parse};

mod ages;
mod axes;
mod course;
mod drawing;
mod figures;
mod legend;
mod levels;
mod living;
mod merging;
mod numerals;
mod plots;
mod program;
mod reasons;
mod rectangles;
mod refusing;
mod shapes;
mod step_lines;
mod style;
mod titles;
mod watching;

pub use course::{Course, course_of};
pub use drawing::{picture, picture_of};
pub use living::{Life, lives};
pub use program::draw_program;
pub use refusing::{Asked, Reason, Refused};
pub use watching::reports;
