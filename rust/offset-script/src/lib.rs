// Printed by rust/erase from crates/offset_script/src/lib.rt: change it there.

#![doc = include_str!("../README.md")]
#![forbid(unsafe_code)]
#![allow(rustdoc::redundant_explicit_links)] // printed links say in full where they lead
#![expect(clippy::manual_unwrap_or_default)] // a `match` needs no call, whose contract a proof would need
#![expect(clippy::new_without_default)] // one name for an empty text is enough

pub use offset_allocator_memory as memory;
pub use offset_allocator_memory::{AllocError, Global};
pub use offset_allocator::{Allocation, Allocator, AllocatorOf, ByField, ByNode, NodeIndex, NodeIndexNonMax};
pub use offset_allocator::{StorageReport, StorageReportFull, StorageReportFullRegion, Tables};

mod answer_text;
mod answers;
mod buffer;
mod common_lines;
mod devices;
mod faults;
#[doc(hidden)]
pub mod keeper;
mod lines;
mod listening;
mod parsing;
mod player;
mod playing;
mod program;
mod running;
mod scripts;
mod sending;
mod tokens;

pub use answers::{Answer, FullRow, full_answer, put_answer};
pub use buffer::TextBuffer;
pub use devices::{FromRead, IntoWrite, Sink, Source};
pub use faults::{RunFault, ScriptFault};
pub use listening::Listener;
pub use offset_allocator::{json_of, vma_json_of};
pub use parsing::parse;
pub use player::{Player, PlayerOf};
pub use playing::{play, play_of, play_script, play_script_to};
pub use program::{run, run_program, run_program_of};
pub use running::{Rendering, read_script, run_of};
pub use scripts::{Command, IndexWidth, Script};
pub use sending::{send, send_fault};
