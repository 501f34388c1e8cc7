//! A player of the same scripts on the original.
//!
//! The original cannot detect a dead handle, so the player keeps the grants, and returns `gone` for dead ones itself.
use crate::scripts::{Command, Script, Width};
use offset_allocator::{Allocation, Allocator, NodeIndex};
use std::fmt::Write;

trait Index: NodeIndex {
    fn number(self) -> u32;
}
impl Index for u16 {
    fn number(self) -> u32 {
        self.into()
    }
}
impl Index for u32 {
    fn number(self) -> u32 {
        self
    }
}

/// The answers to a script, as our program has to write them.
pub fn play(script: &Script) -> String {
    match script.width {
        Width::Bits16 => play_with::<u16>(script),
        Width::Bits32 => play_with::<u32>(script),
    }
}

fn play_with<NI: Index>(script: &Script) -> String {
    let mut space = Allocator::<NI>::with_max_allocs(script.space, script.max_allocs);
    // grant k is at place k; there is no grant 0
    let mut grants: Vec<Option<Allocation<NI>>> = vec![None];
    let mut out = String::new();
    for command in &script.commands {
        match *command {
            Command::Alloc(size) => match space.allocate(size) {
                Some(grant) => {
                    writeln!(out, "grant {} at {}", grants.len(), grant.offset.number())
                        .map(|()| grants.push(Some(grant)))
                }
                None => writeln!(out, "none"),
            },
            Command::Free(number) => match grants.get_mut(number as usize).and_then(Option::take) {
                Some(grant) => {
                    space.free(grant);
                    writeln!(out, "freed")
                }
                None => writeln!(out, "gone"),
            },
            Command::Size(number) => match grants.get(number as usize).copied().flatten() {
                Some(grant) => writeln!(out, "size {}", space.allocation_size(grant)),
                None => writeln!(out, "gone"),
            },
            Command::Report => {
                let report = space.storage_report();
                writeln!(out, "free {} largest {}", report.total_free_space, report.largest_free_region)
            }
            Command::Full => {
                let report = space.storage_report_full();
                let rows = report.free_regions.iter().enumerate().filter(|(_, row)| row.count > 0);
                let rows: Vec<String> = rows
                    .map(|(class, row)| format!("class {class} size {} count {}\n", row.size, row.count))
                    .collect();
                write!(out, "full {}\n{}", rows.len(), rows.concat())
            }
            Command::Reset => {
                space.reset();
                grants.iter_mut().for_each(|grant| *grant = None);
                writeln!(out, "reset")
            }
        }
        .unwrap();
    }
    out
}
