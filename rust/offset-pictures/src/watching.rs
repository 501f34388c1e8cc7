// Printed by rust/erase from crates/offset_pictures/src/watching.rt: change it there.

//! What a script's space says while the script is played, without its full reports: what it reports and how
//! large it is after each command, and why it refuses commands. It plays the script, and asks its space after
//! each command.

use crate::refusing::{Refused, note};
use offset_allocator::{AllocatorOf, ByNode, StorageReport, Tables};
use offset_script::{Answer, Command, Listener, Script, play_script_to};
use crate::memory::Vec;
use crate::memory::{AllocError, Global};

/// What a script's space says while the script is played, with a report in place of each full report.
pub struct Watched {
    /// The answer to each command.
    pub answers: Vec<Answer>,
    /// The report of the fresh space, and the one after each command.
    pub reports: Vec<StorageReport>,
    /// The units of the fresh space, and those after each command.
    pub sizes: Vec<u32>,
    /// The commands that were refused.
    pub refused: Vec<Refused>,
}

impl Listener for Watched {
    // A report takes the place of a full report, whose rows would take much memory.
    fn played(command: Command) -> Command {
        match command {
            Command::Full => Command::Report,
            other => other,
        }
    }

    fn begin<T: Tables>(
        alloc: Global,
        space: &AllocatorOf<T>,
        calls: usize,
    ) -> Result<Self, AllocError> {
        let answers = Vec::with_capacity(alloc, calls)?;
        let mut reports = Vec::with_capacity(alloc, calls.saturating_add(1))?;
        reports.push(space.storage_report())?;
        let mut sizes = Vec::with_capacity(alloc, calls.saturating_add(1))?;
        sizes.push(space.size())?;
        Ok(Watched {
            answers,
            reports,
            sizes,
            refused: Vec::new(alloc),
        })
    }

    #[inline(always)]
    fn hear<T: Tables>(
        &mut self,
        _alloc: Global,
        space: &AllocatorOf<T>,
        command: Command,
        answer: Answer,
    ) -> Result<(), AllocError> {
        let calls = self.answers.len();
        note(&mut self.refused, space, calls, command, &answer)?;
        self.answers.push(answer)?;
        self.reports.push(space.storage_report())?;
        self.sizes.push(space.size())?;
        Ok(())
    }
}

/// Plays a script on an allocator of its index width, with a report in place of each full report.
///
/// # Errors
///
/// It fails only where an allocation fails.
pub fn watch(alloc: Global, script: &Script) -> Result<Watched, AllocError> {
    play_script_to::<ByNode<u16>, ByNode<u32>, _>(alloc, script)
}

/// Plays a script, and returns the reports of its space before the first command and after each, in order.
///
/// It plays the script once, and makes no full report.
///
/// # Errors
///
/// It fails only where an allocation fails.
///
/// ```
/// # use offset_pictures::*;
/// # use offset_script::*;
/// # let alloc = offset_script::Global;
/// let script = parse(alloc, b"space 1000 nodes 16 index 32\nalloc 300\nfree 1\n")?;
/// let found = reports(alloc, &script)?;
/// assert_eq!((found[0].total_free_space, found[1].total_free_space), (1000, 700));
/// # Ok::<(), RunFault>(())
/// ```
pub fn reports(alloc: Global, script: &Script) -> Result<Vec<StorageReport>, AllocError> {
    Ok(watch(alloc, script)?.reports)
}
