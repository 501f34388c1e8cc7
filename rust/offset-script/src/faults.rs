// Printed by rust/erase from crates/offset_script/src/faults.rt: change it there.

//! What is wrong with a script, and with a run. It touches nothing.

use crate::memory::AllocError;
use core::fmt;

/// Why a text is no script. The number is that of the faulty line, from 1.
#[derive(Clone, Copy, PartialEq, Debug)]
pub enum ScriptFault {
    /// The text has more than 1,048,576 bytes.
    TooLong,
    /// The first line that is neither empty nor a comment is no header; or there is no such line, and the
    /// number is one more than that of line ends.
    BadHeader(u32),
    /// The header's node limit is below 2, or above what its index width admits.
    BadLimit(u32),
    /// A later line is no command, or has an alignment that is no power of two.
    BadCommand(u32),
    /// An allocation failed.
    Memory,
}

impl From<AllocError> for ScriptFault {
    fn from(_e: AllocError) -> ScriptFault {
        ScriptFault::Memory
    }
}

/// Why a run failed.
#[derive(Clone, Copy, PartialEq, Debug)]
pub enum RunFault {
    /// The text that was read is no script. Where an allocation fails, `run` returns `Memory` and never
    /// `Script(Memory)`.
    Script(ScriptFault),
    /// An allocation failed.
    Memory,
    /// The source failed.
    Read,
    /// The sink failed.
    Write,
}

impl RunFault {
    /// The status that a program ends with: 2 for a text that is no script, 3 for memory, and 4 for a device.
    ///
    /// ```
    /// # use offset_allocator::ByNode;
    /// # use offset_script::memory::Vec;
    /// # use offset_script::*;
    /// # let alloc = Global;
    /// assert_eq!(RunFault::Read.status(), 4);
    /// # Ok::<(), RunFault>(())
    /// ```
    pub fn status(&self) -> u8 {
        match self {
            RunFault::Script(ScriptFault::Memory) | RunFault::Memory => 3,
            RunFault::Script(_) => 2,
            RunFault::Read | RunFault::Write => 4,
        }
    }

    /// The number of the faulty line of the text, where there is one, and what is wrong, in at most 13 bytes.
    ///
    /// ```
    /// # use offset_allocator::ByNode;
    /// # use offset_script::memory::Vec;
    /// # use offset_script::*;
    /// # let alloc = Global;
    /// assert_eq!(RunFault::Read.parts(), (None, "read failed"));
    /// # Ok::<(), RunFault>(())
    /// ```
    pub fn parts(&self) -> (Option<u32>, &'static str) {
        match self {
            RunFault::Script(ScriptFault::TooLong) => (None, "too long"),
            RunFault::Script(ScriptFault::BadHeader(line)) => (Some(*line), "bad header"),
            RunFault::Script(ScriptFault::BadLimit(line)) => (Some(*line), "bad limit"),
            RunFault::Script(ScriptFault::BadCommand(line)) => (Some(*line), "bad command"),
            RunFault::Script(ScriptFault::Memory) | RunFault::Memory => (None, "out of memory"),
            RunFault::Read => (None, "read failed"),
            RunFault::Write => (None, "write failed"),
        }
    }
}

impl fmt::Display for RunFault {
    fn fmt(&self, f: &mut fmt::Formatter<'_>) -> fmt::Result {
        match self.parts() {
            (None, words) => write!(f, "{words}"),
            (Some(line), words) => write!(f, "line {line}: {words}"),
        }
    }
}

impl From<ScriptFault> for RunFault {
    fn from(fault: ScriptFault) -> RunFault {
        match fault {
            ScriptFault::Memory => RunFault::Memory,
            other => RunFault::Script(other),
        }
    }
}

impl From<AllocError> for RunFault {
    fn from(_e: AllocError) -> RunFault {
        RunFault::Memory
    }
}
