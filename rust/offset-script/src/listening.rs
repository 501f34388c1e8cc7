// Printed by rust/erase from crates/offset_script/src/listening.rt: change it there.

//! What hears the answers to commands while they are played, and may ask the space after each. It touches
//! nothing itself.

use crate::answers::Answer;
use crate::scripts::Command;
use offset_allocator::{AllocatorOf, Tables};
use crate::memory::{AllocError, Global};

/// Makes something of commands while they are played: of their answers, and of what their space says.
pub trait Listener: Sized {
    /// Returns the command that is played in place of this one. A picture, for one, needs no full reports,
    /// and has a short one played in their place. The alignment of either is at least 1.
    fn played(command: Command) -> Command;

    /// Returns a listener that has heard nothing, at the space before the first of this number of commands.
    ///
    /// # Errors
    ///
    /// It fails only where an allocation fails.
    fn begin<T: Tables>(
        alloc: Global,
        space: &AllocatorOf<T>,
        calls: usize,
    ) -> Result<Self, AllocError>;

    /// Hears the answer to the next command, which left this space.
    ///
    /// # Errors
    ///
    /// It fails only where an allocation fails, and is not called again then.
    fn hear<T: Tables>(
        &mut self,
        alloc: Global,
        space: &AllocatorOf<T>,
        command: Command,
        answer: Answer,
    ) -> Result<(), AllocError>;
}
