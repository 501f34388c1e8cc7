// Printed by rust/erase from crates/offset_script/src/playing.rt: change it there.

//! Plays commands in a row by a player, for a listener: a list of their answers is such a listener. It
//! changes spaces by its player alone.

use crate::answers::Answer;
use crate::listening::Listener;
use crate::player::PlayerOf;
use crate::scripts::{Command, IndexWidth, Script};
use offset_allocator::{AllocatorOf, ByNode, NodeIndex, Tables};
use crate::memory::Vec;
use crate::memory::{AllocError, Global};

/// Plays commands on an allocator of `size` units with the node limit `max_allocs`, drops its space, and
/// returns the listener that has heard them.
///
/// The limit has to be 2 to `T::Index::MAX - 2`, and each alignment at least 1.
///
/// # Errors
///
/// It fails only where an allocation fails: of the allocator's tables, of the list of handles, of the rows
/// of a full report, or of the listener's.
pub(crate) fn play_to<T: Tables, L: Listener>(
    alloc: Global,
    size: u32,
    max_allocs: u32,
    commands: &[Command],
) -> Result<L, AllocError> {
    let mut player: PlayerOf<T> = PlayerOf::start(alloc, size, max_allocs)?;
    let fresh = player.space();
    let mut listener = L::begin(alloc, fresh, commands.len())?;
    for command in commands {
        let asked = L::played(*command);
        let answer = player.call(alloc, asked)?;
        let space = player.space();
        listener.hear(alloc, space, asked, answer)?;
    }
    Ok(listener)
}

/// Plays a script on an allocator of its index width, by the layout that is named for it, drops its space,
/// and returns the listener that has heard its commands.
///
/// # Errors
///
/// It fails only where an allocation fails.
///
/// ```
/// # use offset_allocator::ByNode;
/// # use offset_script::memory::Vec;
/// # use offset_script::*;
/// # let alloc = Global;
/// let script = parse(alloc, b"space 1000 nodes 16 index 32\nalloc 300\nfree 1\n")?;
/// let answers: Vec<Answer> = play_script_to::<ByNode<u16>, ByNode<u32>, _>(alloc, &script)?;
/// assert_eq!(answers.len(), 2);
/// # Ok::<(), RunFault>(())
/// ```
pub fn play_script_to<Narrow, Wide, L>(alloc: Global, script: &Script) -> Result<L, AllocError>
where
    Narrow: Tables<Index = u16>,
    Wide: Tables<Index = u32>,
    L: Listener, {
    let commands = &script.commands;
    match script.index {
        IndexWidth::Bits16 => play_to::<Narrow, L>(alloc, script.size, script.max_allocs, commands),
        IndexWidth::Bits32 => play_to::<Wide, L>(alloc, script.size, script.max_allocs, commands),
    }
}

// The answers in order.
impl Listener for Vec<Answer> {
    fn played(command: Command) -> Command {
        command
    }

    fn begin<T: Tables>(
        alloc: Global,
        _space: &AllocatorOf<T>,
        _calls: usize,
    ) -> Result<Self, AllocError> {
        Ok(Vec::new(alloc))
    }

    #[inline(always)]
    fn hear<T: Tables>(
        &mut self,
        _alloc: Global,
        _space: &AllocatorOf<T>,
        _command: Command,
        answer: Answer,
    ) -> Result<(), AllocError> {
        self.push(answer)?;
        Ok(())
    }
}

/// Plays commands on an allocator of `size` units with the node limit `max_allocs`, and returns their answers
/// in order, one for each.
///
/// The limit has to be 2 to `T::Index::MAX - 2`, and each alignment at least 1. All answers are kept in
/// memory. It fails only where an allocation fails: of the allocator's tables, of the list of handles, or of
/// the answers.
///
/// # Panics
///
/// It panics unless `max_allocs` is at least 2, and `max_allocs` is at most `NI::MAX - 2`, and each
/// alignment is at least 1.
///
/// ```
/// # use offset_allocator::ByNode;
/// # use offset_script::memory::Vec;
/// # use offset_script::*;
/// # let alloc = Global;
/// let script = parse(alloc, b"space 1000 nodes 16 index 32\nalloc 300\nfree 1\n")?;
/// let answers = play_of::<offset_allocator::ByField<u16>>(alloc, 1000, 16, &script.commands)?;
/// assert_eq!(answers.len(), 2);
/// # Ok::<(), RunFault>(())
/// ```
#[track_caller]
pub fn play_of<T: Tables>(
    alloc: Global,
    size: u32,
    max_allocs: u32,
    commands: &[Command],
) -> Result<Vec<Answer>, AllocError> {
    assert!(2 <= max_allocs, "max_allocs must be at least 2");
    assert!(max_allocs < T::Index::MAX - 1, "max_allocs must be at most NI::MAX - 2");
    assert!(commands.iter().all(|c| !matches!(c, Command::Align(_, 0))), "each alignment must be at least 1");
    play_to::<T, Vec<Answer>>(alloc, size, max_allocs, commands)
}

/// `play_of` by node, as [`Allocator`](crate::Allocator) is. The limit has to be 2 to `NI::MAX - 2`.
///
/// # Panics
///
/// It panics unless `max_allocs` is at least 2, and `max_allocs` is at most `NI::MAX - 2`, and each
/// alignment is at least 1.
///
/// ```
/// # use offset_allocator::ByNode;
/// # use offset_script::memory::Vec;
/// # use offset_script::*;
/// # let alloc = Global;
/// let script = parse(alloc, b"space 1000 nodes 16 index 32\nalloc 300\nfree 1\n")?;
/// let answers = play::<u32>(alloc, 1000, 16, &script.commands)?;
/// assert_eq!(answers.len(), 2);
/// # Ok::<(), RunFault>(())
/// ```
#[track_caller]
pub fn play<NI: NodeIndex>(
    alloc: Global,
    size: u32,
    max_allocs: u32,
    commands: &[Command],
) -> Result<Vec<Answer>, AllocError> {
    assert!(2 <= max_allocs, "max_allocs must be at least 2");
    assert!(max_allocs < NI::MAX - 1, "max_allocs must be at most NI::MAX - 2");
    assert!(commands.iter().all(|c| !matches!(c, Command::Align(_, 0))), "each alignment must be at least 1");
    play_of::<ByNode<NI>>(alloc, size, max_allocs, commands)
}

/// Plays a script on an allocator of its index width, and returns the answers to its commands in order, one
/// for each.
///
/// # Errors
///
/// It fails only where an allocation fails.
///
/// ```
/// # use offset_allocator::ByNode;
/// # use offset_script::memory::Vec;
/// # use offset_script::*;
/// # let alloc = Global;
/// let script = parse(alloc, b"space 1000 nodes 16 index 32\nalloc 300\nfree 1\n")?;
/// let answers = play_script(alloc, &script)?;
/// assert!(matches!(answers[0], Answer::Grant { number: 1, offset: 0 }));
/// # Ok::<(), RunFault>(())
/// ```
pub fn play_script(alloc: Global, script: &Script) -> Result<Vec<Answer>, AllocError> {
    play_script_to::<ByNode<u16>, ByNode<u32>, _>(alloc, script)
}
