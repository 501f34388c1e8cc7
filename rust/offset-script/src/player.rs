// Printed by rust/erase from crates/offset_script/src/player.rt: change it there.

//! A player: an allocator that takes commands one by one. Nothing but a command changes its space.

use crate::answers::Answer;
use crate::keeper::KeeperOf;
use crate::scripts::Command;
use offset_allocator::{Allocation, AllocatorOf, ByNode, NodeIndex, Tables};
use crate::memory::{AllocError, Global};

/// A player of an allocator by node.
pub type Player<NI = u32> = PlayerOf<ByNode<NI>>;

/// An allocator, with the handles of its live grants: it takes commands one by one. Nothing else changes its
/// space, so each handle that is kept is live, and no two have one name. What would free one does not compile:
///
/// ```compile_fail,E0596
/// let mut player = offset_script::Player::<u32>::start(offset_script::Global, 1000, 16).unwrap();
/// let range = player.handle(1).unwrap();
/// player.space().free(range);
/// ```
///
/// ```compile_fail,E0616
/// let mut player = offset_script::Player::<u32>::start(offset_script::Global, 1000, 16).unwrap();
/// player.keeper.handles.clear();
/// ```
pub struct PlayerOf<T: Tables> {
    keeper: KeeperOf<T>,
}

impl<T: Tables> PlayerOf<T> {
    /// A fresh space, and no grants. The limit has to be 2 to `T::Index::MAX - 2`.
    ///
    /// # Errors
    ///
    /// It fails only where an allocation fails.
    ///
    /// # Panics
    ///
    /// It panics unless `max_allocs` is at least 2, and `max_allocs` is at most `NI::MAX - 2`.
    ///
    /// ```
    /// # use offset_allocator::ByNode;
    /// # use offset_script::memory::Vec;
    /// # use offset_script::*;
    /// # let alloc = Global;
    /// let player = Player::<u16>::start(alloc, 1000, 16)?;
    /// assert_eq!(player.space().size(), 1000);
    /// # Ok::<(), RunFault>(())
    /// ```
    #[track_caller]
    pub fn start(alloc: Global, size: u32, max_allocs: u32) -> Result<Self, AllocError> {
        assert!(2 <= max_allocs, "max_allocs must be at least 2");
        assert!(max_allocs < T::Index::MAX - 1, "max_allocs must be at most NI::MAX - 2");
        let keeper = KeeperOf::start(alloc, size, max_allocs)?;
        Ok(PlayerOf { keeper })
    }

    /// The allocator, to read.
    ///
    /// ```
    /// # use offset_allocator::ByNode;
    /// # use offset_script::memory::Vec;
    /// # use offset_script::*;
    /// # let alloc = Global;
    /// let mut player = Player::<u32>::start(alloc, 1000, 16)?;
    /// player.call(alloc, Command::Alloc(300))?;
    /// assert_eq!(player.space().free_units(), 700);
    /// # Ok::<(), RunFault>(())
    /// ```
    pub fn space(&self) -> &AllocatorOf<T> {
        &self.keeper.space
    }

    /// The handles of the grants so far: that of grant k is at k - 1 while the grant is live.
    ///
    /// ```
    /// # use offset_allocator::ByNode;
    /// # use offset_script::memory::Vec;
    /// # use offset_script::*;
    /// # let alloc = Global;
    /// let mut player = Player::<u32>::start(alloc, 1000, 16)?;
    /// player.call(alloc, Command::Alloc(300))?;
    /// assert_eq!(player.handles(), [player.handle(1)]);
    /// # Ok::<(), RunFault>(())
    /// ```
    pub fn handles(&self) -> &[Option<Allocation<T::Index>>] {
        &self.keeper.handles
    }

    /// The handle of the grant of this number, if it is live.
    ///
    /// ```
    /// # use offset_allocator::ByNode;
    /// # use offset_script::memory::Vec;
    /// # use offset_script::*;
    /// # let alloc = Global;
    /// let mut player = Player::<u32>::start(alloc, 1000, 16)?;
    /// player.call(alloc, Command::Alloc(300))?;
    /// assert!(player.handle(1).is_some());
    /// # Ok::<(), RunFault>(())
    /// ```
    pub fn handle(&self, number: u32) -> Option<Allocation<T::Index>> {
        self.keeper.handle(number)
    }

    /// Carries out one command, and returns its answer. The alignment of a request has to be at least 1.
    ///
    /// # Errors
    ///
    /// It fails only where an allocation fails. Then nothing was done: the space and the handles are as they
    /// were, and the command may be tried again.
    ///
    /// # Panics
    ///
    /// It panics unless an alignment is at least 1.
    ///
    /// ```
    /// # use offset_allocator::ByNode;
    /// # use offset_script::memory::Vec;
    /// # use offset_script::*;
    /// # let alloc = Global;
    /// let mut player = Player::<u32>::start(alloc, 1000, 16)?;
    /// let answer = player.call(alloc, Command::Alloc(300))?;
    /// assert!(matches!(answer, Answer::Grant { number: 1, offset: 0 }));
    /// # Ok::<(), RunFault>(())
    /// ```
    #[track_caller]
    pub fn call(&mut self, alloc: Global, command: Command) -> Result<Answer, AllocError> {
        assert!(!matches!(command, Command::Align(_, 0)), "an alignment must be at least 1");
        self.keeper.call(alloc, command)
    }
}
