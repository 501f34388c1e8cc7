// Printed by rust/erase from crates/offset_calls/src/player.rt: change it there.

//! A player that takes calls one by one. It changes its own allocator alone.

use crate::calls::{Call, Reply};
use crate::numbers::Numbers;
use crate::playing::reply;
use offset_allocator::{Allocation, AllocatorOf, ByNode, NodeIndex, Tables};
use offset_script::keeper::KeeperOf;
use crate::memory::{AllocError, Global};

/// A player of an allocator by node.
pub type CallPlayer<NI = u32> = CallPlayerOf<ByNode<NI>>;

/// An allocator that takes calls one by one, and replies as `play_calls_of` does to the whole list.
pub struct CallPlayerOf<T: Tables> {
    player: KeeperOf<T>,
    numbers: Numbers,
}

impl<T: Tables> CallPlayerOf<T> {
    /// A fresh space, and no grants. The limit has to be 2 to `T::Index::MAX - 2`.
    ///
    /// # Errors
    ///
    /// It fails only where an allocation fails.
    ///
    /// # Panics
    ///
    /// It panics unless `max_allocs` is at least 2, and `max_allocs` is at most `NI::MAX - 2`.
    ///
    /// ```
    /// # use offset_calls::*;
    /// # let alloc = Global;
    /// let player = CallPlayer::<u16>::start(alloc, 1000, 16)?;
    /// assert_eq!(player.space().size(), 1000);
    /// # Ok::<(), AllocError>(())
    /// ```
    #[track_caller]
    pub fn start(alloc: Global, size: u32, max_allocs: u32) -> Result<Self, AllocError> {
        assert!(2 <= max_allocs, "max_allocs must be at least 2");
        assert!(max_allocs < T::Index::MAX - 1, "max_allocs must be at most NI::MAX - 2");
        let player = KeeperOf::start(alloc, size, max_allocs)?;
        Ok(CallPlayerOf {
            player,
            numbers: Numbers::new(alloc),
        })
    }

    /// Makes one call, and returns its reply. Its alignment and its step, if it has them, have to be at least 1.
    ///
    /// It costs what the call costs in the allocator. Calls that may slide ranges (`Compact`, `CompactBy`,
    /// `CompactWithin`, `MakeRoom`, `MakeRoomBy`), `FirstLive`, `LastLive`, `LiveBefore` and `LiveAfter` also read
    /// the grants since the last one of them, and keep 8 bytes for each node.
    ///
    /// # Errors
    ///
    /// It fails only where an allocation fails. Then nothing was done, but by a call that may slide ranges: it
    /// may have moved them, and the reply that says so is lost. Any call may follow.
    ///
    /// # Panics
    ///
    /// It panics unless an alignment is at least 1.
    ///
    /// ```
    /// # use offset_calls::*;
    /// # let alloc = Global;
    /// let mut player = CallPlayer::<u32>::start(alloc, 1000, 16)?;
    /// assert!(matches!(player.call(alloc, Call::AllocateTight(300))?, Reply::Answer(_)));
    /// assert!(matches!(player.call(alloc, Call::Shrink(1, 200))?, Reply::Resized));
    /// assert_eq!(player.space().free_units(), 800);
    /// # Ok::<(), AllocError>(())
    /// ```
    #[track_caller]
    pub fn call(&mut self, alloc: Global, call: Call) -> Result<Reply, AllocError> {
        assert!(call.is_valid(), "an alignment must be at least 1");
        let reply = reply(alloc, &mut self.player, &mut self.numbers, call);
        reply
    }

    /// The allocator, to read.
    ///
    /// ```
    /// # use offset_calls::*;
    /// # let alloc = Global;
    /// let player = CallPlayer::<u32>::start(alloc, 1000, 16)?;
    /// assert!(player.space().is_empty());
    /// # Ok::<(), AllocError>(())
    /// ```
    pub fn space(&self) -> &AllocatorOf<T> {
        &self.player.space
    }

    /// The handle of the grant of this number, if it is live.
    ///
    /// ```
    /// # use offset_calls::*;
    /// # let alloc = Global;
    /// let mut player = CallPlayer::<u32>::start(alloc, 1000, 16)?;
    /// player.call(alloc, Call::AllocateTight(300))?;
    /// assert!(player.handle(1).is_some());
    /// # Ok::<(), AllocError>(())
    /// ```
    pub fn handle(&self, number: u32) -> Option<Allocation<T::Index>> {
        self.player.handle(number)
    }
}
