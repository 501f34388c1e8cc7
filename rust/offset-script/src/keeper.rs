// Printed by rust/erase from crates/offset_script/src/keeper.rt: change it there.

//! An allocator and the handles of its grants, as a player has them: it carries out commands. Lists of calls change
//! its space by other calls too, so its fields are public, and whoever changes one keeps `AreHeld`; all others take a
//! `PlayerOf`, whose fields are not. No other module of this crate changes a space.

use crate::answers::{Answer, full_answer};
use crate::scripts::Command;
use offset_allocator::{Allocation, AllocatorOf, NodeIndex, Tables};
use crate::memory::Vec;
use crate::memory::{AllocError, Global};

/// An allocator, with the handles of its live grants: what a player is made of. Where a handle that is kept is not
/// live, or two have one name, a later `call` may panic: lists of calls keep both, and a program takes a [`PlayerOf`](crate::PlayerOf).
pub struct KeeperOf<T: Tables> {
    /// The allocator.
    pub space: AllocatorOf<T>,
    /// The handle of grant k is at k - 1 while the grant is live.
    pub handles: Vec<Option<Allocation<T::Index>>>,
    // Resets have removed the first handles, up to this number.
    swept: usize,
}

impl<T: Tables> KeeperOf<T> {
    /// A fresh space, and no grants. The limit has to be 2 to `T::Index::MAX - 2`.
    ///
    /// # Errors
    ///
    /// It fails only where an allocation fails.
    ///
    /// # Panics
    ///
    /// It panics unless `max_allocs` is at least 2, and `max_allocs` is at most `NI::MAX - 2`.
    #[track_caller]
    pub fn start(alloc: Global, size: u32, max_allocs: u32) -> Result<Self, AllocError> {
        assert!(2 <= max_allocs, "max_allocs must be at least 2");
        assert!(max_allocs < T::Index::MAX - 1, "max_allocs must be at most NI::MAX - 2");
        let space = AllocatorOf::with_max_allocs(alloc, size, max_allocs)?;
        Ok(KeeperOf {
            space,
            handles: Vec::new(alloc),
            swept: 0,
        })
    }

    /// The handle of the grant of this number, if it is live.
    pub fn handle(&self, number: u32) -> Option<Allocation<T::Index>> {
        if number == 0 {
            return None;
        }
        match self.handles.get(number as usize - 1) {
            Some(handle) => *handle,
            None => None,
        }
    }

    /// The answer to a request with this result. The handle of a grant is kept under the next number: it has
    /// to be live in `space`, and not kept yet.
    ///
    /// # Errors
    ///
    /// It fails only where an allocation fails, and never while `handles` has room for one more. Then the
    /// grant is live, and not kept: to free it, or to keep it later, is left to the caller.
    pub fn keep(&mut self, granted: Option<Allocation<T::Index>>) -> Result<Answer, AllocError> {
        match granted {
            None => Ok(Answer::Refused),
            Some(handle) => {
                self.handles.push(Some(handle))?;
                Ok(Answer::Grant {
                    number: self.handles.len() as u64,
                    offset: handle.offset,
                })
            }
        }
    }

    // Makes room for one more handle. It comes before a request, so that no grant is without a number.
    fn reserve(&mut self) -> Result<(), AllocError> {
        self.handles.reserve(1)
    }

    // The answer to `alloc`.
    fn allocate(&mut self, size: u32) -> Result<Answer, AllocError> {
        self.reserve()?;
        let granted = self.space.allocate(size);
        self.keep(granted)
    }

    // The answer to `free`. The grant's handle is removed.
    fn release(&mut self, number: u32) -> Answer {
        match self.handle(number) {
            None => Answer::Gone,
            Some(handle) => {
                self.space.free(handle);
                self.handles[number as usize - 1] = None;
                Answer::Freed
            }
        }
    }

    // The answer to `size`.
    fn size(&self, number: u32) -> Answer {
        match self.handle(number) {
            None => Answer::Gone,
            Some(handle) => Answer::Size(self.space.allocation_size(handle)),
        }
    }

    // The answer to `report`.
    fn report(&self) -> Answer {
        Answer::Report(self.space.storage_report())
    }

    // The answer to `reset`. All handles are removed, and numbers go on.
    fn reset(&mut self) -> Answer {
        self.space.reset();
        for i in self.swept..self.handles.len() {
            self.handles[i] = None;
        }
        self.swept = self.handles.len();
        Answer::Reset
    }

    // The answer to `align`.
    fn allocate_aligned(&mut self, size: u32, align: u32) -> Result<Answer, AllocError> {
        self.reserve()?;
        let granted = self.space.allocate_aligned(size, align);
        self.keep(granted)
    }

    // The answer to `extend`.
    fn extend(&mut self, more: u32) -> Answer {
        if self.space.extend(more) {
            Answer::Extended
        } else {
            Answer::Refused
        }
    }

    /// Carries out one command, and returns its answer. The alignment of a request has to be at least 1.
    /// Each handle that is kept has to be live, and no two may have one name: so it is in a player that
    /// [`start`](Self::start) made, and after each `call` and each [`keep`](Self::keep).
    ///
    /// # Errors
    ///
    /// It fails only where an allocation fails. Then nothing was done: the space and the handles are as they
    /// were, and the command may be tried again.
    ///
    /// # Panics
    ///
    /// It panics unless an alignment is at least 1.
    #[track_caller]
    pub fn call(&mut self, alloc: Global, command: Command) -> Result<Answer, AllocError> {
        assert!(!matches!(command, Command::Align(_, 0)), "an alignment must be at least 1");
        match command {
            Command::Alloc(size) => self.allocate(size),
            Command::Free(number) => Ok(self.release(number)),
            Command::Size(number) => Ok(self.size(number)),
            Command::Report => Ok(self.report()),
            Command::Full => full_answer(alloc, &self.space),
            Command::Reset => Ok(self.reset()),
            Command::Align(size, align) => self.allocate_aligned(size, align),
            Command::Extend(more) => Ok(self.extend(more)),
        }
    }
}
