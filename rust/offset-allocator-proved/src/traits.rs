//! Traits of plain Rust that Rattle lacks. Written by hand.

use core::fmt;
use core::hash::{Hash, Hasher};

use offset_allocator_memory::AllocError;

use crate::handle::Allocation;
use crate::index::{NodeIndex, NodeIndexNonMax};
use crate::reports::blocks::Block;
use crate::reports::statistics::Statistics;
use crate::reports::{Refusal, StorageReport, StorageReportFull, StorageReportFullRegion};
use crate::states::state::{ReadError, StateFault};

/// Two names are equal exactly where their numbers are: that is a law of [`NodeIndexNonMax`](crate::NodeIndexNonMax).
impl<NI: NodeIndex, N: NodeIndexNonMax> Eq for Allocation<NI, N> {}

/// The hash is of the public offset and of the name's number, as `==` compares them: so a handle that `blocks` or a move
/// yields after `compact` is not found in a map whose key is the handle that `allocate` returned. Let
/// [`name`](Allocation::name) be the key.
impl<NI: NodeIndex, N: NodeIndexNonMax> Hash for Allocation<NI, N> {
    fn hash<H: Hasher>(&self, state: &mut H) {
        self.offset.hash(state);
        self.metadata.to_usize().hash(state);
    }
}

impl<NI: NodeIndex + Eq, N: NodeIndexNonMax + Eq> Eq for Block<NI, N> {}

impl Eq for StorageReport {}

impl Eq for StorageReportFull {}

impl Eq for StorageReportFullRegion {}

impl Eq for Statistics {}

impl Eq for Refusal {}

impl Hash for Refusal {
    fn hash<H: Hasher>(&self, state: &mut H) {
        core::mem::discriminant(self).hash(state);
    }
}

impl core::error::Error for Refusal {}

/// The text says what is wrong, and where: `two free blocks side by side, at byte 28`.
impl fmt::Display for StateFault {
    fn fmt(&self, f: &mut fmt::Formatter<'_>) -> fmt::Result {
        write!(f, "{}, at byte {}", self.kind, self.at)
    }
}

impl core::error::Error for StateFault {}

/// The text is that of the fault, or that of [`AllocError`](crate::AllocError).
impl<F: fmt::Display> fmt::Display for ReadError<F> {
    fn fmt(&self, f: &mut fmt::Formatter<'_>) -> fmt::Result {
        match self {
            ReadError::Memory => AllocError.fmt(f),
            ReadError::Fault(fault) => fault.fmt(f),
        }
    }
}

impl<F: fmt::Debug + fmt::Display> core::error::Error for ReadError<F> {}
