// Printed by rust/erase from crates/offset_heaps/src/state.rt: change it there.

//! The form of a state of many heaps, and faults. It touches no heap.
use core::fmt;

/// The number that a state of many heaps begins with: its first bytes are the letters OAHS.
pub(crate) const FORM: u64 = 1397244239;

/// The version of the form.
pub(crate) const VERSION: u64 = 3;

/// What is wrong with the bytes of a state, and where.
#[derive(Clone, Copy, PartialEq, Debug)]
pub struct StateFault {
    /// The place of the byte from which on the bytes are wrong; or their number, where there are too few.
    pub at: usize,
    /// What is wrong there.
    pub kind: StateFaultKind,
}

/// What is wrong with the bytes of a state: of the numbers of many heaps the first that applies of `Length`,
/// for fewer than 96 bytes, `Form`, [`Limits`](crate::Limits), `Counts`, `Length` again, for the numbers of heaps, and
/// `Checksum`; then [`Place`](crate::Place), where the first state begins or the last one ends; and then of the first heap
/// that is wrong the first of `Place`, `Heap`, `Realm` and `Size`. The place is that of the number that is
/// wrong, if nothing else is said.
#[derive(Clone, Copy, PartialEq, Debug)]
pub enum StateFaultKind {
    /// They are fewer than the numbers of many heaps, of which they say how many there are.
    Length,
    /// They do not begin as a state of many heaps does, or are of another version: the place is 0.
    Form,
    /// The limits are none that `new` takes, or more than the caller admits.
    Limits,
    /// The realm of the heap that was made last, or that of the heaps, has more than 32 bits. A heap's own counts are in
    /// `Heap`: also that more than `max_allocs - 2` of its ranges are live.
    Counts,
    /// The checksum is not that of the numbers of many heaps.
    Checksum,
    /// The place of a heap's state: the first is not 0, one is before the one before it or behind the bytes,
    /// or the last is not their end.
    Place,
    /// The realm of a heap is above that of the heap that was made last: the place is in the state of the heap.
    Realm,
    /// The size or the node limit of a heap. Where its number is below `most`: fewer units than the usual heap
    /// of that number, or a node limit below `first_allocs` or above `max_allocs`; else no unit, or another node
    /// limit than a larger heap has. The place is where the state of the heap begins.
    Size,
    /// The state of a heap has this fault: the place is that in its bytes, and counts from where all bytes
    /// begin.
    Heap(offset_guarded::StateFaultKind),
}

impl fmt::Display for StateFaultKind {
    fn fmt(&self, f: &mut fmt::Formatter<'_>) -> fmt::Result {
        match self {
            StateFaultKind::Length => write!(f, "fewer bytes than the counts say"),
            StateFaultKind::Form => write!(f, "no state of many heaps, or one of another version"),
            StateFaultKind::Limits => write!(f, "limits that are not admitted"),
            StateFaultKind::Counts => write!(f, "a realm or a count of more than 32 bits"),
            StateFaultKind::Checksum => { write!(f, "a checksum that is not that of the numbers") }
            StateFaultKind::Place => write!(
                f,
                "the place of a heap that is not behind the one before it, or not in the bytes"
            ),
            StateFaultKind::Realm => write!(f, "the realm of a heap that was not made"),
            StateFaultKind::Size => {
                write!(
                    f,
                    "a heap with fewer units, or another node limit, than the limits say"
                )
            }
            StateFaultKind::Heap(kind) => write!(f, "{kind}"),
        }
    }
}
