// Printed by rust/erase from crates/offset_script/src/sending.rt: change it there.

//! Sends texts to sinks. It touches the sinks alone, and takes no memory.

use crate::memory::Vec;

use crate::buffer::TextBuffer;
use crate::devices::Sink;
use crate::faults::RunFault;

// The most bytes of the line of a fault with its line end: a number of 20 digits and the words fit.
const LINE_BYTES: usize = 41;

// Appends all bytes, and returns whether it did. It stops at the first failure, and tries nothing again.
fn push_all<K: Sink>(output: &mut K, text: &[u8]) -> bool {
    let mut rest = text;
    while !rest.is_empty() {
        match output.push(rest) {
            None => return false,
            Some(n) => rest = &rest[n..],
        }
    }
    true
}

/// Appends all bytes, and then flushes, also where there are none. Returns whether both succeeded. It stops
/// at the first failure, and tries nothing again.
///
/// ```
/// # use offset_allocator::ByNode;
/// # use offset_script::memory::Vec;
/// # use offset_script::*;
/// # let alloc = Global;
/// let mut output = IntoWrite::new(std::vec::Vec::new());
/// assert!(send(&mut output, b"freed\n"));
/// assert_eq!(output.into_inner(), b"freed\n");
/// # Ok::<(), RunFault>(())
/// ```
pub fn send<K: Sink>(output: &mut K, text: &[u8]) -> bool {
    push_all(output, text) && output.flush()
}

// `push_all` of a text in pieces.
fn push_pieces<K: Sink>(output: &mut K, pieces: &[Vec<u8>]) -> bool {
    for part in pieces {
        if !push_all(output, part) {
            return false;
        }
    }
    true
}

/// `send` of a text in pieces.
pub(crate) fn send_in_turn<K: Sink>(output: &mut K, pieces: &[Vec<u8>]) -> bool {
    push_pieces(output, pieces) && output.flush()
}

/// Appends the line of a fault with its line end, and then flushes. Returns whether both succeeded. It stops
/// at the first failure, tries nothing again, and allocates nothing.
///
/// ```
/// # use offset_allocator::ByNode;
/// # use offset_script::memory::Vec;
/// # use offset_script::*;
/// # let alloc = Global;
/// let mut output = IntoWrite::new(std::vec::Vec::new());
/// assert!(send_fault(&mut output, RunFault::Read));
/// assert_eq!(output.into_inner(), b"read failed\n");
/// # Ok::<(), RunFault>(())
/// ```
pub fn send_fault<K: Sink>(output: &mut K, fault: RunFault) -> bool {
    let (number, words) = fault.parts();
    let mut line: TextBuffer<LINE_BYTES> = TextBuffer::new();
    line.prepend("\n");
    line.prepend(words);
    if let Some(number) = number {
        line.prepend(": ");
        line.prepend_number(u64::from(number));
        line.prepend("line ");
    }
    send(output, line.bytes())
}
