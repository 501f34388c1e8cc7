// Printed by rust/erase from crates/offset_script/src/running.rt: change it there.

//! Runs a script from a source to a sink, by a `Rendering`, whose trait is here. It touches source and sink alone,
//! and sends nothing before all is read and made.

use crate::devices::{Sink, Source};
use crate::faults::RunFault;
use crate::parsing::{MAX_TEXT, parse};
use crate::scripts::Script;
use crate::memory::Vec;
use crate::memory::{AllocError, Global};

// The largest number of bytes that one pull requests.
const PULL_BYTES: usize = 16384;

// All bytes of the source, or its first `MAX_TEXT + 1`. It stops at the first failure.
fn read_text<S: Source>(alloc: Global, input: &mut S) -> Result<Vec<u8>, RunFault> {
    let mut text = Vec::new(alloc);
    let mut piece = [0u8; PULL_BYTES];
    while text.len() <= MAX_TEXT {
        let room = (MAX_TEXT + 1 - text.len()).min(PULL_BYTES);
        match input.pull(&mut piece[..room]) {
            None => return Err(RunFault::Read),
            Some(0) => break,
            Some(n) => text.extend_from_slice(&piece[..n])?,
        }
    }
    Ok(text)
}

/// Reads a source to its end as a script, and returns it, or the fault.
///
/// Of a text that is too long, 1,048,577 bytes are read. `Read` is returned exactly where the source failed
/// in this call; no failed call is tried again. Where an allocation fails, the fault is `Memory`.
///
/// ```
/// # use offset_allocator::ByNode;
/// # use offset_script::memory::Vec;
/// # use offset_script::*;
/// # let alloc = Global;
/// let mut input = FromRead::new(&b"space 1000 nodes 16 index 32\nalloc 300\n"[..]);
/// let script = read_script(alloc, &mut input)?;
/// assert_eq!(script.max_allocs, 16);
/// # Ok::<(), RunFault>(())
/// ```
pub fn read_script<S: Source>(alloc: Global, input: &mut S) -> Result<Script, RunFault> {
    let text = read_text(alloc, input)?;
    Ok(parse(alloc, &text)?)
}

/// What a run makes of a script, and sends: the text of its answers, or a picture.
pub trait Rendering {
    /// Appends the rendering of a script, and then flushes. Returns whether both succeeded. It stops at the
    /// first failure, and tries nothing again. Where an allocation fails, nothing is appended.
    fn send<K: Sink>(
        &self,
        alloc: Global,
        script: &Script,
        output: &mut K,
    ) -> Result<bool, AllocError>;
}

/// `run`, with another rendering of a script in place of the text of its answers.
pub fn run_of<X: Rendering, S: Source, K: Sink>(
    alloc: Global,
    rendering: &X,
    input: &mut S,
    output: &mut K,
) -> Result<(), RunFault> {
    let script = read_script(alloc, input)?;
    if rendering.send(alloc, &script, output)? {
        Ok(())
    } else {
        Err(RunFault::Write)
    }
}
