// Printed by rust/erase from crates/offset_calls/src/ending.rt: change it there.

//! The replies of a player to calls at the end of a space. It touches the space, the handles and the numbers.

use crate::calls::{LiveRange, Reply, resized};
use crate::numbers::Numbers;
use offset_allocator::{Allocation, NodeIndex, Tables};
use offset_script::Answer;
use offset_script::keeper::KeeperOf;
use crate::memory::AllocError;

// The reply to `Relocate`. The handle of a grant is kept.
#[inline(never)]
pub(crate) fn relocate<T: Tables>(
    player: &mut KeeperOf<T>,
    number: u32,
) -> Result<Reply, AllocError> {
    let Some(handle) = player.handle(number) else {
        return Ok(Reply::Answer(Answer::Gone));
    };
    player.handles.reserve(1)?; // where this is refused, nothing has changed
    let granted = player.space.relocate(handle);
    Ok(Reply::Answer(player.keep(granted)?))
}

// The reply to `RelocateAligned`. The handle of a grant is kept.
#[inline(never)]
pub(crate) fn relocate_aligned<T: Tables>(
    player: &mut KeeperOf<T>,
    number: u32,
    align: u32,
) -> Result<Reply, AllocError> {
    let Some(handle) = player.handle(number) else {
        return Ok(Reply::Answer(Answer::Gone));
    };
    player.handles.reserve(1)?;
    let second = player.space.relocate_aligned(handle, align);
    Ok(Reply::Answer(player.keep(second)?))
}

// The reply to `Retract`.
#[inline(never)]
pub(crate) fn retract<T: Tables>(player: &mut KeeperOf<T>, less: u32) -> Reply {
    resized(player.space.retract(less))
}

// The reply to a question for this live range, or for none: with the number at its name.
fn find<NI: NodeIndex>(
    handles: &[Option<Allocation<NI>>],
    names: u32,
    numbers: &mut Numbers,
    found: Option<Allocation<NI>>,
) -> Result<Reply, AllocError> {
    numbers.read(handles, names)?;
    match found {
        None => Ok(Reply::Found(None)),
        Some(handle) => {
            let (offset, name) = handle.to_parts();
            Ok(Reply::Found(Some(LiveRange {
                number: numbers.of(name),
                offset,
            })))
        }
    }
}

// The reply to `FirstLive`.
#[inline(never)]
pub(crate) fn first_live<T: Tables>(
    player: &KeeperOf<T>,
    numbers: &mut Numbers,
) -> Result<Reply, AllocError> {
    let found = player.space.first_live();
    find(&player.handles, player.space.node_count(), numbers, found)
}

// The reply to `LastLive`.
#[inline(never)]
pub(crate) fn last_live<T: Tables>(
    player: &KeeperOf<T>,
    numbers: &mut Numbers,
) -> Result<Reply, AllocError> {
    let found = player.space.last_live();
    find(&player.handles, player.space.node_count(), numbers, found)
}

// The reply to `LiveBefore`.
#[inline(never)]
pub(crate) fn live_before<T: Tables>(
    player: &KeeperOf<T>,
    numbers: &mut Numbers,
    number: u32,
) -> Result<Reply, AllocError> {
    let Some(handle) = player.handle(number) else {
        return Ok(Reply::Answer(Answer::Gone));
    };
    let found = player.space.live_before(handle);
    find(&player.handles, player.space.node_count(), numbers, found)
}

// The reply to `LiveAfter`.
#[inline(never)]
pub(crate) fn live_after<T: Tables>(
    player: &KeeperOf<T>,
    numbers: &mut Numbers,
    number: u32,
) -> Result<Reply, AllocError> {
    let Some(handle) = player.handle(number) else {
        return Ok(Reply::Answer(Answer::Gone));
    };
    let found = player.space.live_after(handle);
    find(&player.handles, player.space.node_count(), numbers, found)
}
