// Printed by rust/erase from crates/offset_calls/src/playing.rt: change it there.

//! Plays calls on an allocator, whose handles it keeps. It touches that allocator, the handles and the numbers.

use crate::calls::{Call, Reply, begins, resized};
use crate::numbers::Numbers;
use crate::{ending, sliding};
use offset_allocator::{AllocatorOf, ByNode, NodeIndex, Tables};
use offset_script::Answer;
use offset_script::keeper::KeeperOf;
use crate::memory::Vec;
use crate::memory::{AllocError, Global};

// The reply to `Shrink`.
fn shrink<T: Tables>(player: &mut KeeperOf<T>, number: u32, size: u32) -> Reply {
    match player.handle(number) {
        None => Reply::Answer(Answer::Gone),
        Some(handle) => resized(player.space.shrink(handle, size)),
    }
}

// The reply to `Grow`.
fn grow<T: Tables>(player: &mut KeeperOf<T>, number: u32, size: u32) -> Reply {
    match player.handle(number) {
        None => Reply::Answer(Answer::Gone),
        Some(handle) => resized(player.space.grow_in_place(handle, size)),
    }
}

// The reply to `Offset`.
fn offset<T: Tables>(player: &KeeperOf<T>, number: u32) -> Reply {
    match player.handle(number) {
        None => Reply::Answer(Answer::Gone),
        // it is live, so it has an offset
        Some(handle) => Reply::Offset(player.space.allocation_offset(handle).unwrap_or(0)),
    }
}

// The reply to `AllocateTight`.
#[inline(never)]
fn tight<T: Tables>(player: &mut KeeperOf<T>, size: u32) -> Result<Reply, AllocError> {
    player.handles.reserve(1)?;
    let granted = player.space.allocate_tight(size);
    Ok(Reply::Answer(player.keep(granted)?))
}

// The reply to `AllocateTightAligned`.
#[inline(never)]
fn tight_aligned<T: Tables>(
    player: &mut KeeperOf<T>,
    size: u32,
    align: u32,
) -> Result<Reply, AllocError> {
    player.handles.reserve(1)?;
    let granted = player.space.allocate_tight_aligned(size, align);
    Ok(Reply::Answer(player.keep(granted)?))
}

// The reply to `AllocateAt`.
#[inline(never)]
fn allocate_at<T: Tables>(
    player: &mut KeeperOf<T>,
    offset: u32,
    size: u32,
) -> Result<Reply, AllocError> {
    player.handles.reserve(1)?;
    let granted = player.space.allocate_at(offset, size);
    Ok(Reply::Answer(player.keep(granted)?))
}

// The reply to `RoomCost`.
#[inline(never)]
pub(crate) fn room_cost<T: Tables>(space: &AllocatorOf<T>, size: u32) -> Reply {
    Reply::RoomCost(space.room_cost(size))
}

// The reply to `RoomCostBy`.
#[inline(never)]
pub(crate) fn room_cost_by<T: Tables>(
    space: &AllocatorOf<T>,
    size: u32,
    align: u32,
    step: u32,
) -> Reply {
    Reply::RoomCost(space.room_cost_by(size, align, step))
}

// The reply to a call that is no command.
#[inline(never)]
fn other<T: Tables>(
    alloc: Global,
    player: &mut KeeperOf<T>,
    numbers: &mut Numbers,
    call: Call,
) -> Result<Reply, AllocError> {
    match call {
        Call::Command(_) => unreachable!(),
        Call::Shrink(number, size) => Ok(shrink(player, number, size)),
        Call::Grow(number, size) => Ok(grow(player, number, size)),
        Call::Compact => sliding::reply(alloc, player, numbers, call),
        Call::CompactBy(_) => sliding::reply(alloc, player, numbers, call),
        Call::CompactWithin(_, _, _, _) => sliding::reply(alloc, player, numbers, call),
        Call::Offset(number) => Ok(offset(player, number)),
        Call::Refusal(size) => Ok(Reply::Refusal(player.space.refusal(size))),
        Call::RefusalAligned(size, align) => Ok(Reply::Refusal(
            player.space.refusal_aligned(size, align),
        )),
        Call::AllocateTight(size) => tight(player, size),
        Call::AllocateTightAligned(size, align) => tight_aligned(player, size, align),
        Call::AllocateAt(offset, size) => allocate_at(player, offset, size),
        Call::RefusalTight(size) => Ok(Reply::Refusal(player.space.refusal_tight(size))),
        Call::RefusalTightAligned(size, align) => Ok(Reply::Refusal(
            player.space.refusal_tight_aligned(size, align),
        )),
        Call::WouldBegin(size, align) => Ok(begins(player.space.would_begin(size, align))),
        Call::MakeRoom(_) => sliding::reply(alloc, player, numbers, call),
        Call::MakeRoomBy(_, _, _) => sliding::reply(alloc, player, numbers, call),
        Call::RoomCost(size) => Ok(room_cost(&player.space, size)),
        Call::RoomCostBy(size, align, step) => Ok(room_cost_by(&player.space, size, align, step)),
        Call::Relocate(number) => ending::relocate(player, number),
        Call::RelocateAligned(number, align) => ending::relocate_aligned(player, number, align),
        Call::Retract(less) => Ok(ending::retract(player, less)),
        Call::FirstLive => ending::first_live(player, numbers),
        Call::LastLive => ending::last_live(player, numbers),
        Call::LiveBefore(number) => ending::live_before(player, numbers, number),
        Call::LiveAfter(number) => ending::live_after(player, numbers, number),
    }
}

// The reply to one call.
pub(crate) fn reply<T: Tables>(
    alloc: Global,
    player: &mut KeeperOf<T>,
    numbers: &mut Numbers,
    call: Call,
) -> Result<Reply, AllocError> {
    match call {
        Call::Command(command) => Ok(Reply::Answer(player.call(alloc, command)?)),
        _ => other(alloc, player, numbers, call),
    }
}

// Appends the reply to a call that is no command.
#[inline(never)]
fn append_other<T: Tables>(
    alloc: Global,
    player: &mut KeeperOf<T>,
    numbers: &mut Numbers,
    call: &Call,
    replies: &mut Vec<Reply>,
) -> Result<(), AllocError> {
    let reply = other(alloc, player, numbers, *call)?;
    replies.push(reply)?;
    Ok(())
}

// Appends the reply to one call. Most calls are commands. The others append theirs out of line, so that a command
// clears no stack, and keeps none, for their replies.
#[inline(always)]
fn append<T: Tables>(
    alloc: Global,
    player: &mut KeeperOf<T>,
    numbers: &mut Numbers,
    call: &Call,
    replies: &mut Vec<Reply>,
) -> Result<(), AllocError> {
    match call {
        Call::Command(command) => {
            let answer = player.call(alloc, *command)?;
            replies.push(Reply::Answer(answer))?;
            Ok(())
        }
        _ => append_other(alloc, player, numbers, call, replies),
    }
}

/// Plays calls on an allocator of `size` units with the node limit `max_allocs`, and returns the replies in
/// order, one for each.
///
/// The limit has to be 2 to `T::Index::MAX - 2`, each alignment and each step at least 1. All replies are kept in
/// memory. Each call costs what it costs in the allocator. Calls that may slide ranges, `FirstLive`, `LastLive`,
/// `LiveBefore` and `LiveAfter` also read the grants since the last one of them: from the first of these calls on
/// 8 bytes are kept for each node that was made, and twice as many while there are more nodes than at the last.
///
/// # Errors
///
/// It fails only where an allocation fails.
///
/// # Panics
///
/// It panics unless `max_allocs` is at least 2, and `max_allocs` is at most `NI::MAX - 2`, and each
/// alignment is at least 1.
///
/// ```
/// # use offset_calls::*;
/// # let alloc = Global;
/// let calls = [Call::AllocateTight(300), Call::MakeRoom(600), Call::LastLive];
/// let replies = play_calls_of::<offset_allocator::ByField<u16>>(alloc, 1000, 16, &calls)?;
/// assert!(matches!(replies[2], Reply::Found(Some(LiveRange { number: 1, offset: 0 }))));
/// # Ok::<(), AllocError>(())
/// ```
#[track_caller]
pub fn play_calls_of<T: Tables>(
    alloc: Global,
    size: u32,
    max_allocs: u32,
    calls: &[Call],
) -> Result<Vec<Reply>, AllocError> {
    assert!(2 <= max_allocs, "max_allocs must be at least 2");
    assert!(max_allocs < T::Index::MAX - 1, "max_allocs must be at most NI::MAX - 2");
    assert!(calls.iter().all(|call| call.is_valid()), "each alignment must be at least 1");
    let mut player: KeeperOf<T> = KeeperOf::start(alloc, size, max_allocs)?;
    let mut numbers = Numbers::new(alloc);
    let mut found = Vec::with_capacity(alloc, calls.len())?;
    for call in calls {
        append(alloc, &mut player, &mut numbers, call, &mut found)?;
    }
    Ok(found)
}

/// `play_calls_of` by node, as [`Allocator`](crate::Allocator) is. The limit has to be 2 to `NI::MAX - 2`.
///
/// # Panics
///
/// It panics unless `max_allocs` is at least 2, and `max_allocs` is at most `NI::MAX - 2`, and each
/// alignment is at least 1.
///
/// ```
/// # use offset_calls::*;
/// # let alloc = Global;
/// let replies = play_calls::<u32>(alloc, 1000, 16, &[Call::AllocateTight(300), Call::Shrink(1, 200)])?;
/// assert!(matches!(replies[1], Reply::Resized));
/// # Ok::<(), AllocError>(())
/// ```
#[track_caller]
pub fn play_calls<NI: NodeIndex>(
    alloc: Global,
    size: u32,
    max_allocs: u32,
    calls: &[Call],
) -> Result<Vec<Reply>, AllocError> {
    assert!(2 <= max_allocs, "max_allocs must be at least 2");
    assert!(max_allocs < NI::MAX - 1, "max_allocs must be at most NI::MAX - 2");
    assert!(calls.iter().all(|call| call.is_valid()), "each alignment must be at least 1");
    play_calls_of::<ByNode<NI>>(alloc, size, max_allocs, calls)
}
