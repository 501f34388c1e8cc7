//! That a player of calls one by one replies as those of the whole list do, by each layout, and with tickets.

use offset_allocator::{ByField, ByNode, Tables};
use offset_calls::{play_calls_of, play_guarded, Call, CallPlayer, CallPlayerOf, Global, Reply, TicketCall};
use offset_script::Command;
use std::panic::catch_unwind;

fn below(state: &mut u64, n: u32) -> u32 {
    *state = state.wrapping_mul(6_364_136_223_846_793_005).wrapping_add(1_442_695_040_888_963_407);
    ((*state >> 33) % u64::from(n)) as u32
}

fn random_call(state: &mut u64) -> Call {
    let (n, k) = (below(state, 60), below(state, 30));
    let align = if below(state, 2) == 0 { 1 << below(state, 6) } else { 1 + below(state, 50) };
    match below(state, 41) {
        0..=5 => Call::Command(Command::Alloc(n)),
        6 => Call::Command(Command::Align(n, align)),
        7..=11 => Call::Command(Command::Free(k)),
        12 => Call::Command(Command::Size(k)),
        13 => Call::Command(Command::Full),
        14 => Call::Command(Command::Report),
        15 if n < 5 => Call::Command(Command::Reset),
        15 => Call::Command(Command::Extend(n)),
        16 => Call::Shrink(k, n),
        17 => Call::Grow(k, n),
        18 => Call::Compact,
        19 => Call::Offset(k),
        20 => Call::Refusal(n),
        21 => Call::RefusalAligned(n, align),
        22 => Call::AllocateTight(n),
        23 => Call::AllocateTightAligned(n, align),
        24 => Call::RefusalTight(n),
        25 => Call::RefusalTightAligned(n, align),
        26 => Call::MakeRoom(3 * n),
        27 => Call::RoomCost(3 * n),
        28 => Call::Relocate(k),
        29 => Call::Retract(n),
        30 => Call::FirstLive,
        31 => Call::LastLive,
        32 => Call::LiveBefore(k),
        33 => Call::CompactBy(n + 1),
        34 => Call::RelocateAligned(k, align),
        35 => Call::RoomCostBy(3 * n, align, k + 1),
        36 => Call::WouldBegin(n, align),
        37 => Call::MakeRoomBy(3 * n, align, k + 1),
        38 => Call::CompactWithin(k + 1, 9 * n, 2 * n, k),
        39 => Call::AllocateAt(9 * n, k),
        _ => Call::LiveAfter(k),
    }
}

fn said(replies: &[Reply]) -> Vec<String> {
    replies.iter().map(|reply| format!("{reply:?}")).collect()
}

fn alike<T: Tables>(seed: u64) -> usize {
    let mut state = seed;
    let (size, nodes) = (below(&mut state, 600), below(&mut state, 40) + 2);
    let calls: Vec<Call> = (0..200).map(|_| random_call(&mut state)).collect();
    let whole = said(&play_calls_of::<T>(Global, size, nodes, &calls).unwrap());
    let mut player = CallPlayerOf::<T>::start(Global, size, nodes).unwrap();
    let one_by_one: Vec<Reply> = calls.iter().map(|call| player.call(Global, *call).unwrap()).collect();
    assert_eq!(said(&one_by_one), whole, "seed {seed}");
    let with_tickets: Vec<TicketCall> = calls.iter().map(|call| TicketCall { call: *call, ticket: None }).collect();
    assert_eq!(said(&play_guarded::<T>(Global, size, nodes, 7, &with_tickets).unwrap().replies), whole, "seed {seed}");
    whole.iter().filter(|it| it.starts_with("RoomMade(Some") || it.starts_with("Found(Some")).count()
}

#[test]
fn replies_are_those_of_the_list() {
    let found: usize = (0..500).map(|seed| alike::<ByNode<u32>>(seed) + alike::<ByField<u16>>(seed)).sum();
    assert!(found > 10_000, "{found}");
}

#[test]
fn conditions() {
    let start = || CallPlayer::<u16>::start(Global, 100, 16).unwrap();
    assert!(catch_unwind(|| start().call(Global, Call::AllocateTightAligned(1, 3))).is_ok());
    assert!(catch_unwind(|| start().call(Global, Call::AllocateTightAligned(1, 0))).is_err());
    assert!(catch_unwind(|| start().call(Global, Call::RelocateAligned(1, 0))).is_err());
    assert!(catch_unwind(|| start().call(Global, Call::WouldBegin(1, 0))).is_err());
    assert!(catch_unwind(|| start().call(Global, Call::RoomCostBy(1, 1, 0))).is_err());
    assert!(catch_unwind(|| start().call(Global, Call::RoomCostBy(1, 0, 1))).is_err());
    assert!(catch_unwind(|| start().call(Global, Call::RoomCostBy(1, 1, 1))).is_ok());
    assert!(catch_unwind(|| start().call(Global, Call::MakeRoomBy(1, 1, 0))).is_err());
    assert!(catch_unwind(|| start().call(Global, Call::MakeRoomBy(1, 0, 1))).is_err());
    assert!(catch_unwind(|| start().call(Global, Call::MakeRoomBy(1, 1, 1))).is_ok());
    assert!(catch_unwind(|| start().call(Global, Call::CompactWithin(0, 0, 0, 0))).is_err());
    assert!(catch_unwind(|| start().call(Global, Call::CompactWithin(1, 0, 0, 0))).is_ok());
    assert!(catch_unwind(|| start().call(Global, Call::CompactBy(0))).is_err());
    assert!(catch_unwind(|| start().call(Global, Call::CompactBy(1))).is_ok());
    assert!(catch_unwind(|| CallPlayer::<u16>::start(Global, 100, 1)).is_err());
    assert!(catch_unwind(|| CallPlayer::<u16>::start(Global, 100, 65534)).is_err());
    assert!(CallPlayer::<u16>::start(Global, 100, 65533).is_ok());
}
