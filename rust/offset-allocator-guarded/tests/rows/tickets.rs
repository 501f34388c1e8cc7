//! Tickets that are stale, freed twice, altered or of another space.

use super::asserts::{assert_same, assert_that};
use super::layouts::{check_each, Expectation, Layout};
use offset_allocator::Global;
use offset_allocator::{Move, NodeIndex, Tables};
use offset_allocator_guarded::{GuardedOf, Refusal, Ticket};

fn make<T: Tables>(size: u32, realm: u32) -> GuardedOf<T> {
    GuardedOf::with_realm(Global, size, 131_072.min(T::Index::MAX - 2), realm).expect("memory")
}

fn grant<T: Tables>(space: &mut GuardedOf<T>, size: u32) -> Ticket {
    space.allocate(size).expect("a grant")
}

// A ticket that is not live changes nothing.
fn expect_dead<T: Tables>(space: &mut GuardedOf<T>, ticket: Ticket) {
    assert_that(!space.is_live(ticket));
    assert_same(&space.size_of(ticket), &None);
    assert_same(&space.offset_of(ticket), &None);
    assert_same(&space.shrink(ticket, 0), &None);
    assert_same(&space.grow_in_place(ticket, 64), &None);
    assert_same(&space.relocate_unaligned(ticket), &None);
    assert_same(&space.relocate_aligned(ticket, 1), &None);
    assert_same(&space.live_before(ticket), &None);
    assert_same(&space.live_after(ticket), &None);
    assert_that(!space.free(ticket));
}

fn expect_altered<T: Tables>(space: &mut GuardedOf<T>, ticket: Ticket) {
    let (offset, name, serial, realm) = ticket.to_parts();
    for altered in [0, 1, 3, u64::from(u32::MAX), 1 << 32 | serial, u64::MAX] {
        expect_dead(space, Ticket::from_parts(offset, name, altered, realm).unwrap());
    }
    for altered in [1, 63, 65_535, u32::MAX - 1] {
        expect_dead(space, Ticket::from_parts(offset, altered, serial, realm).unwrap());
    }
    assert_same(&Ticket::from_parts(offset, u32::MAX, serial, realm), &None);
    expect_dead(space, Ticket::from_parts(offset, name, serial, 8).unwrap());
    // no call reads the offset
    let mut altered = Ticket::from_parts(60, name, serial, realm).unwrap();
    assert_same(&space.offset_of(altered), &Some(0));
    altered.offset = offset;
    assert_same(&altered, &ticket);
}

// The ticket has this offset, this serial and this realm.
fn expect_ticket(ticket: Ticket, offset: u32, serial: u64, realm: u32) {
    assert_same(&ticket.offset, &offset);
    assert_same(&ticket.serial(), &serial);
    assert_same(&ticket.realm(), &realm);
}

#[test]
fn a_ticket_takes_20_bytes() {
    assert_eq!((size_of::<Ticket>(), size_of::<Option<Ticket>>()), (20, 20));
}

fn stale_or_altered<T: Tables>() {
    let mut space = make::<T>(64, 7);
    let first = grant(&mut space, 8);
    expect_ticket(first, 0, 1, 7);
    assert_that(space.free(first));
    expect_dead(&mut space, first);
    let second = grant(&mut space, 8);
    expect_ticket(second, 0, 2, 7);
    // a handle of the allocator would be live again
    assert_same(&second.name(), &first.name());
    expect_dead(&mut space, first);
    expect_altered(&mut space, second);
    assert_same(&space.size_of(second), &Some(8));
    space.reset();
    expect_dead(&mut space, second);
    let third = grant(&mut space, 8);
    assert_same(&third.serial(), &3);
    expect_dead(&mut space, second);
    assert_that(space.is_live(third));
}

fn of_another_space<T: Tables>() {
    let mut left = make::<T>(64, 1);
    let mut right = make::<T>(64, 2);
    let ticket = grant(&mut left, 8);
    let other = grant(&mut right, 8);
    assert_same(&left.realm(), &1);
    assert_same(&right.realm(), &2);
    expect_dead(&mut right, ticket);
    expect_dead(&mut left, other);
    // two spaces of one realm do not distinguish their tickets
    let mut twin = make::<T>(64, 1);
    let _twin_ticket = grant(&mut twin, 8);
    assert_that(twin.is_live(ticket));
}

// Counts the units that move, from the offset 8 to the offset 0.
fn compacted<T: Tables>(space: &mut GuardedOf<T>) -> u32 {
    let mut moved = 0u32;
    space.compact_unaligned(|range: Move<T::Index>| {
        if range.from == 8 && range.to == 0 {
            moved = moved.wrapping_add(range.size);
        }
    });
    moved
}

fn of_ranges_that_change<T: Tables>() {
    let mut space = make::<T>(64, 0);
    let first = grant(&mut space, 8);
    let second = grant(&mut space, 8);
    assert_that(space.free(first));
    assert_same(&compacted(&mut space), &8);
    assert_same(&second.offset, &8);
    assert_same(&space.offset_of(second), &Some(0));
    assert_same(&space.shrink(second, 9), &Some(false));
    assert_same(&space.shrink(second, 4), &Some(true));
    assert_same(&space.grow_in_place(second, 65), &Some(false));
    assert_same(&space.grow_in_place(second, 6), &Some(true));
    assert_same(&space.size_of(second), &Some(6));
    assert_that(space.extend(10));
    assert_same(&space.allocator().size(), &74);
    let third = space.allocate_aligned(4, 32).expect("a grant");
    expect_ticket(third, 32, 3, 0);
}

// Counts the units that move by whole steps, all from one offset to another one, or finds that nothing does.
fn compacted_by<T: Tables>(space: &mut GuardedOf<T>, step: u32, from: u32, to: u32) -> Option<u32> {
    let mut moved = 0u32;
    let mut wrong = false;
    let done = space.compact_by(step, |range: Move<T::Index>| {
        wrong |= range.from != from || range.to != to;
        moved = moved.wrapping_add(range.size);
    });
    assert_that(!wrong);
    if done {
        Some(moved)
    } else {
        assert_same(&moved, &0);
        None
    }
}

// 300 units are one step of 256, and 44.
fn of_ranges_that_step<T: Tables>() {
    let mut space = make::<T>(1000, 9);
    let hole = grant(&mut space, 300);
    let mesh = grant(&mut space, 100);
    assert_same(&compacted_by(&mut space, 1, 0, 0), &Some(0));
    assert_that(space.free(hole));
    assert_same(&compacted_by(&mut space, 301, 0, 0), &Some(0));
    assert_same(&compacted_by(&mut space, 256, 300, 44), &Some(100));
    expect_ticket(mesh, 300, 2, 9);
    assert_same(&space.offset_of(mesh), &Some(44));
    assert_same(&space.size_of(mesh), &Some(100));
    expect_dead(&mut space, hole);
    let next = grant(&mut space, 44);
    expect_ticket(next, 0, 3, 9);
    expect_dead(&mut space, hole);
    assert_that(space.free(next));
    assert_same(&compacted_by(&mut space, 1, 44, 0), &Some(100));
    assert_that(space.is_live(mesh));
}

// No node is left for a free block at the end.
fn of_steps_that_are_refused<T: Tables>() {
    let full = GuardedOf::<T>::with_realm(Global, 20, 4, 9);
    let mut full = full.expect("memory");
    let first = grant(&mut full, 12);
    let second = grant(&mut full, 8);
    assert_that(full.free(first));
    let third = grant(&mut full, 5);
    assert_same(&compacted_by(&mut full, 4, 0, 0), &None);
    assert_same(&full.offset_of(second), &Some(12));
    assert_same(&full.offset_of(third), &Some(0));
    assert_same(&full.allocator().block_count(), &3);
    assert_that(full.free(third));
    assert_same(&compacted_by(&mut full, 4, 12, 0), &Some(8));
    expect_dead(&mut full, third);
    expect_ticket(grant(&mut full, 12), 8, 4, 9);
}

// A range finds a multiple of 256 before it.
fn of_ranges_at_multiples<T: Tables>() {
    let mut space = make::<T>(1000, 9);
    grant(&mut space, 10);
    let hole = grant(&mut space, 320);
    let mesh = grant(&mut space, 64);
    assert_same(&space.relocate_aligned(mesh, 256), &None);
    assert_that(space.free(hole));
    let moved = space.relocate_aligned(mesh, 256).expect("a grant");
    expect_ticket(moved, 256, 4, 9);
    assert_that(space.is_live(mesh));
    assert_same(&space.size_of(moved), &Some(64));
}

// The third range finds a place where the second one was, and the end can go.
fn of_ranges_from_the_end<T: Tables>() {
    let mut space = make::<T>(64, 9);
    assert_same(&space.last_live(), &None);
    let first = grant(&mut space, 8);
    let second = grant(&mut space, 8);
    let third = grant(&mut space, 8);
    assert_same(&space.last_live(), &Some(third));
    assert_same(&space.live_before(third), &Some(second));
    assert_same(&space.live_after(first), &Some(second));
    assert_same(&space.live_before(first), &None);
    assert_same(&space.relocate_unaligned(third), &None);
    assert_that(space.free(second));
    let fourth = space.relocate_unaligned(third).expect("a grant");
    expect_ticket(fourth, 8, 4, 9);
    assert_that(space.is_live(third));
    assert_same(&space.live_after(fourth), &Some(third));
    assert_that(space.free(third));
    expect_dead(&mut space, third);
    assert_that(!space.retract(49) && space.retract(48) && !space.retract(1));
    assert_same(&space.allocator().size(), &16);
    assert_same(&space.offset_of(fourth), &Some(8));
    // where a range moved, its present ticket has another offset
    assert_that(space.free(first));
    assert_same(&compacted(&mut space), &8);
    let mut present = fourth;
    present.offset = 0;
    assert_same(&space.last_live(), &Some(present));
}

// The tickets of the blocks of a space, from its end to its start.
fn walked<T: Tables>(space: &GuardedOf<T>) -> Vec<Option<Ticket>> {
    let mut tickets = Vec::new();
    for block in space.allocator().blocks() {
        if let Some(handle) = block.allocation {
            tickets.push(space.ticket(handle));
        }
    }
    tickets
}

fn of_a_walk<T: Tables>() {
    let mut space = make::<T>(64, 5);
    let first = grant(&mut space, 8);
    let second = grant(&mut space, 8);
    let last = space.allocator().blocks().last();
    let handle = last
        .and_then(|block| block.allocation)
        .expect("the first range");
    assert_same(
        &walked(&space).as_slice(),
        &[Some(second), Some(first)].as_slice(),
    );
    assert_same(&space.ticket(handle), &Some(first));
    assert_that(space.free(first));
    assert_same(&space.ticket(handle), &None);
}

fn requests_that_are_refused<T: Tables>() {
    assert_that(3 < T::Index::MAX);
    let full = GuardedOf::<T>::with_realm(Global, 64, 2, 0);
    let mut full = full.expect("memory");
    let why = Some(Refusal::Nodes);
    assert_that(full.allocate(1).is_none());
    assert_same(&full.refusal(1), &why);
    assert_same(&full.refusal_aligned(1, 4), &why);
}

fn requests_that_are_granted<T: Tables>() {
    let space = make::<T>(64, 0);
    assert_same(&space.refusal(64), &None);
    assert_same(&space.refusal_aligned(1, 4), &None);
    assert_that(!space.is_spent());
}

// A space with many nodes makes them as they are used.
fn nodes_that_are_made<T: Tables>() {
    let mut space = make::<T>(64, 0);
    for _ in 0..8u32 {
        let _ticket = grant(&mut space, 1);
    }
    let nodes = space.allocator().node_count();
    assert_that((9..=10).contains(&nodes));
}

struct Guards;

impl Expectation for Guards {
    fn check<T: Tables>(&self) {
        stale_or_altered::<T>();
        of_another_space::<T>();
        of_ranges_that_change::<T>();
        of_ranges_that_step::<T>();
        of_steps_that_are_refused::<T>();
        of_ranges_at_multiples::<T>();
        of_ranges_from_the_end::<T>();
        of_a_walk::<T>();
        requests_that_are_refused::<T>();
        requests_that_are_granted::<T>();
        nodes_that_are_made::<T>();
    }
}

#[test]
fn tickets() {
    check_each(&[Layout::Wide, Layout::Narrow], &Guards);
}
