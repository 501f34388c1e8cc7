//! The C interface of `offset-allocator-heaps`. `include/offset_allocator_heaps.h` documents each function.

use core::ffi::c_void;
use core::ptr::NonNull;

use offset_allocator_heaps::{json_of, Global, Granted, Heaps, Limits, Place, ReadError, Refusal, StateFaultKind};
use offset_allocator_proved::Move;

use crate::{
    boxed, calls, guard, guarded_fault, room, seen, short, text, ticket, totals, Callback, Found, Guard, GuardedSpace, Moved, Report, Room, State, Text, Totals,
    NO_REPORT, NO_SPACE, NO_TICKET,
};

/// Many heaps, as C holds them.
pub type ManyHeaps = [Heaps; 1];

/// What the heaps are, and how many there may be.
#[repr(C)]
#[derive(Clone, Copy)]
pub struct HeapLimits {
    size: u32,
    max_allocs: u32,
    most: u32,
    most_larger: u32,
    // of these 0 means size, and max_allocs
    first_size: u32,
    first_allocs: u32,
}

/// A granted range: its ticket, the number of its heap, and the realm.
#[repr(C)]
#[derive(Clone, Copy)]
pub struct At {
    ticket: Guard,
    heap: u32,
    realm: u32,
}

/// Why a request is refused.
#[repr(C)]
#[derive(Clone, Copy)]
pub enum Why {
    Granted,
    Empty,
    TooLarge,
    Full,
    Memory,
    BadCall,
}

/// What a request gets.
#[repr(C)]
#[derive(Clone, Copy)]
pub struct Answer {
    place: At,
    is_new: bool,
    refusal: Why,
}

/// What is live and what is free in all heaps.
#[repr(C)]
#[derive(Clone, Copy)]
pub struct All {
    heaps: u32,
    largest_free_region: u32,
    units: u64,
    live_units: u64,
    free_units: u64,
}

/// Heaps that were read, or what is wrong with the bytes, and where.
#[repr(C)]
pub struct HeapsRead {
    heaps: Option<Box<ManyHeaps>>,
    found: Found,
    at: usize,
}

/// What C passes to be called with the number of a heap and each move in it.
pub type HeapCallback = extern "C" fn(Option<NonNull<c_void>>, u32, Moved);

const NOWHERE: At = At { ticket: NO_TICKET, heap: NO_SPACE, realm: 0 };

const BAD_CALL: Answer = Answer { place: NOWHERE, is_new: false, refusal: Why::BadCall };

const NO_LIMITS: HeapLimits = HeapLimits { size: 0, max_allocs: 0, most: 0, most_larger: 0, first_size: 0, first_allocs: 0 };

const NOTHING_AT_ALL: All = All { heaps: 0, largest_free_region: 0, units: 0, live_units: 0, free_units: 0 };

fn at(found: Option<Place>) -> At {
    found.map_or(NOWHERE, |place| {
        // a ticket has no offset in C
        At { ticket: guard(Some(place.ticket(0))), heap: place.heap, realm: place.realm }
    })
}

fn why(refusal: Option<Refusal>) -> Why {
    match refusal {
        None => Why::Granted,
        Some(Refusal::Empty) => Why::Empty,
        Some(Refusal::TooLarge) => Why::TooLarge,
        Some(Refusal::Full) => Why::Full,
        Some(Refusal::Memory) => Why::Memory,
    }
}

fn answer(result: Result<Granted, Refusal>) -> Answer {
    match result {
        Ok(granted) => Answer { place: at(Some(granted.place)), is_new: granted.is_new, refusal: Why::Granted },
        Err(refusal) => Answer { place: NOWHERE, is_new: false, refusal: why(Some(refusal)) },
    }
}

fn place(At { ticket: guard, heap, realm }: At) -> Place {
    Place::from_ticket(heap, realm, ticket(guard))
}

// The place of a second range.
fn second(granted: Option<Granted>) -> Option<Place> {
    granted.map(|granted| granted.place)
}

// Calls C with the number of a heap and each move in it, where it passed a function.
fn calls_at(moved: Option<HeapCallback>, user: Option<NonNull<c_void>>) -> impl FnMut(u32, Move) {
    move |heap, range| {
        if let Some(moved) = moved {
            moved(user, heap, seen(range));
        }
    }
}

fn fault(kind: StateFaultKind) -> Found {
    match kind {
        StateFaultKind::Length => Found::Length,
        StateFaultKind::Form => Found::Form,
        StateFaultKind::Limits => Found::Limit,
        StateFaultKind::Counts => Found::Counts,
        StateFaultKind::Checksum => Found::Checksum,
        StateFaultKind::Place => Found::Place,
        StateFaultKind::Realm => Found::Realm,
        StateFaultKind::Size => Found::Size,
        StateFaultKind::Heap(kind) => guarded_fault(kind),
    }
}

// The heaps of these bytes, or what is wrong with them.
fn read(state: &[u8], most_heaps: u32, most_allocs: u32) -> HeapsRead {
    let lost = |found, at| HeapsRead { heaps: None, found, at };
    match Heaps::read_state(Global, state, most_heaps, most_allocs) {
        Err(ReadError::Memory) => lost(Found::OutOfMemory, 0),
        Err(ReadError::Fault(wrong)) => lost(fault(wrong.kind), wrong.at),
        Ok(heaps) => match boxed(heaps) {
            None => lost(Found::OutOfMemory, 0),
            heaps => HeapsRead { heaps, found: Found::Space, at: state.len() },
        },
    }
}

// What is left out is as large as it may be.
fn or(first: u32, largest: u32) -> u32 {
    if first == 0 { largest } else { first }
}

// No heap yet, where the library admits these limits: with a realm of C's, or with one of their own.
fn made(limits: HeapLimits, realm: Option<u32>) -> Option<Box<ManyHeaps>> {
    let HeapLimits { size, max_allocs, most, most_larger, first_size, first_allocs } = limits;
    let first_size = or(first_size, size);
    let first_allocs = or(first_allocs, max_allocs);
    let begins = first_size <= size && (max_allocs.min(8)..=max_allocs).contains(&first_allocs);
    if !begins || !(4..=u32::MAX - 2).contains(&max_allocs) || most.checked_add(most_larger).is_none() {
        return None;
    }
    let limits = Limits { size, first_size, max_allocs, first_allocs, most, most_larger };
    let heaps = match realm {
        None => Heaps::new(Global, limits),
        Some(realm) => Heaps::with_realm(Global, limits, realm),
    };
    boxed(heaps.ok()?)
}

exports! {
    fn oah_new(limits: HeapLimits) -> Option<Box<ManyHeaps>> { made(limits, None) } else ();

    fn oah_with_realm(limits: HeapLimits, realm: u32) -> Option<Box<ManyHeaps>> { made(limits, Some(realm)) } else ();

    fn oah_drop(heaps: Option<Box<ManyHeaps>>) -> () { drop(heaps) } else ();

    fn oah_clone([heaps: &ManyHeaps],) -> Option<Box<ManyHeaps>> { boxed(heaps.try_clone(Global).ok()?) } else None;

    fn oah_write_state([heaps: &ManyHeaps],) -> Option<Box<State>> {
        boxed(heaps.write_state(Global).ok()?.into())
    } else None;

    fn oah_read_state([state: &State], most_heaps: u32, most_allocs: u32) -> HeapsRead {
        read(state, most_heaps, most_allocs)
    } else HeapsRead { heaps: None, found: Found::Length, at: 0 };

    fn oah_reset([heaps: &mut ManyHeaps],) -> () { heaps.reset() } else ();

    fn oah_allocate([heaps: &mut ManyHeaps], size: u32) -> Answer { answer(heaps.allocate(size)) } else BAD_CALL;

    fn oah_allocate_aligned([heaps: &mut ManyHeaps], size: u32, align: u32) -> Answer {
        if align != 0 { answer(heaps.allocate_aligned(size, align)) } else { BAD_CALL }
    } else BAD_CALL;

    fn oah_allocate_tight([heaps: &mut ManyHeaps], size: u32) -> Answer {
        answer(heaps.allocate_tight(size))
    } else BAD_CALL;

    fn oah_allocate_tight_aligned([heaps: &mut ManyHeaps], size: u32, align: u32) -> Answer {
        if align != 0 { answer(heaps.allocate_tight_aligned(size, align)) } else { BAD_CALL }
    } else BAD_CALL;

    fn oah_free([heaps: &mut ManyHeaps], at: At) -> bool { heaps.free(place(at)) } else false;

    fn oah_is_live([heaps: &ManyHeaps], at: At) -> bool { heaps.is_live(place(at)) } else false;

    fn oah_size_of([heaps: &ManyHeaps], at: At) -> u32 { heaps.size_of(place(at)).unwrap_or(0) } else 0;

    fn oah_offset_of([heaps: &ManyHeaps], at: At) -> u32 {
        heaps.offset_of(place(at)).unwrap_or(NO_SPACE)
    } else NO_SPACE;

    fn oah_relocate([heaps: &mut ManyHeaps], from: At) -> At { at(second(heaps.relocate(place(from)))) } else NOWHERE;

    fn oah_relocate_aligned([heaps: &mut ManyHeaps], from: At, align: u32) -> At {
        if align != 0 { at(second(heaps.relocate_aligned(place(from), align))) } else { NOWHERE }
    } else NOWHERE;

    fn oah_emptiest([heaps: &ManyHeaps],) -> u32 { heaps.emptiest().unwrap_or(NO_SPACE) } else NO_SPACE;

    fn oah_last_live([heaps: &ManyHeaps], number: u32) -> At { at(heaps.last_live(number)) } else NOWHERE;

    fn oah_live_before([heaps: &ManyHeaps], from: At) -> At { at(heaps.live_before(place(from))) } else NOWHERE;

    fn oah_first_live([heaps: &ManyHeaps], number: u32) -> At { at(heaps.first_live(number)) } else NOWHERE;

    fn oah_live_after([heaps: &ManyHeaps], from: At) -> At { at(heaps.live_after(place(from))) } else NOWHERE;

    fn oah_first_place([heaps: &ManyHeaps],) -> At { at(heaps.first_place()) } else NOWHERE;

    fn oah_place_after([heaps: &ManyHeaps], from: At) -> At { at(heaps.place_after(place(from))) } else NOWHERE;

    fn oah_first_heap([heaps: &ManyHeaps],) -> u32 { heaps.first_heap().unwrap_or(NO_SPACE) } else NO_SPACE;

    fn oah_heap_after([heaps: &ManyHeaps], number: u32) -> u32 {
        heaps.heap_after(number).unwrap_or(NO_SPACE)
    } else NO_SPACE;

    fn oah_units_of_heap([heaps: &ManyHeaps], number: u32) -> u32 { heaps.units_of_heap(number).unwrap_or(0) } else 0;

    fn oah_limits_of([heaps: &ManyHeaps],) -> HeapLimits {
        let Limits { size, first_size, max_allocs, first_allocs, most, most_larger } = heaps.limits();
        HeapLimits { size, max_allocs, most, most_larger, first_size, first_allocs }
    } else NO_LIMITS;

    fn oah_shrink([heaps: &mut ManyHeaps], at: At, size: u32) -> bool {
        heaps.shrink(place(at), size).unwrap_or(false)
    } else false;

    fn oah_grow_in_place([heaps: &mut ManyHeaps], at: At, size: u32) -> bool {
        heaps.grow_in_place(place(at), size).unwrap_or(false)
    } else false;

    fn oah_refusal([heaps: &ManyHeaps], size: u32) -> Why { why(heaps.refusal(size)) } else Why::BadCall;

    fn oah_refusal_aligned([heaps: &ManyHeaps], size: u32, align: u32) -> Why {
        if align != 0 { why(heaps.refusal_aligned(size, align)) } else { Why::BadCall }
    } else Why::BadCall;

    fn oah_refusal_tight([heaps: &ManyHeaps], size: u32) -> Why { why(heaps.refusal_tight(size)) } else Why::BadCall;

    fn oah_refusal_tight_aligned([heaps: &ManyHeaps], size: u32, align: u32) -> Why {
        if align != 0 { why(heaps.refusal_tight_aligned(size, align)) } else { Why::BadCall }
    } else Why::BadCall;

    fn oah_extend_heap([heaps: &mut ManyHeaps], number: u32, more: u32) -> bool {
        heaps.extend_heap(number, more).unwrap_or(false)
    } else false;

    fn oah_compact_heap(
        [heaps: &mut ManyHeaps],
        number: u32,
        moved: Option<Callback>,
        user: Option<NonNull<c_void>>
    ) -> bool {
        heaps.compact_heap(number, &mut calls(moved, user))
    } else false;

    fn oah_compact(
        [heaps: &mut ManyHeaps],
        moved: Option<HeapCallback>,
        user: Option<NonNull<c_void>>
    ) -> bool {
        heaps.compact(calls_at(moved, user))
    } else false;

    fn oah_make_room(
        [heaps: &mut ManyHeaps],
        number: u32,
        size: u32,
        moved: Option<Callback>,
        user: Option<NonNull<c_void>>
    ) -> Room {
        room(heaps.make_room(number, size, &mut calls(moved, user)))
    } else Room::default();

    fn oah_make_room_aligned(
        [heaps: &mut ManyHeaps],
        number: u32,
        size: u32,
        align: u32,
        moved: Option<Callback>,
        user: Option<NonNull<c_void>>
    ) -> Room {
        if align != 0 { room(heaps.make_room_aligned(number, size, align, &mut calls(moved, user))) } else { Room::default() }
    } else Room::default();

    fn oah_step([heaps: &ManyHeaps], number: u32) -> u32 {
        heaps.heap(number).and_then(|heap| heap.step()).unwrap_or(0)
    } else 0;

    fn oah_give_up([heaps: &mut ManyHeaps], number: u32) -> bool { heaps.give_up(number) } else false;

    fn oah_drop_empty([heaps: &mut ManyHeaps], keep: u32) -> u32 {
        heaps.drop_empty(keep).unwrap_or(NO_SPACE)
    } else NO_SPACE;

    fn oah_drop_heap([heaps: &mut ManyHeaps], number: u32) -> bool { heaps.drop_heap(number) } else false;

    fn oah_heap<'a>([heaps: &'a ManyHeaps], number: u32) -> Option<&'a GuardedSpace> {
        heaps.heap(number).map(core::array::from_ref)
    } else None;

    fn oah_realm([heaps: &ManyHeaps],) -> u32 { heaps.realm() } else 0;

    fn oah_has([heaps: &ManyHeaps], number: u32) -> bool { heaps.heap(number).is_some() } else false;

    fn oah_storage_report([heaps: &ManyHeaps], number: u32) -> Report {
        heaps.heap(number).map_or(NO_REPORT, |heap| short(heap.allocator()))
    } else NO_REPORT;

    fn oah_statistics([heaps: &ManyHeaps], number: u32) -> Totals {
        heaps.heap(number).map_or(Totals::default(), |heap| totals(heap.allocator()))
    } else Totals::default();

    fn oah_totals([heaps: &ManyHeaps],) -> All {
        let offset_allocator_heaps::Totals { heaps, units, live_units, free_units, largest_free_region } = heaps.totals();
        All { heaps, largest_free_region, units, live_units, free_units }
    } else NOTHING_AT_ALL;

    fn oah_json([heaps: &ManyHeaps],) -> Option<Box<Text>> { text(json_of(Global, heaps)) } else None;
}
