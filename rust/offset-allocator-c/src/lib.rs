//! The C interface of `offset-allocator-proved` and `offset-allocator-guarded`. `include/offset_allocator.h` documents
//! each function. That of `offset-allocator-heaps` is in `heaps.rs`, that of words beside tickets in `words.rs`.
//!
//! No pointer is read here by hand: an allocator is a box that C holds, a call borrows it, a walk is written into what C
//! lends, and all else goes by value. Each call tests what the library requires of its caller, so that no argument panics.

#![deny(unsafe_code)]

use core::ffi::{c_char, c_void};
use core::mem::MaybeUninit;
use core::ptr::{null, NonNull};

use offset_allocator_guarded::{next_realm, Guarded, Ticket};
use offset_allocator_proved::ext::min_allocator_size;
use offset_allocator_proved::small_float::{float_to_uint, uint_to_float_round_down, uint_to_float_round_up};
use offset_allocator_proved::{
    json_of, memory, vma_json_of, AllocError, Allocation, Allocator, AllocatorOf, Global, Move, MovePieces, Piece, Progress,
    CompactCost, ReadError, Refusal, RoomCost, Scale, StateFaultKind, Tables,
};

/// The value of a missing offset or name.
pub const NO_SPACE: u32 = u32::MAX;

/// An allocator, as C holds it. It is an array, since a box of one can be made where an allocation may fail.
pub type Space = [Allocator; 1];

/// An allocator with tickets.
pub type GuardedSpace = [Guarded; 1];

/// A ticket without its offset: a granted range, for as long as the grant lives.
#[repr(C)]
#[derive(Clone, Copy)]
pub struct Guard {
    serial: u64,
    name: u32,
    realm: u32,
}

/// A handle.
#[repr(C)]
#[derive(Clone, Copy)]
pub struct Handle {
    offset: u32,
    metadata: u32,
}

/// The short report.
#[repr(C)]
pub struct Report {
    total_free_space: u32,
    largest_free_region: u32,
}

/// How units are bytes: those of a unit, and the address of the first one.
#[repr(C)]
#[derive(Clone, Copy)]
pub struct Scaling {
    base: u64,
    unit: u64,
}

impl Scaling {
    fn scale(self) -> Scale {
        Scale { base: self.base, unit: self.unit }
    }
}

/// A number, where there is one.
#[repr(C)]
#[derive(Default)]
pub struct Scaled {
    fits: bool,
    value: u64,
}

fn scaled(value: Option<impl Into<u64>>) -> Scaled {
    value.map_or(Scaled::default(), |it| Scaled { fits: true, value: it.into() })
}

/// What is live and what is free.
#[repr(C)]
#[derive(Default)]
pub struct Totals {
    live_ranges: u32,
    live_units: u32,
    free_blocks: u32,
    free_units: u32,
    largest_free_block: u32,
    largest_free_region: u32,
    unused_nodes: u32,
}

/// How far a compaction within a budget came.
#[repr(C)]
#[derive(Default)]
pub struct Progressed {
    done: bool,
    more: bool,
    units: u32,
    ranges: u32,
    next: u32,
}

/// What has to move at least for a request.
#[repr(C)]
#[derive(Default)]
pub struct Room {
    possible: bool,
    units: u32,
    ranges: u32,
}

/// What a compaction would copy, and the largest request that would be granted then.
#[repr(C)]
#[derive(Default)]
pub struct Compaction {
    possible: bool,
    units: u32,
    ranges: u32,
    largest: u32,
}

/// Where a range would begin.
#[repr(C)]
#[derive(Default)]
pub struct Beginning {
    granted: bool,
    offset: u32,
}

/// One size class.
#[repr(C)]
#[derive(Clone, Copy)]
pub struct Region {
    size: u32,
    count: u32,
}

/// The full report.
#[repr(C)]
pub struct FullReport {
    free_regions: [Region; 256],
}

/// Why a request is refused.
#[repr(C)]
pub enum Reason {
    None,
    Nodes,
    TooLarge,
    Space,
    Fragmented,
    BadCall,
    Serials,
}

/// A range that `oa_compact` moved.
#[repr(C)]
pub struct Moved {
    from: u32,
    to: u32,
    size: u32,
    allocation: Handle,
}

/// What a block is.
#[repr(C)]
#[derive(Clone, Copy)]
pub enum Kind {
    End,
    Free,
    Used,
}

/// A block.
#[repr(C)]
#[derive(Clone, Copy)]
pub struct Block {
    kind: Kind,
    offset: u32,
    size: u32,
    allocation: Handle,
}

/// Blocks that were listed, the next one last.
pub type Blocks = [Vec<Block>; 1];

/// The bytes of a state.
pub type State = [Vec<u8>; 1];

/// A text, with a 0 behind it.
pub type Text = [String; 1];

/// What `oa_read_state`, `oag_read_state` and `oah_read_state` found.
#[repr(C)]
pub enum Found {
    Space,
    OutOfMemory,
    Length,
    Form,
    Limit,
    Counts,
    Checksum,
    Block,
    Unused,
    Free,
    Neighbours,
    Realm,
    Serial,
    Place,
    Size,
    Step,
}

/// A space that was read, or what is wrong with the bytes, and where.
#[repr(C)]
pub struct Read {
    space: Option<Box<Space>>,
    found: Found,
    at: usize,
}

/// The same of a space with tickets.
#[repr(C)]
pub struct GuardedRead {
    space: Option<Box<GuardedSpace>>,
    found: Found,
    at: usize,
}

/// A walk over the blocks of a space, in memory of the caller: `oa_walk` in the header. All zero it is at its end.
pub struct Walk<'a> {
    left: Option<offset_allocator_proved::Blocks<'a>>,
}

// the header gives it 4 numbers of 64 bits
const _: () = assert!(size_of::<Walk>() <= 32 && align_of::<Walk>() <= align_of::<u64>());

const NOTHING: Handle = Handle { offset: NO_SPACE, metadata: NO_SPACE };

fn handle(allocation: Option<Allocation>) -> Handle {
    match allocation {
        None => NOTHING,
        Some(allocation) => {
            let (offset, metadata) = allocation.to_parts();
            Handle { offset, metadata }
        }
    }
}

const NO_TICKET: Guard = Guard { serial: 0, name: NO_SPACE, realm: 0 };

fn guard(ticket: Option<Ticket>) -> Guard {
    ticket.map_or(NO_TICKET, |ticket| Guard { serial: ticket.serial(), name: ticket.name(), realm: ticket.realm() })
}

// A ticket that is never live, since no grant has the serial 0.
fn no_ticket() -> Ticket {
    Ticket::from_parts(0, 0, 0, 0).unwrap()
}

// No call reads the offset of a ticket. `NO_SPACE` is no name, so no ticket with it is live.
fn ticket(guard: Guard) -> Ticket {
    Ticket::from_parts(0, guard.name, guard.serial, guard.realm).unwrap_or_else(no_ticket)
}

// The allocation of a handle, if it is live.
fn live(space: &Allocator, handle: Handle) -> Option<Allocation> {
    Allocation::from_parts(handle.offset, handle.metadata).filter(|allocation| space.is_live(*allocation))
}

// What the header says of a block.
fn shown(block: offset_allocator_proved::Block) -> Block {
    Block {
        kind: if block.allocation.is_some() { Kind::Used } else { Kind::Free },
        offset: block.offset,
        size: block.size,
        allocation: handle(block.allocation),
    }
}

const END: Block = Block { kind: Kind::End, offset: 0, size: 0, allocation: NOTHING };

// All blocks of a space, or nothing where memory is out.
fn listed(space: &Allocator) -> Option<Box<Blocks>> {
    let mut listed = Vec::new();
    listed.try_reserve_exact(space.block_count() as usize).ok()?;
    listed.extend(space.blocks().map(shown));
    boxed(listed)
}

fn short<T: Tables>(space: &AllocatorOf<T>) -> Report {
    let report = space.storage_report();
    Report { total_free_space: report.total_free_space, largest_free_region: report.largest_free_region }
}

const NO_REPORT: Report = Report { total_free_space: 0, largest_free_region: 0 };

fn totals<T: Tables>(space: &AllocatorOf<T>) -> Totals {
    let found = space.statistics();
    Totals {
        live_ranges: found.live_ranges,
        live_units: found.live_units,
        free_blocks: found.free_blocks,
        free_units: found.free_units,
        largest_free_block: found.largest_free_block,
        largest_free_region: found.largest_free_region,
        unused_nodes: found.unused_nodes,
    }
}

fn progressed(found: Option<Progress>) -> Progressed {
    found.map_or(Progressed::default(), |Progress { units, ranges, next }| Progressed {
        done: true,
        more: next.is_some(),
        units,
        ranges,
        next: next.unwrap_or(0),
    })
}

fn room(cost: Option<RoomCost>) -> Room {
    cost.map_or(Room::default(), |cost| Room { possible: true, units: cost.units, ranges: cost.ranges })
}

fn compaction(cost: Option<CompactCost>) -> Compaction {
    match cost {
        Some(cost) => Compaction { possible: true, units: cost.units, ranges: cost.ranges, largest: cost.largest },
        None => Compaction::default(),
    }
}

fn beginning(offset: Option<u32>) -> Beginning {
    offset.map_or(Beginning::default(), |offset| Beginning { granted: true, offset })
}

fn full(space: &Allocator) -> FullReport {
    let report = space.storage_report_full();
    FullReport { free_regions: report.free_regions.map(|region| Region { size: region.size, count: region.count }) }
}

const NO_FULL_REPORT: FullReport = FullReport { free_regions: [Region { size: 0, count: 0 }; 256] };

// A box with one value, or nothing where its allocation fails.
fn boxed<T>(value: T) -> Option<Box<[T; 1]>> {
    let mut one = Vec::new();
    one.try_reserve_exact(1).ok()?;
    one.push(value);
    one.into_boxed_slice().try_into().ok()
}

fn fault(kind: StateFaultKind) -> Found {
    match kind {
        StateFaultKind::Length => Found::Length,
        StateFaultKind::Form => Found::Form,
        StateFaultKind::Limit => Found::Limit,
        StateFaultKind::Counts => Found::Counts,
        StateFaultKind::Checksum => Found::Checksum,
        StateFaultKind::Block => Found::Block,
        StateFaultKind::Unused => Found::Unused,
        StateFaultKind::Free => Found::Free,
        StateFaultKind::Neighbours => Found::Neighbours,
    }
}

fn guarded_fault(kind: offset_allocator_guarded::StateFaultKind) -> Found {
    match kind {
        offset_allocator_guarded::StateFaultKind::Length => Found::Length,
        offset_allocator_guarded::StateFaultKind::Form => Found::Form,
        offset_allocator_guarded::StateFaultKind::Realm => Found::Realm,
        offset_allocator_guarded::StateFaultKind::Step => Found::Step,
        offset_allocator_guarded::StateFaultKind::Checksum => Found::Checksum,
        offset_allocator_guarded::StateFaultKind::Serial => Found::Serial,
        offset_allocator_guarded::StateFaultKind::Allocator(kind) => fault(kind),
    }
}

// The space of these bytes, or what is wrong with them.
fn read(state: &[u8], most_allocs: u32) -> Read {
    let lost = |found, at| Read { space: None, found, at };
    match Allocator::read_state(Global, state, most_allocs) {
        Err(ReadError::Memory) => lost(Found::OutOfMemory, 0),
        Err(ReadError::Fault(wrong)) => lost(fault(wrong.kind), wrong.at),
        Ok(space) => match boxed(space) {
            None => lost(Found::OutOfMemory, 0),
            space => Read { space, found: Found::Space, at: state.len() },
        },
    }
}

fn guarded_read(state: &[u8], most_allocs: u32) -> GuardedRead {
    let lost = |found, at| GuardedRead { space: None, found, at };
    match Guarded::read_state(Global, state, most_allocs) {
        Err(ReadError::Memory) => lost(Found::OutOfMemory, 0),
        Err(ReadError::Fault(wrong)) => lost(guarded_fault(wrong.kind), wrong.at),
        Ok(space) => match boxed(space) {
            None => lost(Found::OutOfMemory, 0),
            space => GuardedRead { space, found: Found::Space, at: state.len() },
        },
    }
}

fn zeros(size: usize) -> Option<Box<State>> {
    let mut bytes = Vec::new();
    bytes.try_reserve_exact(size).ok()?;
    bytes.resize(size, 0);
    boxed(bytes)
}

// A text for C, or nothing where memory is out.
fn text(found: Result<memory::String, AllocError>) -> Option<Box<Text>> {
    let mut text = found.ok()?;
    text.push('\0').ok()?;
    boxed(text.into())
}

fn reason(refusal: Option<Refusal>) -> Reason {
    match refusal {
        None => Reason::None,
        Some(Refusal::Nodes) => Reason::Nodes,
        Some(Refusal::TooLarge) => Reason::TooLarge,
        Some(Refusal::Space) => Reason::Space,
        Some(Refusal::Fragmented) => Reason::Fragmented,
    }
}

fn guarded_reason(refusal: Option<offset_allocator_guarded::Refusal>) -> Reason {
    use offset_allocator_guarded::Refusal;
    match refusal {
        None => Reason::None,
        Some(Refusal::Serials) => Reason::Serials,
        Some(Refusal::Nodes) => Reason::Nodes,
        Some(Refusal::TooLarge) => Reason::TooLarge,
        Some(Refusal::Space) => Reason::Space,
        Some(Refusal::Fragmented) => Reason::Fragmented,
    }
}

// A fresh space with tickets of this realm, where the library admits the limit.
fn guarded_space(size: u32, max_allocs: u32, realm: u32) -> Option<Box<GuardedSpace>> {
    if !(2..=u32::MAX - 2).contains(&max_allocs) {
        return None;
    }
    boxed(Guarded::with_realm(offset_allocator_guarded::Global, size, max_allocs, realm).ok()?)
}

/// What C passes to be called with each move.
pub type Callback = extern "C" fn(Option<NonNull<c_void>>, Moved);

/// What C passes to be called with each piece of a move: from, to and size.
pub type Copying = extern "C" fn(Option<NonNull<c_void>>, u32, u32, u32);

// A move, as C sees it.
fn seen(range: Move) -> Moved {
    Moved { from: range.from, to: range.to, size: range.size, allocation: handle(Some(range.allocation())) }
}

// Calls C with each move, where it passed a function.
fn calls(moved: Option<Callback>, user: Option<NonNull<c_void>>) -> impl FnMut(Move) {
    move |range| {
        if let Some(moved) = moved {
            moved(user, seen(range));
        }
    }
}

// The functions that C calls. Where a pointer to an allocator is null, a function returns its last expression.
macro_rules! exports { ($(
    fn $name:ident$(<$life:lifetime>)?($([$space:ident: $($type:tt)*],)? $($argument:ident: $of:ty),*) -> $returned:ty { $($body:tt)* } else $other:expr;
)*) => { $(
    // the first lint is of the export's name, which a program may have only once; the others are of the form of this list
    #[allow(unsafe_code, clippy::question_mark, clippy::unused_unit)]
    #[no_mangle]
    pub extern "C" fn $name$(<$life>)?($($space: Option<$($type)*>,)? $($argument: $of),*) -> $returned {
        $(let Some([$space]) = $space else {
            return $other;
        };)?
        $($body)*
    }
)* } }

mod heaps;
mod words;

exports! {
    fn oa_new(size: u32, max_allocs: u32) -> Option<Box<Space>> {
        // the limits that the library admits
        if !(2..=u32::MAX - 2).contains(&max_allocs) {
            return None;
        }
        boxed(Allocator::with_max_allocs(Global, size, max_allocs).ok()?)
    } else ();

    fn oa_drop(space: Option<Box<Space>>) -> () { drop(space) } else ();

    fn oa_clone([space: &Space],) -> Option<Box<Space>> { boxed(space.try_clone(Global).ok()?) } else None;

    fn oa_raise_limit([space: &mut Space], max_allocs: u32) -> bool {
        if !(space.max_allocs()..=u32::MAX - 2).contains(&max_allocs) {
            return false;
        }
        match space.raised(Global, max_allocs) {
            Err(_) => false,
            Ok(raised) => {
                *space = raised;
                true
            }
        }
    } else false;

    fn oa_write_state([space: &Space],) -> Option<Box<State>> { boxed(space.write_state(Global).ok()?.into()) } else None;

    fn oa_state_new(size: usize) -> Option<Box<State>> { zeros(size) } else ();

    fn oa_state_bytes([state: &mut State],) -> Option<NonNull<u8>> { NonNull::new(state.as_mut_ptr()) } else None;

    fn oa_state_size([state: &State],) -> usize { state.len() } else 0;

    fn oa_state_drop(state: Option<Box<State>>) -> () { drop(state) } else ();

    fn oa_read_state([state: &State], most_allocs: u32) -> Read {
        read(state, most_allocs)
    } else Read { space: None, found: Found::Length, at: 0 };

    fn oa_reset([space: &mut Space],) -> () { space.reset() } else ();

    fn oa_allocate([space: &mut Space], size: u32) -> Handle { handle(space.allocate(size)) } else NOTHING;

    fn oa_allocate_aligned([space: &mut Space], size: u32, align: u32) -> Handle {
        handle(if align != 0 { space.allocate_aligned(size, align) } else { None })
    } else NOTHING;

    fn oa_allocate_tight([space: &mut Space], size: u32) -> Handle { handle(space.allocate_tight(size)) } else NOTHING;

    fn oa_allocate_tight_aligned([space: &mut Space], size: u32, align: u32) -> Handle {
        handle(if align != 0 { space.allocate_tight_aligned(size, align) } else { None })
    } else NOTHING;

    fn oa_allocate_at([space: &mut Space], offset: u32, size: u32) -> Handle {
        handle(space.allocate_at(offset, size))
    } else NOTHING;

    fn oa_is_free_at([space: &Space], offset: u32, size: u32) -> bool { space.is_free_at(offset, size) } else false;

    fn oa_live_at([space: &Space], offset: u32) -> Handle { handle(space.live_at(offset)) } else NOTHING;

    fn oa_in_the_way([space: &Space], offset: u32, size: u32) -> Handle {
        handle(space.in_the_way(offset, size))
    } else NOTHING;

    fn oa_free([space: &mut Space], allocation: Handle) -> bool {
        Allocation::from_parts(allocation.offset, allocation.metadata).is_some_and(|allocation| space.free_if_live(allocation))
    } else false;

    fn oa_is_live([space: &Space], allocation: Handle) -> bool { live(space, allocation).is_some() } else false;

    fn oa_allocation_size([space: &Space], allocation: Handle) -> u32 {
        live(space, allocation).map_or(0, |allocation| space.allocation_size(allocation))
    } else 0;

    fn oa_allocation_offset([space: &Space], allocation: Handle) -> u32 {
        live(space, allocation).and_then(|allocation| space.allocation_offset(allocation)).unwrap_or(NO_SPACE)
    } else NO_SPACE;

    fn oa_shrink([space: &mut Space], allocation: Handle, size: u32) -> bool {
        live(space, allocation).is_some_and(|allocation| space.shrink(allocation, size))
    } else false;

    fn oa_grow_in_place([space: &mut Space], allocation: Handle, size: u32) -> bool {
        live(space, allocation).is_some_and(|allocation| space.grow_in_place(allocation, size))
    } else false;

    fn oa_extend([space: &mut Space], more: u32) -> bool { space.extend(more) } else false;

    fn oa_retract([space: &mut Space], less: u32) -> bool { space.retract(less) } else false;

    fn oa_relocate([space: &mut Space], allocation: Handle) -> Handle {
        handle(live(space, allocation).and_then(|allocation| space.relocate(allocation)))
    } else NOTHING;

    fn oa_relocate_aligned([space: &mut Space], allocation: Handle, align: u32) -> Handle {
        let allocation = if align != 0 { live(space, allocation) } else { None };
        handle(allocation.and_then(|allocation| space.relocate_aligned(allocation, align)))
    } else NOTHING;

    fn oa_compact(
        [space: &mut Space],
        moved: Option<Callback>,
        user: Option<NonNull<c_void>>
    ) -> () {
        space.compact(calls(moved, user))
    } else ();

    fn oa_compact_by(
        [space: &mut Space],
        step: u32,
        moved: Option<Callback>,
        user: Option<NonNull<c_void>>
    ) -> bool {
        step != 0 && space.compact_by(step, calls(moved, user))
    } else false;

    fn oa_compact_within(
        [space: &mut Space],
        step: u32,
        from: u32,
        most_units: u32,
        most_ranges: u32,
        moved: Option<Callback>,
        user: Option<NonNull<c_void>>
    ) -> Progressed {
        if step == 0 {
            return Progressed::default();
        }
        progressed(space.compact_within(step, from, most_units, most_ranges, calls(moved, user)))
    } else Progressed::default();

    fn oa_copy_in_pieces(
        from: u32,
        to: u32,
        size: u32,
        most: u32,
        copy: Option<Copying>,
        user: Option<NonNull<c_void>>
    ) -> bool {
        // the moves that the library admits
        if most == 0 || to >= from || from.checked_add(size).is_none() {
            return false;
        }
        for Piece { from, to, size } in MovePieces::of(from, to, size, most) {
            if let Some(copy) = copy {
                copy(user, from, to, size);
            }
        }
        true
    } else false;

    fn oa_first_live([space: &Space],) -> Handle { handle(space.first_live()) } else NOTHING;

    fn oa_last_live([space: &Space],) -> Handle { handle(space.last_live()) } else NOTHING;

    fn oa_live_before([space: &Space], allocation: Handle) -> Handle {
        handle(live(space, allocation).and_then(|allocation| space.live_before(allocation)))
    } else NOTHING;

    fn oa_live_after([space: &Space], allocation: Handle) -> Handle {
        handle(live(space, allocation).and_then(|allocation| space.live_after(allocation)))
    } else NOTHING;

    fn oa_make_room(
        [space: &mut Space],
        size: u32,
        moved: Option<Callback>,
        user: Option<NonNull<c_void>>
    ) -> Room {
        room(space.make_room(size, calls(moved, user)))
    } else Room::default();

    fn oa_make_room_by(
        [space: &mut Space],
        size: u32,
        align: u32,
        step: u32,
        moved: Option<Callback>,
        user: Option<NonNull<c_void>>
    ) -> Room {
        if align == 0 || step == 0 {
            return Room::default();
        }
        room(space.make_room_by(size, align, step, calls(moved, user)))
    } else Room::default();

    fn oa_size([space: &Space],) -> u32 { space.size() } else 0;

    fn oa_max_allocs([space: &Space],) -> u32 { space.max_allocs() } else 0;

    fn oa_block_count([space: &Space],) -> u32 { space.block_count() } else 0;

    fn oa_is_full([space: &Space],) -> bool { space.is_full() } else true;

    fn oa_is_empty([space: &Space],) -> bool { space.is_empty() } else true;

    fn oa_free_units([space: &Space],) -> u32 { space.free_units() } else 0;

    fn oa_live_units([space: &Space],) -> u32 { space.live_units() } else 0;

    fn oa_statistics([space: &Space],) -> Totals { totals(space) } else Totals::default();

    fn oa_storage_report([space: &Space],) -> Report { short(space) } else NO_REPORT;

    fn oa_storage_report_full([space: &Space],) -> FullReport { full(space) } else NO_FULL_REPORT;

    fn oa_refusal([space: &Space], size: u32) -> Reason { reason(space.refusal(size)) } else Reason::BadCall;

    fn oa_refusal_aligned([space: &Space], size: u32, align: u32) -> Reason {
        if align != 0 { reason(space.refusal_aligned(size, align)) } else { Reason::BadCall }
    } else Reason::BadCall;

    fn oa_refusal_tight([space: &Space], size: u32) -> Reason { reason(space.refusal_tight(size)) } else Reason::BadCall;

    fn oa_refusal_tight_aligned([space: &Space], size: u32, align: u32) -> Reason {
        if align != 0 { reason(space.refusal_tight_aligned(size, align)) } else { Reason::BadCall }
    } else Reason::BadCall;

    fn oa_room_cost([space: &Space], size: u32) -> Room { room(space.room_cost(size)) } else Room::default();

    fn oa_room_cost_by([space: &Space], size: u32, align: u32, step: u32) -> Room {
        if align == 0 || step == 0 {
            return Room::default();
        }
        room(space.room_cost_by(size, align, step))
    } else Room::default();

    fn oa_compact_cost_by([space: &Space], step: u32) -> Compaction {
        compaction(if step != 0 { space.compact_cost_by(step) } else { None })
    } else Compaction::default();

    fn oa_would_begin([space: &Space], size: u32, align: u32) -> Beginning {
        beginning(if align != 0 { space.would_begin(size, align) } else { None })
    } else Beginning::default();

    fn oa_min_allocator_size(size: u32) -> u32 {
        if size <= 4_026_531_840 { min_allocator_size(size) } else { 0 }
    } else 0;

    fn oa_scale_units(scale: Scaling, bytes: u64) -> Scaled { scaled(scale.scale().units_of(bytes)) } else Scaled::default();

    fn oa_scale_bytes(scale: Scaling, units: u32) -> Scaled { scaled(scale.scale().bytes_of(units)) } else Scaled::default();

    fn oa_scale_address(scale: Scaling, offset: u32) -> Scaled { scaled(scale.scale().address_of(offset)) } else Scaled::default();

    fn oa_scale_offset(scale: Scaling, address: u64) -> Scaled { scaled(scale.scale().offset_at(address)) } else Scaled::default();

    fn oa_scale_align(scale: Scaling, bytes: u64) -> Scaled { scaled(scale.scale().align_of(bytes)) } else Scaled::default();

    fn oa_uint_to_float_round_up(size: u32) -> u32 { uint_to_float_round_up(size) } else 0;

    fn oa_uint_to_float_round_down(size: u32) -> u32 { uint_to_float_round_down(size) } else 0;

    fn oa_float_to_uint(class: u32) -> u32 { if class < 256 { float_to_uint(class) } else { 0 } } else 0;

    fn oa_walk_start<'a>(space: Option<&'a Space>, walk: Option<&mut MaybeUninit<Walk<'a>>>) -> () {
        if let Some(walk) = walk {
            walk.write(Walk { left: space.map(|[space]| space.blocks()) });
        }
    } else ();

    fn oa_walk_next(walk: Option<&mut Walk>) -> Block {
        walk.and_then(|walk| walk.left.as_mut()?.next()).map_or(END, shown)
    } else ();

    fn oa_blocks_new([space: &Space],) -> Option<Box<Blocks>> { listed(space) } else None;

    fn oa_blocks_next([blocks: &mut Blocks],) -> Block { blocks.pop().unwrap_or(END) } else END;

    fn oa_blocks_drop(blocks: Option<Box<Blocks>>) -> () { drop(blocks) } else ();

    fn oa_json([space: &Space],) -> Option<Box<Text>> { text(json_of(Global, space)) } else None;

    fn oa_vma_json([space: &Space],) -> Option<Box<Text>> { text(vma_json_of(Global, space)) } else None;

    fn oa_text_bytes([text: &Text],) -> *const c_char { text.as_ptr().cast() } else null();

    fn oa_text_size([text: &Text],) -> usize { text.len() - 1 } else 0;

    fn oa_text_drop(text: Option<Box<Text>>) -> () { drop(text) } else ();

    fn oag_new(size: u32, max_allocs: u32) -> Option<Box<GuardedSpace>> { guarded_space(size, max_allocs, next_realm()) } else ();

    fn oag_with_realm(size: u32, max_allocs: u32, realm: u32) -> Option<Box<GuardedSpace>> {
        guarded_space(size, max_allocs, realm)
    } else ();

    fn oag_drop(space: Option<Box<GuardedSpace>>) -> () { drop(space) } else ();

    fn oag_clone([space: &GuardedSpace],) -> Option<Box<GuardedSpace>> { boxed(space.try_clone(offset_allocator_guarded::Global).ok()?) } else None;

    fn oag_raise_limit([space: &mut GuardedSpace], max_allocs: u32) -> bool {
        if !(space.allocator().max_allocs()..=u32::MAX - 2).contains(&max_allocs) {
            return false;
        }
        match space.raised(offset_allocator_guarded::Global, max_allocs) {
            Err(_) => false,
            Ok(raised) => {
                *space = raised;
                true
            }
        }
    } else false;

    fn oag_write_state([space: &GuardedSpace],) -> Option<Box<State>> {
        boxed(space.write_state(Global).ok()?.into())
    } else None;

    fn oag_read_state([state: &State], most_allocs: u32) -> GuardedRead {
        guarded_read(state, most_allocs)
    } else GuardedRead { space: None, found: Found::Length, at: 0 };

    fn oag_is_free_at([space: &GuardedSpace], offset: u32, size: u32) -> bool {
        space.allocator().is_free_at(offset, size)
    } else false;

    fn oag_live_at([space: &GuardedSpace], offset: u32) -> Guard { guard(space.live_at(offset)) } else NO_TICKET;

    fn oag_in_the_way([space: &GuardedSpace], offset: u32, size: u32) -> Guard {
        guard(space.in_the_way(offset, size))
    } else NO_TICKET;

    fn oag_is_live([space: &GuardedSpace], allocation: Guard) -> bool { space.is_live(ticket(allocation)) } else false;

    fn oag_size_of([space: &GuardedSpace], allocation: Guard) -> u32 {
        space.size_of(ticket(allocation)).unwrap_or(0)
    } else 0;

    fn oag_offset_of([space: &GuardedSpace], allocation: Guard) -> u32 {
        space.offset_of(ticket(allocation)).unwrap_or(NO_SPACE)
    } else NO_SPACE;

    fn oag_first_live([space: &GuardedSpace],) -> Guard { guard(space.first_live()) } else NO_TICKET;

    fn oag_last_live([space: &GuardedSpace],) -> Guard { guard(space.last_live()) } else NO_TICKET;

    fn oag_live_before([space: &GuardedSpace], allocation: Guard) -> Guard {
        guard(space.live_before(ticket(allocation)))
    } else NO_TICKET;

    fn oag_live_after([space: &GuardedSpace], allocation: Guard) -> Guard {
        guard(space.live_after(ticket(allocation)))
    } else NO_TICKET;

    fn oag_size([space: &GuardedSpace],) -> u32 { space.allocator().size() } else 0;

    fn oag_max_allocs([space: &GuardedSpace],) -> u32 { space.allocator().max_allocs() } else 0;

    fn oag_block_count([space: &GuardedSpace],) -> u32 { space.allocator().block_count() } else 0;

    fn oag_is_full([space: &GuardedSpace],) -> bool { space.allocator().is_full() } else true;

    fn oag_is_empty([space: &GuardedSpace],) -> bool { space.allocator().is_empty() } else true;

    fn oag_free_units([space: &GuardedSpace],) -> u32 { space.allocator().free_units() } else 0;

    fn oag_live_units([space: &GuardedSpace],) -> u32 { space.allocator().live_units() } else 0;

    fn oag_statistics([space: &GuardedSpace],) -> Totals { totals(space.allocator()) } else Totals::default();

    fn oag_is_spent([space: &GuardedSpace],) -> bool { space.is_spent() } else true;

    fn oag_realm([space: &GuardedSpace],) -> u32 { space.realm() } else 0;

    fn oag_step([space: &GuardedSpace],) -> u32 { space.step().unwrap_or(0) } else 0;

    fn oag_ticket_of([space: &GuardedSpace], allocation: Handle) -> Guard {
        guard(Allocation::from_parts(allocation.offset, allocation.metadata).and_then(|live| space.ticket(live)))
    } else NO_TICKET;

    fn oag_walk_start<'a>(space: Option<&'a GuardedSpace>, walk: Option<&mut MaybeUninit<Walk<'a>>>) -> () {
        if let Some(walk) = walk {
            walk.write(Walk { left: space.map(|[space]| space.allocator().blocks()) });
        }
    } else ();

    fn oag_blocks_new([space: &GuardedSpace],) -> Option<Box<Blocks>> { listed(space.allocator()) } else None;

    fn oag_json([space: &GuardedSpace],) -> Option<Box<Text>> { text(json_of(Global, space.allocator())) } else None;

    fn oag_vma_json([space: &GuardedSpace],) -> Option<Box<Text>> { text(vma_json_of(Global, space.allocator())) } else None;

    fn oag_storage_report([space: &GuardedSpace],) -> Report { short(space.allocator()) } else NO_REPORT;

    fn oag_storage_report_full([space: &GuardedSpace],) -> FullReport { full(space.allocator()) } else NO_FULL_REPORT;

    fn oag_refusal([space: &GuardedSpace], size: u32) -> Reason { guarded_reason(space.refusal(size)) } else Reason::BadCall;

    fn oag_refusal_aligned([space: &GuardedSpace], size: u32, align: u32) -> Reason {
        if align != 0 { guarded_reason(space.refusal_aligned(size, align)) } else { Reason::BadCall }
    } else Reason::BadCall;

    fn oag_refusal_tight([space: &GuardedSpace], size: u32) -> Reason {
        guarded_reason(space.refusal_tight(size))
    } else Reason::BadCall;

    fn oag_refusal_tight_aligned([space: &GuardedSpace], size: u32, align: u32) -> Reason {
        if align != 0 { guarded_reason(space.refusal_tight_aligned(size, align)) } else { Reason::BadCall }
    } else Reason::BadCall;

    fn oag_room_cost([space: &GuardedSpace], size: u32) -> Room { room(space.room_cost(size)) } else Room::default();

    fn oag_compact_cost([space: &GuardedSpace],) -> Compaction { compaction(space.compact_cost()) } else Compaction::default();

    fn oag_compact_cost_by([space: &GuardedSpace], step: u32) -> Compaction {
        compaction(if step != 0 { space.compact_cost_by(step) } else { None })
    } else Compaction::default();

    fn oag_room_cost_aligned([space: &GuardedSpace], size: u32, align: u32) -> Room {
        room(if align != 0 { space.room_cost_aligned(size, align) } else { None })
    } else Room::default();

    fn oag_room_cost_unaligned([space: &GuardedSpace], size: u32) -> Room {
        room(space.allocator().room_cost(size))
    } else Room::default();

    fn oag_room_cost_by([space: &GuardedSpace], size: u32, align: u32, step: u32) -> Room {
        if align == 0 || step == 0 {
            return Room::default();
        }
        room(space.allocator().room_cost_by(size, align, step))
    } else Room::default();

    fn oag_would_begin([space: &GuardedSpace], size: u32, align: u32) -> Beginning {
        beginning(if align != 0 { space.would_begin(size, align) } else { None })
    } else Beginning::default();
}

// A call of a space with tickets, and the same on the heap of a number.
macro_rules! on_both { ($(
    fn $one:ident, $many:ident([$space:ident], $($argument:ident: $of:ty),*) -> $returned:ty { $($body:tt)* } else $other:expr;
)*) => { exports! { $(
    fn $one([$space: &mut GuardedSpace], $($argument: $of),*) -> $returned { $($body)* } else $other;

    fn $many([heaps: &mut heaps::ManyHeaps], number: u32 $(, $argument: $of)*) -> $returned {
        let Some(mut $space) = heaps.heap_mut(number) else {
            return $other;
        };
        $($body)*
    } else $other;
)* } } }

on_both! {
    fn oag_allocate, oah_heap_allocate([space], size: u32) -> Guard { guard(space.allocate(size)) } else NO_TICKET;

    fn oag_allocate_aligned, oah_heap_allocate_aligned([space], size: u32, align: u32) -> Guard {
        guard(if align != 0 { space.allocate_aligned(size, align) } else { None })
    } else NO_TICKET;

    fn oag_allocate_tight, oah_heap_allocate_tight([space], size: u32) -> Guard {
        guard(space.allocate_tight(size))
    } else NO_TICKET;

    fn oag_allocate_tight_aligned, oah_heap_allocate_tight_aligned([space], size: u32, align: u32) -> Guard {
        guard(if align != 0 { space.allocate_tight_aligned(size, align) } else { None })
    } else NO_TICKET;

    fn oag_allocate_at, oah_heap_allocate_at([space], offset: u32, size: u32) -> Guard {
        guard(space.allocate_at(offset, size))
    } else NO_TICKET;

    fn oag_free, oah_heap_free([space], allocation: Guard) -> bool { space.free(ticket(allocation)) } else false;

    fn oag_shrink, oah_heap_shrink([space], allocation: Guard, size: u32) -> bool {
        space.shrink(ticket(allocation), size).unwrap_or(false)
    } else false;

    fn oag_grow_in_place, oah_heap_grow_in_place([space], allocation: Guard, size: u32) -> bool {
        space.grow_in_place(ticket(allocation), size).unwrap_or(false)
    } else false;

    fn oag_extend, oah_heap_extend([space], more: u32) -> bool { space.extend(more) } else false;

    fn oag_retract, oah_heap_retract([space], less: u32) -> bool { space.retract(less) } else false;

    fn oag_relocate, oah_heap_relocate([space], allocation: Guard) -> Guard {
        guard(space.relocate(ticket(allocation)))
    } else NO_TICKET;

    fn oag_relocate_unaligned, oah_heap_relocate_unaligned([space], allocation: Guard) -> Guard {
        guard(space.relocate_unaligned(ticket(allocation)))
    } else NO_TICKET;

    fn oag_relocate_aligned, oah_heap_relocate_aligned([space], allocation: Guard, align: u32) -> Guard {
        guard(if align != 0 { space.relocate_aligned(ticket(allocation), align) } else { None })
    } else NO_TICKET;

    fn oag_compact, oah_heap_compact(
        [space],
        moved: Option<Callback>,
        user: Option<NonNull<c_void>>
    ) -> bool {
        space.compact(calls(moved, user))
    } else false;

    fn oag_compact_unaligned, oah_heap_compact_unaligned(
        [space],
        moved: Option<Callback>,
        user: Option<NonNull<c_void>>
    ) -> () {
        space.compact_unaligned(calls(moved, user))
    } else ();

    fn oag_compact_by, oah_heap_compact_by(
        [space],
        step: u32,
        moved: Option<Callback>,
        user: Option<NonNull<c_void>>
    ) -> bool {
        step != 0 && space.compact_by(step, calls(moved, user))
    } else false;

    fn oag_compact_within, oah_heap_compact_within(
        [space],
        from: u32,
        most_units: u32,
        most_ranges: u32,
        moved: Option<Callback>,
        user: Option<NonNull<c_void>>
    ) -> Progressed {
        progressed(space.compact_within(from, most_units, most_ranges, calls(moved, user)))
    } else Progressed::default();

    fn oag_compact_within_by, oah_heap_compact_within_by(
        [space],
        step: u32,
        from: u32,
        most_units: u32,
        most_ranges: u32,
        moved: Option<Callback>,
        user: Option<NonNull<c_void>>
    ) -> Progressed {
        if step == 0 {
            return Progressed::default();
        }
        progressed(space.compact_within_by(step, from, most_units, most_ranges, calls(moved, user)))
    } else Progressed::default();

    fn oag_make_room, oah_heap_make_room(
        [space],
        size: u32,
        moved: Option<Callback>,
        user: Option<NonNull<c_void>>
    ) -> Room {
        room(space.make_room(size, calls(moved, user)))
    } else Room::default();

    fn oag_make_room_aligned, oah_heap_make_room_aligned(
        [space],
        size: u32,
        align: u32,
        moved: Option<Callback>,
        user: Option<NonNull<c_void>>
    ) -> Room {
        if align == 0 {
            return Room::default();
        }
        room(space.make_room_aligned(size, align, calls(moved, user)))
    } else Room::default();

    fn oag_make_room_unaligned, oah_heap_make_room_unaligned(
        [space],
        size: u32,
        moved: Option<Callback>,
        user: Option<NonNull<c_void>>
    ) -> Room {
        room(space.make_room_unaligned(size, calls(moved, user)))
    } else Room::default();

    fn oag_make_room_by, oah_heap_make_room_by(
        [space],
        size: u32,
        align: u32,
        step: u32,
        moved: Option<Callback>,
        user: Option<NonNull<c_void>>
    ) -> Room {
        if align == 0 || step == 0 {
            return Room::default();
        }
        room(space.make_room_by(size, align, step, calls(moved, user)))
    } else Room::default();

    fn oag_raise_step, oah_heap_raise_step([space], align: u32) -> bool {
        if align != 0 {
            space.raise_step(align);
        }
        align != 0
    } else false;

    fn oag_reset, oah_heap_reset([space],) -> () { space.reset() } else ();
}
