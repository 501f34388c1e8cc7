//! Calls on one allocator, as rows of a table.

use super::asserts::{assert_same_at, assert_that_at, text_of};
use super::layouts::{check_each, Expectation, ALL};
use offset_allocator::laws::{
    allocation_offset_counted, first_live_counted, in_the_way_counted, is_empty_counted,
    is_free_at_counted, last_live_counted, live_after_counted, live_before_counted,
    next_block_counted, refusal_aligned_counted, refusal_counted, refusal_tight_aligned_counted,
    refusal_tight_counted, room_cost_counted, statistics_counted, undo, would_begin_counted,
};
use offset_allocator::AllocError;
use offset_allocator::Global;
use offset_allocator::{
    Accesses, Allocation, AllocatorOf, Block, Move, NodeIndex, Refusal, RoomCost, Statistics,
    StorageReportFullRegion, Tables,
};

/// A call, and what it has to return. Grants are numbered from 0.
#[derive(Clone, Copy)]
pub enum Step {
    /// A request of this size is granted at this offset.
    Grants(u32, u32),
    /// A request of this size is refused.
    Refuses(u32),
    /// A request of this size at a multiple of the second number is granted at this offset.
    Aligns(u32, u32, u32),
    /// A request of this size at a multiple of the second number is refused.
    RefusesAligned(u32, u32),
    /// A tight request of this size is granted at this offset.
    Fills(u32, u32),
    /// A tight request of this size is refused for this reason.
    FillsNot(u32, Refusal),
    /// A tight request of this size at a multiple of the second number is granted at this offset.
    FillsAligned(u32, u32, u32),
    /// A tight request of this size at a multiple of the second number is refused for this reason.
    FillsAlignedNot(u32, u32, Refusal),
    /// A request for the units from the first number on, of this size, is granted.
    At(u32, u32),
    /// A request for the units from the first number on, of this size, is refused, and nothing changes.
    NotAt(u32, u32),
    /// Whether one free block holds the units from the first number on, of this size.
    FreeAt(u32, u32, bool),
    /// The unit at this offset is one of the grant of this number, or of no live range.
    HandleAt(u32, Option<usize>),
    /// Of the live ranges in the way of the units from the first number on, of this size, the last one is the grant of this
    /// number, or there is none.
    Way(u32, u32, Option<usize>),
    /// The grant of this number has this name.
    Named(usize, u32),
    /// The grant of this number is live, is freed, and then is not live.
    Frees(usize),
    /// The same with a copy of the handle that has another offset.
    FreesAltered(usize, u32),
    /// The grant of this number is live, and has this size.
    Lives(usize, u32),
    /// The grant of this number is not live, and its range begins nowhere.
    Gone(usize),
    /// The space grows by this number of units, or refuses to.
    Extends(u32, bool),
    /// The space loses this number of units at its end, or refuses to.
    Retracts(u32, bool),
    /// The space is put under this node limit, which is at least as large.
    Raises(u32),
    /// The grant of this number gets a second range at this offset.
    Relocates(usize, u32),
    /// The grant of this number gets no second range, and nothing changes.
    Stays(usize),
    /// The grant of this number gets a second range at a multiple of the second number, at this offset.
    RelocatesAligned(usize, u32, u32),
    /// The grant of this number gets no second range at a multiple of this number, and nothing changes.
    StaysAligned(usize, u32),
    /// The grant of this number is the first live range, or none is live.
    First(Option<usize>),
    /// The grant of this number is the last live range, or none is live.
    Last(Option<usize>),
    /// Directly before and after the grant of this number are the live ranges of these.
    Beside(usize, Option<usize>, Option<usize>),
    /// The grant of this number shrinks to this size, or is refused.
    Shrinks(usize, u32, bool),
    /// The grant of this number grows in place to this size, or is refused.
    Grows(usize, u32, bool),
    /// A request of this size is granted and freed at once, or refused.
    Undoes(u32, bool),
    /// The whole space is free.
    Resets,
    /// The grants of these numbers move, in this order and no others: each from an offset to another one, with this
    /// size.
    Compacts(&'static [(usize, u32, u32, u32)]),
    /// The same by whole steps of this many units, or it is refused and nothing moves.
    CompactsBy(u32, &'static [(usize, u32, u32, u32)], bool),
    /// Room is made for a request of this size: so many units move, in so many ranges, as with `Compacts`.
    Makes(u32, u32, u32, &'static [(usize, u32, u32, u32)]),
    /// No room can be made for a request of this size, and nothing moves.
    MakesNot(u32),
    /// The range of the grant of this number begins at this offset, whatever the offset of its handle is.
    Begins(usize, u32),
    /// A request of this size is refused for this reason.
    Lacks(u32, Refusal),
    /// A request of this size at a multiple of the second number is refused for this reason.
    LacksAligned(u32, u32, Refusal),
    /// For a request of this size so many units move at least, in so many ranges.
    Costs(u32, u32, u32),
    /// For a request of this size all free units together are too few.
    CostsNot(u32),
    /// The space has this size, this many blocks, and is full or not.
    Is(u32, u32, bool),
    /// Of live ranges, their units, free blocks, their units, the largest free block, the largest region, and unused
    /// nodes there are as many.
    Sums([u32; 7]),
    /// The short report has this total, and this largest region.
    Reports(u32, u32),
    /// The full report has these classes, with their sizes and counts, and no free block besides.
    Counts(&'static [(usize, u32, u32)]),
    /// A walk yields these blocks and no others, each with its offset, its size, and the number of its grant.
    Walks(&'static [(u32, u32, Option<usize>)]),
    /// This is the text of the allocator.
    Shows(&'static str),
}

/// A step of a table: the name of the table, and how many steps come before it.
pub type Place = (&'static str, usize);

fn release<T: Tables>(at: &Place, allocator: &mut AllocatorOf<T>, handle: Allocation<T::Index>) {
    assert_that_at(at, allocator.is_live(handle));
    allocator.free(handle);
    expect_gone(at, allocator, handle);
}

fn expect_gone<T: Tables>(at: &Place, allocator: &AllocatorOf<T>, handle: Allocation<T::Index>) {
    assert_that_at(at, !allocator.is_live(handle));
    assert_same_at(at, &allocator.allocation_size(handle), &0);
    assert_same_at(at, &allocator.allocation_offset(handle), &None);
}

fn expect_live<T: Tables>(
    at: &Place,
    allocator: &AllocatorOf<T>,
    handle: Allocation<T::Index>,
    size: u32,
) {
    assert_that_at(at, allocator.is_live(handle));
    assert_same_at(at, &allocator.allocation_size(handle), &size);
}

// The public offset of a handle is a copy, and its name counts alone.
fn expect_beginning<T: Tables>(
    at: &Place,
    allocator: &AllocatorOf<T>,
    handle: Allocation<T::Index>,
    offset: u32,
) {
    let wanted = Some(offset);
    assert_same_at(at, &allocator.allocation_offset(handle), &wanted);
    let mut changed = handle;
    changed.offset = handle.offset.wrapping_add(83);
    assert_same_at(at, &allocator.allocation_offset(changed), &wanted);
    let counted = allocation_offset_counted(allocator, handle, &mut Accesses::new());
    assert_same_at(at, &counted, &wanted);
}

// Checks the result of a shrink or a growth, and the size that the handle has then.
fn expect_resized<T: Tables>(
    at: &Place,
    allocator: &mut AllocatorOf<T>,
    handle: Allocation<T::Index>,
    step: &Step,
) {
    assert_that_at(at, allocator.is_live(handle));
    let before = allocator.allocation_size(handle);
    let (found, size, done) = match step {
        Step::Shrinks(_, size, done) => (allocator.shrink(handle, *size), *size, *done),
        Step::Grows(_, size, done) => (allocator.grow_in_place(handle, *size), *size, *done),
        _ => return,
    };
    assert_same_at(at, &found, &done);
    expect_live(at, allocator, handle, if done { size } else { before });
}

// A class with free blocks is the wanted one.
fn expect_class(
    at: &Place,
    class: usize,
    region: StorageReportFullRegion,
    wanted: Option<&(usize, u32, u32)>,
) {
    match wanted {
        None => assert_that_at(at, false),
        Some((number, size, count)) => {
            assert_same_at(at, &class, number);
            assert_same_at(at, &region.size, size);
            assert_same_at(at, &region.count, count);
        }
    }
}

fn expect_counts<T: Tables>(at: &Place, allocator: &AllocatorOf<T>, wanted: &[(usize, u32, u32)]) {
    let report = allocator.storage_report_full();
    let mut found = 0usize;
    for class in 0..256usize {
        let region = report.free_regions[class];
        if region.count > 0 {
            expect_class(at, class, region, wanted.get(found));
            found = found.saturating_add(1);
        }
    }
    assert_same_at(at, &found, &wanted.len());
}

// The statistics, what else says the same, and the counted forms.
fn expect_sums<T: Tables>(at: &Place, allocator: &AllocatorOf<T>, wanted: &[u32; 7]) {
    let found = allocator.statistics();
    let wanted = Statistics {
        live_ranges: wanted[0],
        live_units: wanted[1],
        free_blocks: wanted[2],
        free_units: wanted[3],
        largest_free_block: wanted[4],
        largest_free_region: wanted[5],
        unused_nodes: wanted[6],
    };
    assert_same_at(at, &found, &wanted);
    assert_same_at(at, &allocator.live_units(), &wanted.live_units);
    assert_same_at(at, &allocator.free_units(), &wanted.free_units);
    let empty = wanted.live_ranges == 0;
    assert_same_at(at, &allocator.is_empty(), &empty);
    let mut count = Accesses::new();
    assert_same_at(at, &is_empty_counted(allocator, &mut count), &empty);
    assert_same_at(at, &statistics_counted(allocator, &mut count), &wanted);
}

// What has to move for a request, by both calls that say so.
fn expect_cost<T: Tables>(
    at: &Place,
    allocator: &AllocatorOf<T>,
    size: u32,
    wanted: Option<RoomCost>,
) {
    assert_same_at(at, &allocator.room_cost(size), &wanted);
    let counted = room_cost_counted(allocator, size, &mut Accesses::new());
    assert_same_at(at, &counted, &wanted);
}

// Where a request would begin, by both calls that say so.
fn expect_begin<T: Tables>(
    at: &Place,
    allocator: &AllocatorOf<T>,
    size: u32,
    align: u32,
    offset: Option<u32>,
) {
    assert_that_at(at, align >= 1);
    assert_same_at(at, &allocator.would_begin(size, align), &offset);
    let counted = would_begin_counted(allocator, size, align, &mut Accesses::new());
    assert_same_at(at, &counted, &offset);
}

fn request<T: Tables>(
    at: &Place,
    allocator: &mut AllocatorOf<T>,
    size: u32,
    align: u32,
) -> Option<Allocation<T::Index>> {
    assert_that_at(at, align >= 1);
    allocator.allocate_aligned(size, align)
}

// Why a tight request is refused, and that it is. All calls that say so have to agree.
fn refusal_tight<T: Tables>(
    at: &Place,
    allocator: &AllocatorOf<T>,
    size: u32,
    align: u32,
) -> Option<Refusal> {
    assert_that_at(at, align >= 1);
    let why = allocator.refusal_tight_aligned(size, align);
    let mut count = Accesses::new();
    let counted = refusal_tight_aligned_counted(allocator, size, align, &mut count);
    assert_same_at(at, &counted, &why);
    if align == 1 {
        assert_same_at(at, &allocator.refusal_tight(size), &why);
        let counted = refusal_tight_counted(allocator, size, &mut count);
        assert_same_at(at, &counted, &why);
    }
    why
}

// Makes a tight request, by the plain call where the alignment is 1.
fn fill<T: Tables>(
    at: &Place,
    allocator: &mut AllocatorOf<T>,
    size: u32,
    align: u32,
) -> Option<Allocation<T::Index>> {
    assert_that_at(at, align >= 1);
    if align == 1 {
        allocator.allocate_tight(size)
    } else {
        allocator.allocate_tight_aligned(size, align)
    }
}

fn expect_filled<T: Tables>(
    at: &Place,
    allocator: &mut AllocatorOf<T>,
    handles: &mut Vec<Allocation<T::Index>>,
    request: (u32, u32),
    offset: u32,
) {
    let (size, align) = request;
    assert_same_at(at, &refusal_tight(at, allocator, size, align), &None);
    let granted = fill(at, allocator, size, align);
    keep(at, allocator, handles, granted, size, offset);
}

fn expect_unfilled<T: Tables>(
    at: &Place,
    allocator: &mut AllocatorOf<T>,
    request: (u32, u32),
    why: Refusal,
) {
    let (size, align) = request;
    assert_same_at(at, &refusal_tight(at, allocator, size, align), &Some(why));
    assert_that_at(at, fill(at, allocator, size, align).is_none());
}

// Why a request is refused. All calls that say so have to agree.
fn refusal<T: Tables>(
    at: &Place,
    allocator: &AllocatorOf<T>,
    size: u32,
    align: u32,
) -> Option<Refusal> {
    assert_that_at(at, align >= 1);
    let why = allocator.refusal_aligned(size, align);
    let mut count = Accesses::new();
    let counted = refusal_aligned_counted(allocator, size, align, &mut count);
    assert_same_at(at, &counted, &why);
    if align == 1 {
        assert_same_at(at, &allocator.refusal(size), &why);
        let counted = refusal_counted(allocator, size, &mut count);
        assert_same_at(at, &counted, &why);
    }
    why
}

// Whether a move is the wanted one: that of a grant, from an offset to another one, with this size.
fn is_wanted<NI: NodeIndex>(
    range: &Move<NI>,
    handles: &[Allocation<NI>],
    wanted: Option<&(usize, u32, u32, u32)>,
) -> bool {
    let Some((number, from, to, size)) = wanted else {
        return false;
    };
    let Some(handle) = handles.get(*number) else {
        return false;
    };
    let mut after = *handle;
    after.offset = *to;
    range.allocation() == after && range.from == *from && range.to == *to && range.size == *size
}

fn expect_moves<T: Tables>(
    at: &Place,
    allocator: &mut AllocatorOf<T>,
    handles: &[Allocation<T::Index>],
    wanted: &[(usize, u32, u32, u32)],
) {
    let mut count = 0usize;
    let mut first_wrong = None;
    allocator.compact(|range: Move<T::Index>| {
        if first_wrong.is_none() && !is_wanted(&range, handles, wanted.get(count)) {
            first_wrong = Some((count, range.from, range.to, range.size));
        }
        count = count.saturating_add(1);
    });
    assert_same_at(at, &first_wrong, &None);
    assert_same_at(at, &count, &wanted.len());
}

fn expect_steps<T: Tables>(
    at: &Place,
    allocator: &mut AllocatorOf<T>,
    handles: &[Allocation<T::Index>],
    step: u32,
    done: bool,
    wanted: &[(usize, u32, u32, u32)],
) {
    let mut count = 0usize;
    let mut first_wrong = None;
    let found = allocator.compact_by(step, |range: Move<T::Index>| {
        if first_wrong.is_none() && !is_wanted(&range, handles, wanted.get(count)) {
            first_wrong = Some((count, range.from, range.to, range.size));
        }
        count = count.saturating_add(1);
    });
    assert_same_at(at, &found, &done);
    assert_same_at(at, &first_wrong, &None);
    assert_same_at(at, &count, &wanted.len());
}

fn expect_made<T: Tables>(
    at: &Place,
    allocator: &mut AllocatorOf<T>,
    handles: &[Allocation<T::Index>],
    size: u32,
    cost: Option<RoomCost>,
    wanted: &[(usize, u32, u32, u32)],
) {
    let mut count = 0usize;
    let mut first_wrong = None;
    let found = allocator.make_room(size, |range: Move<T::Index>| {
        if first_wrong.is_none() && !is_wanted(&range, handles, wanted.get(count)) {
            first_wrong = Some((count, range.from, range.to, range.size));
        }
        count = count.saturating_add(1);
    });
    assert_same_at(at, &found, &cost);
    assert_same_at(at, &first_wrong, &None);
    assert_same_at(at, &count, &wanted.len());
}

// Whether a block has the handle of a grant, at this offset, or none where it is free.
fn has_handle<NI: NodeIndex>(
    found: Option<Allocation<NI>>,
    handles: &[Allocation<NI>],
    number: Option<usize>,
    offset: u32,
) -> bool {
    let Some(number) = number else {
        return found.is_none();
    };
    let Some(found) = found else {
        return false;
    };
    let Some(handle) = handles.get(number) else {
        return false;
    };
    let mut now = *handle;
    now.offset = offset;
    found == now
}

// Whether a block is the wanted one: with this offset, this size, and the handle of this grant.
fn is_wanted_block<NI: NodeIndex>(
    block: Option<Block<NI>>,
    handles: &[Allocation<NI>],
    wanted: &(u32, u32, Option<usize>),
) -> bool {
    let Some(block) = block else {
        return false;
    };
    let (offset, size, number) = *wanted;
    block.offset == offset
        && block.size == size
        && has_handle(block.allocation, handles, number, offset)
}

// Each block is yielded by the walk, by a copy, which goes on from where it was made, and by a counted copy.
fn expect_walk<T: Tables>(
    at: &Place,
    allocator: &AllocatorOf<T>,
    handles: &[Allocation<T::Index>],
    wanted: &[(u32, u32, Option<usize>)],
) {
    let mut count = Accesses::new();
    let mut blocks = allocator.blocks();
    let mut left = wanted.len();
    for block in wanted {
        let (least, most) = blocks.size_hint();
        assert_same_at(at, &blocks.len(), &left);
        assert_same_at(at, &least, &left);
        assert_same_at(at, &most, &Some(left));
        let mut copy = blocks.clone();
        assert_same_at(at, &copy.len(), &left);
        assert_that_at(at, is_wanted_block(copy.next(), handles, block));
        let mut counted = blocks.clone();
        let found = next_block_counted(&mut counted, &mut count);
        assert_that_at(at, is_wanted_block(found, handles, block));
        assert_that_at(at, is_wanted_block(blocks.next(), handles, block));
        left = left.saturating_sub(1);
    }
    assert_same_at(at, &blocks.len(), &0);
    assert_that_at(at, blocks.next().is_none() && blocks.next().is_none());
    assert_that_at(at, next_block_counted(&mut blocks, &mut count).is_none());
}

fn keep<T: Tables>(
    at: &Place,
    allocator: &AllocatorOf<T>,
    handles: &mut Vec<Allocation<T::Index>>,
    granted: Option<Allocation<T::Index>>,
    size: u32,
    offset: u32,
) {
    match granted {
        None => assert_that_at(at, false),
        Some(handle) => {
            assert_same_at(at, &handle.offset, &offset);
            expect_live(at, allocator, handle, size);
            handles.push(handle);
        }
    }
}

// Whether one free block holds units from an offset on, by both calls that say so. Then nothing is in their way.
fn expect_free_at<T: Tables>(
    at: &Place,
    allocator: &AllocatorOf<T>,
    offset: u32,
    size: u32,
    wanted: bool,
) {
    assert_same_at(at, &allocator.is_free_at(offset, size), &wanted);
    let counted = is_free_at_counted(allocator, offset, size, &mut Accesses::new());
    assert_same_at(at, &counted, &wanted);
    assert_that_at(at, !wanted || allocator.in_the_way(offset, size).is_none());
}

fn expect_at<T: Tables>(
    at: &Place,
    allocator: &mut AllocatorOf<T>,
    handles: &mut Vec<Allocation<T::Index>>,
    offset: u32,
    size: u32,
) {
    expect_free_at(at, allocator, offset, size, true);
    let left = allocator.free_units().saturating_sub(size);
    let granted = allocator.allocate_at(offset, size);
    keep(at, allocator, handles, granted, size, offset);
    assert_same_at(at, &allocator.free_units(), &left);
    if size > 0 {
        assert_that_at(at, allocator.in_the_way(offset, size) == granted);
        assert_that_at(at, allocator.live_at(offset) == granted);
    }
}

// A space has one list of bytes, so they say that nothing has changed.
fn expect_not_at<T: Tables>(at: &Place, allocator: &mut AllocatorOf<T>, offset: u32, size: u32) {
    let before = allocator.write_state(Global).expect("memory");
    assert_that_at(at, allocator.allocate_at(offset, size).is_none());
    let after = allocator.write_state(Global).expect("memory");
    assert_that_at(at, *before == *after);
}

// The last live range in the way of units, by both calls that say so, with the offset that it has now.
fn expect_way<T: Tables>(
    at: &Place,
    allocator: &AllocatorOf<T>,
    handles: &[Allocation<T::Index>],
    units: (u32, u32),
    wanted: Option<usize>,
) {
    let (offset, size) = units;
    let wanted = wanted.map(|number| {
        let mut handle = grant_of(at, handles, number);
        handle.offset = allocator.allocation_offset(handle).expect("a live range");
        handle
    });
    assert_that_at(at, allocator.in_the_way(offset, size) == wanted);
    let counted = in_the_way_counted(allocator, offset, size, &mut Accesses::new());
    assert_that_at(at, counted == wanted);
    if size == 1 {
        assert_that_at(at, allocator.live_at(offset) == wanted);
    }
}

// Whether a handle is that of a grant, or there is none where none is wanted.
fn is_grant<NI: NodeIndex>(
    found: Option<Allocation<NI>>,
    handles: &[Allocation<NI>],
    wanted: Option<usize>,
) -> bool {
    match wanted {
        None => found.is_none(),
        Some(number) => match handles.get(number) {
            None => false,
            Some(handle) => found == Some(*handle),
        },
    }
}

fn expect_first<T: Tables>(
    at: &Place,
    allocator: &AllocatorOf<T>,
    handles: &[Allocation<T::Index>],
    wanted: Option<usize>,
) {
    assert_that_at(at, is_grant(allocator.first_live(), handles, wanted));
    let counted = first_live_counted(allocator, &mut Accesses::new());
    assert_that_at(at, is_grant(counted, handles, wanted));
}

fn expect_last<T: Tables>(
    at: &Place,
    allocator: &AllocatorOf<T>,
    handles: &[Allocation<T::Index>],
    wanted: Option<usize>,
) {
    assert_that_at(at, is_grant(allocator.last_live(), handles, wanted));
    let counted = last_live_counted(allocator, &mut Accesses::new());
    assert_that_at(at, is_grant(counted, handles, wanted));
}

// The live ranges beside a grant, whatever the public offset of its handle is.
fn expect_beside<T: Tables>(
    at: &Place,
    allocator: &AllocatorOf<T>,
    handles: &[Allocation<T::Index>],
    number: usize,
    wanted: (Option<usize>, Option<usize>),
) {
    let (before, after) = wanted;
    let mut handle = grant_of(at, handles, number);
    assert_that_at(at, is_grant(allocator.live_before(handle), handles, before));
    assert_that_at(at, is_grant(allocator.live_after(handle), handles, after));
    handle.offset = handle.offset.wrapping_add(83);
    let mut count = Accesses::new();
    let counted = live_before_counted(allocator, handle, &mut count);
    assert_that_at(at, is_grant(counted, handles, before));
    let counted = live_after_counted(allocator, handle, &mut count);
    assert_that_at(at, is_grant(counted, handles, after));
}

// A second range for a grant, at a multiple where one is given, which is kept; or none where no offset is wanted.
fn expect_second<T: Tables>(
    at: &Place,
    allocator: &mut AllocatorOf<T>,
    handles: &mut Vec<Allocation<T::Index>>,
    number: usize,
    align: Option<u32>,
    wanted: Option<u32>,
) {
    let handle = grant_of(at, handles, number);
    assert_that_at(at, allocator.is_live(handle));
    let size = allocator.allocation_size(handle);
    let blocks = allocator.block_count();
    let second = match align {
        None => allocator.relocate(handle),
        Some(align) => allocator.relocate_aligned(handle, align),
    };
    expect_live(at, allocator, handle, size);
    match wanted {
        Some(offset) => keep(at, allocator, handles, second, size, offset),
        None => {
            assert_that_at(at, second.is_none());
            assert_same_at(at, &allocator.block_count(), &blocks);
        }
    }
}

fn grant_of<NI: NodeIndex>(
    at: &Place,
    handles: &[Allocation<NI>],
    number: usize,
) -> Allocation<NI> {
    assert_that_at(at, number < handles.len());
    handles[number]
}

// Takes a step on the handle of a grant.
fn step_on_grant<T: Tables>(
    at: &Place,
    allocator: &mut AllocatorOf<T>,
    mut handle: Allocation<T::Index>,
    step: &Step,
) {
    match step {
        Step::FreesAltered(_, offset) => {
            handle.offset = *offset;
            release(at, allocator, handle);
        }
        Step::Lives(_, size) => expect_live(at, allocator, handle, *size),
        Step::Gone(_) => expect_gone(at, allocator, handle),
        Step::Begins(_, offset) => expect_beginning(at, allocator, handle, *offset),
        Step::Shrinks(_, _, _) | Step::Grows(_, _, _) => {
            expect_resized(at, allocator, handle, step);
        }
        _ => release(at, allocator, handle),
    }
}

// Takes a step that changes nothing, and is not on the handle of a grant.
fn observe<T: Tables>(
    at: &Place,
    allocator: &AllocatorOf<T>,
    handles: &[Allocation<T::Index>],
    step: &Step,
) {
    match step {
        Step::Lacks(size, why) => {
            assert_same_at(at, &refusal(at, allocator, *size, 1), &Some(*why));
        }
        Step::LacksAligned(size, align, why) => {
            assert_same_at(at, &refusal(at, allocator, *size, *align), &Some(*why));
        }
        Step::Costs(size, units, ranges) => {
            let (units, ranges) = (*units, *ranges);
            expect_cost(at, allocator, *size, Some(RoomCost { units, ranges }));
        }
        Step::CostsNot(size) => expect_cost(at, allocator, *size, None),
        Step::Is(size, blocks, full) => {
            assert_same_at(at, &allocator.size(), size);
            assert_same_at(at, &allocator.block_count(), blocks);
            assert_same_at(at, &allocator.is_full(), full);
        }
        Step::Sums(wanted) => expect_sums(at, allocator, wanted),
        Step::Reports(total, largest) => {
            let report = allocator.storage_report();
            assert_same_at(at, &report.total_free_space, total);
            assert_same_at(at, &report.largest_free_region, largest);
        }
        Step::Counts(wanted) => expect_counts(at, allocator, wanted),
        Step::First(number) => expect_first(at, allocator, handles, *number),
        Step::Last(number) => expect_last(at, allocator, handles, *number),
        Step::Beside(number, before, after) => {
            expect_beside(at, allocator, handles, *number, (*before, *after));
        }
        Step::Walks(wanted) => expect_walk(at, allocator, handles, wanted),
        Step::FreeAt(offset, size, wanted) => {
            expect_free_at(at, allocator, *offset, *size, *wanted);
        }
        Step::HandleAt(offset, number) => {
            expect_way(at, allocator, handles, (*offset, 1), *number);
        }
        Step::Way(offset, size, number) => {
            expect_way(at, allocator, handles, (*offset, *size), *number);
        }
        Step::Named(number, name) => {
            assert_same_at(at, &grant_of(at, handles, *number).name(), name);
        }
        Step::Shows(wanted) => {
            let text = text_of(allocator);
            assert_same_at(at, text.as_str(), wanted);
        }
        _ => assert_that_at(at, false),
    }
}

fn take<T: Tables>(
    at: &Place,
    allocator: &mut AllocatorOf<T>,
    handles: &mut Vec<Allocation<T::Index>>,
    step: &Step,
) {
    match step {
        Step::Grants(size, offset) => {
            assert_same_at(at, &refusal(at, allocator, *size, 1), &None);
            expect_begin(at, allocator, *size, 1, Some(*offset));
            let granted = allocator.allocate(*size);
            keep(at, allocator, handles, granted, *size, *offset);
        }
        Step::Refuses(size) => {
            assert_that_at(at, allocator.refusal(*size).is_some());
            expect_begin(at, allocator, *size, 1, None);
            assert_that_at(at, allocator.allocate(*size).is_none());
        }
        Step::Aligns(size, align, offset) => {
            expect_begin(at, allocator, *size, *align, Some(*offset));
            let granted = request(at, allocator, *size, *align);
            keep(at, allocator, handles, granted, *size, *offset);
        }
        Step::RefusesAligned(size, align) => {
            expect_begin(at, allocator, *size, *align, None);
            let granted = request(at, allocator, *size, *align);
            assert_that_at(at, granted.is_none());
        }
        Step::Fills(size, offset) => {
            expect_filled(at, allocator, handles, (*size, 1), *offset);
        }
        Step::FillsNot(size, why) => expect_unfilled(at, allocator, (*size, 1), *why),
        Step::FillsAligned(size, align, offset) => {
            expect_filled(at, allocator, handles, (*size, *align), *offset);
        }
        Step::FillsAlignedNot(size, align, why) => {
            expect_unfilled(at, allocator, (*size, *align), *why);
        }
        Step::At(offset, size) => expect_at(at, allocator, handles, *offset, *size),
        Step::NotAt(offset, size) => expect_not_at(at, allocator, *offset, *size),
        Step::Extends(more, grown) => {
            assert_same_at(at, &allocator.extend(*more), grown);
        }
        Step::Retracts(less, done) => {
            assert_same_at(at, &allocator.retract(*less), done);
        }
        Step::Raises(limit) => {
            *allocator = allocator.raised(Global, *limit).expect("memory");
            assert_same_at(at, &allocator.max_allocs(), limit);
        }
        Step::Relocates(number, offset) => {
            expect_second(at, allocator, handles, *number, None, Some(*offset));
        }
        Step::Stays(number) => expect_second(at, allocator, handles, *number, None, None),
        Step::RelocatesAligned(number, align, offset) => {
            expect_second(at, allocator, handles, *number, Some(*align), Some(*offset));
        }
        Step::StaysAligned(number, align) => {
            expect_second(at, allocator, handles, *number, Some(*align), None);
        }
        Step::Undoes(size, granted) => {
            assert_same_at(at, &undo(allocator, *size), granted);
        }
        Step::Resets => allocator.reset(),
        Step::Compacts(wanted) => expect_moves(at, allocator, &*handles, wanted),
        Step::CompactsBy(step, wanted, done) => {
            expect_steps(at, allocator, &*handles, *step, *done, wanted);
        }
        Step::Makes(size, units, ranges, wanted) => {
            let (units, ranges) = (*units, *ranges);
            let cost = Some(RoomCost { units, ranges });
            expect_made(at, allocator, &*handles, *size, cost, wanted);
        }
        Step::MakesNot(size) => {
            expect_made(at, allocator, &*handles, *size, None, &[]);
        }
        Step::Frees(number)
        | Step::FreesAltered(number, _)
        | Step::Shrinks(number, _, _)
        | Step::Grows(number, _, _)
        | Step::Lives(number, _)
        | Step::Begins(number, _)
        | Step::Gone(number) => {
            let handle = grant_of(at, handles, *number);
            step_on_grant(at, allocator, handle, step);
        }
        _ => observe(at, allocator, &*handles, step),
    }
}

/// Makes the calls in order.
pub fn follow<T: Tables>(name: &'static str, allocator: &mut AllocatorOf<T>, steps: &[Step]) {
    let mut handles = Vec::new();
    for (place, step) in steps.iter().enumerate() {
        take(&(name, place), allocator, &mut handles, step);
    }
}

/// How an allocator is constructed.
#[derive(Clone, Copy)]
pub enum Limit {
    /// By `new`. The calls need more than four blocks, so the third index type is left out.
    Ample,
    /// By `new`. Four blocks are enough for the calls.
    Few,
    /// By `new`, of the third index type alone.
    Least,
    /// By `with_max_allocs`, of each index type that admits this limit.
    Limited(u32),
}

/// A new allocator, or `None` where its index type does not admit the limit.
pub fn make_allocator<T: Tables>(
    size: u32,
    limit: Limit,
) -> Result<Option<AllocatorOf<T>>, AllocError> {
    let is_admitted = match limit {
        Limit::Ample => T::Index::MAX > 100,
        Limit::Few => true,
        Limit::Least => T::Index::MAX <= 100,
        Limit::Limited(limit) => {
            if limit < 2 || limit >= T::Index::MAX - 1 {
                return Ok(None);
            }
            return Ok(Some(AllocatorOf::with_max_allocs(Global, size, limit)?));
        }
    };
    if is_admitted {
        Ok(Some(AllocatorOf::new(Global, size)?))
    } else {
        Ok(None)
    }
}

// Calls on a new allocator.
struct Calls<'a> {
    name: &'static str,
    size: u32,
    limit: Limit,
    steps: &'a [Step],
}

impl Expectation for Calls<'_> {
    // The calls are made if the index type admits the limit.
    fn check<T: Tables>(&self) {
        let made = make_allocator::<T>(self.size, self.limit).expect("memory");
        if let Some(mut allocator) = made {
            follow(self.name, &mut allocator, self.steps);
        }
    }
}

// Whether the widest index type admits the limit, or there is no limit.
fn is_admitted(limit: Limit) -> bool {
    match limit {
        Limit::Limited(limit) => (2..u32::MAX - 1).contains(&limit),
        _ => true,
    }
}

/// Makes the calls in order on a new allocator, once for each index type that admits it.
pub fn expect(name: &'static str, size: u32, limit: Limit, steps: &[Step]) {
    assert_that_at(
        &("no allocator, or no calls", name),
        is_admitted(limit) && !steps.is_empty(),
    );
    let calls = Calls {
        name,
        size,
        limit,
        steps,
    };
    check_each(&ALL, &calls);
}

/// A new space, and calls on it.
pub struct Case {
    pub name: &'static str,
    pub size: u32,
    pub limit: Limit,
    pub steps: &'static [Step],
}

/// Makes the calls of each case.
pub fn expect_all(cases: &[Case]) {
    for case in cases {
        expect(case.name, case.size, case.limit, case.steps);
    }
}
