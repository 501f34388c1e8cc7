//! 40,000 random histories of the calls that change a space, over a million calls, on an allocator of each layout and index
//! type, with handles and with tickets, and on a plain list of blocks that is written for this test, from the words of the
//! documents alone. They have to agree in every result, in every move of `compact`, in both reports and the statistics, and
//! in what is live and free after each call. A buffer has a pattern for each live range, and is copied as the moves say.

#[path = "../../random.rs"]
mod random;

use offset_allocator::{Allocation, AllocatorOf, ByField, ByNode, Global, Refusal, Tables};
use offset_allocator_guarded::{self as guarded, GuardedOf, Ticket};
use random::Random;
use std::fmt::Debug;

const HISTORIES: u64 = 40_000;
const MOST_CALLS: u32 = 60;
const THREADS: u64 = 4;
/// A space of more units has no buffer.
const LARGEST_BUFFER: u32 = 4096;

impl Random {
    /// A number of units: often small, sometimes none, sometimes far too many.
    fn units(&mut self, space: u32) -> u32 {
        match self.below(16) {
            0 => 0,
            1 => self.next() as u32,
            2..=6 => self.below(8),
            _ => self.below(space / 6 + 2),
        }
    }
}

/// The value of each size class: 0 to 7, and then eight in each power of two.
const VALUES: [u32; 240] = {
    let mut values = [0; 240];
    let mut class = 0;
    while class < 240 {
        values[class] = if class < 8 { class as u32 } else { (8 + class as u32 % 8) << (class / 8 - 1) };
        class += 1;
    }
    values
};

/// The class of a free block: the largest one whose value is at most its size.
fn class_of(size: u32) -> usize {
    VALUES.partition_point(|value| *value <= size) - 1
}

/// The smallest class all of whose blocks have at least these units.
fn class_for(units: u32) -> usize {
    VALUES.partition_point(|value| *value < units)
}

/// A space whose grants are handles, or tickets.
trait Space {
    type Layout: Tables;
    type Grant: Copy + PartialEq + Debug;
    /// Whether a grant that is freed is never live again.
    const IS_GUARDED: bool;

    fn new(size: u32, limit: u32) -> Self;
    fn allocator(&self) -> &AllocatorOf<Self::Layout>;
    fn refusal(&self, size: u32, align: u32) -> Option<Refusal>;
    fn allocate(&mut self, size: u32, align: u32) -> Option<Self::Grant>;
    fn refusal_tight(&self, size: u32, align: u32) -> Option<Refusal>;
    fn allocate_tight(&mut self, size: u32, align: u32) -> Option<Self::Grant>;
    /// Requests these units from this offset on.
    fn allocate_at(&mut self, offset: u32, size: u32) -> Option<Self::Grant>;
    fn in_the_way(&self, offset: u32, size: u32) -> Option<Self::Grant>;
    /// The live range that has this unit.
    fn live_at(&self, offset: u32) -> Option<Self::Grant>;
    fn free(&mut self, grant: Self::Grant);
    fn shrink(&mut self, grant: Self::Grant, size: u32) -> bool;
    fn grow_in_place(&mut self, grant: Self::Grant, size: u32) -> bool;
    fn extend(&mut self, more: u32) -> bool;
    fn reset(&mut self);
    /// The moves: from, to, size, and the grant after.
    fn compact(&mut self, moved: impl FnMut(u32, u32, u32)) -> Vec<Option<Self::Grant>>;
    fn is_live(&self, grant: Self::Grant) -> bool;
    /// The size and the offset of a live range.
    fn range(&self, grant: Self::Grant) -> Option<(u32, u32)>;
    /// The grant of a handle.
    fn grant(&self, handle: Handle<Self>) -> Option<Self::Grant>;
    /// A grant with another offset.
    fn at(grant: Self::Grant, offset: u32) -> Self::Grant;
}

type Handle<S> = Allocation<<<S as Space>::Layout as Tables>::Index>;

impl<T: Tables> Space for AllocatorOf<T> {
    type Layout = T;
    type Grant = Allocation<T::Index>;
    const IS_GUARDED: bool = false;

    fn new(size: u32, limit: u32) -> Self {
        AllocatorOf::with_max_allocs(Global, size, limit).unwrap()
    }

    fn allocator(&self) -> &AllocatorOf<T> {
        self
    }

    fn refusal(&self, size: u32, align: u32) -> Option<Refusal> {
        if align == 1 {
            assert_eq!(self.refusal(size), self.refusal_aligned(size, 1));
        }
        self.refusal_aligned(size, align)
    }

    fn allocate(&mut self, size: u32, align: u32) -> Option<Self::Grant> {
        if align == 1 {
            self.allocate(size)
        } else {
            self.allocate_aligned(size, align)
        }
    }

    fn refusal_tight(&self, size: u32, align: u32) -> Option<Refusal> {
        if align == 1 {
            assert_eq!(self.refusal_tight(size), self.refusal_tight_aligned(size, 1));
        }
        self.refusal_tight_aligned(size, align)
    }

    fn allocate_tight(&mut self, size: u32, align: u32) -> Option<Self::Grant> {
        if align == 1 {
            self.allocate_tight(size)
        } else {
            self.allocate_tight_aligned(size, align)
        }
    }

    fn allocate_at(&mut self, offset: u32, size: u32) -> Option<Self::Grant> {
        self.allocate_at(offset, size)
    }

    fn in_the_way(&self, offset: u32, size: u32) -> Option<Self::Grant> {
        self.in_the_way(offset, size)
    }

    fn live_at(&self, offset: u32) -> Option<Self::Grant> {
        self.live_at(offset)
    }

    fn free(&mut self, grant: Self::Grant) {
        self.free(grant);
    }

    fn shrink(&mut self, grant: Self::Grant, size: u32) -> bool {
        self.shrink(grant, size)
    }

    fn grow_in_place(&mut self, grant: Self::Grant, size: u32) -> bool {
        self.grow_in_place(grant, size)
    }

    fn extend(&mut self, more: u32) -> bool {
        self.extend(more)
    }

    fn reset(&mut self) {
        self.reset();
    }

    fn compact(&mut self, mut moved: impl FnMut(u32, u32, u32)) -> Vec<Option<Self::Grant>> {
        let mut found = Vec::new();
        self.compact(|range| {
            moved(range.from, range.to, range.size);
            found.push(Some(range.allocation()));
        });
        found
    }

    fn is_live(&self, grant: Self::Grant) -> bool {
        self.is_live(grant)
    }

    fn range(&self, grant: Self::Grant) -> Option<(u32, u32)> {
        let offset = self.allocation_offset(grant)?;
        Some((self.allocation_size(grant), offset))
    }

    fn grant(&self, handle: Allocation<T::Index>) -> Option<Self::Grant> {
        Some(handle)
    }

    fn at(mut grant: Self::Grant, offset: u32) -> Self::Grant {
        grant.offset = offset;
        grant
    }
}

fn of_allocator(why: guarded::Refusal) -> Refusal {
    match why {
        guarded::Refusal::Nodes => Refusal::Nodes,
        guarded::Refusal::TooLarge => Refusal::TooLarge,
        guarded::Refusal::Space => Refusal::Space,
        guarded::Refusal::Fragmented => Refusal::Fragmented,
        guarded::Refusal::Serials => panic!("some serials are left"),
    }
}

impl<T: Tables> Space for GuardedOf<T> {
    type Layout = T;
    type Grant = Ticket;
    const IS_GUARDED: bool = true;

    fn new(size: u32, limit: u32) -> Self {
        GuardedOf::with_realm(Global, size, limit, 7).unwrap()
    }

    fn allocator(&self) -> &AllocatorOf<T> {
        self.allocator()
    }

    fn refusal(&self, size: u32, align: u32) -> Option<Refusal> {
        let why = self.refusal_aligned(size, align);
        if align == 1 {
            assert_eq!(self.refusal(size), why);
        }
        why.map(of_allocator)
    }

    fn allocate(&mut self, size: u32, align: u32) -> Option<Ticket> {
        if align == 1 {
            self.allocate(size)
        } else {
            self.allocate_aligned(size, align)
        }
    }

    fn refusal_tight(&self, size: u32, align: u32) -> Option<Refusal> {
        let why = self.refusal_tight_aligned(size, align);
        if align == 1 {
            assert_eq!(self.refusal_tight(size), why);
        }
        why.map(of_allocator)
    }

    fn allocate_tight(&mut self, size: u32, align: u32) -> Option<Ticket> {
        if align == 1 {
            self.allocate_tight(size)
        } else {
            self.allocate_tight_aligned(size, align)
        }
    }

    fn allocate_at(&mut self, offset: u32, size: u32) -> Option<Ticket> {
        self.allocate_at(offset, size)
    }

    fn in_the_way(&self, offset: u32, size: u32) -> Option<Ticket> {
        self.in_the_way(offset, size)
    }

    fn live_at(&self, offset: u32) -> Option<Ticket> {
        self.live_at(offset)
    }

    fn free(&mut self, grant: Ticket) {
        assert!(self.free(grant));
        assert!(!self.free(grant), "a second time it changes nothing");
    }

    fn shrink(&mut self, grant: Ticket, size: u32) -> bool {
        self.shrink(grant, size).unwrap()
    }

    fn grow_in_place(&mut self, grant: Ticket, size: u32) -> bool {
        self.grow_in_place(grant, size).unwrap()
    }

    fn extend(&mut self, more: u32) -> bool {
        self.extend(more)
    }

    fn reset(&mut self) {
        self.reset();
    }

    fn compact(&mut self, mut moved: impl FnMut(u32, u32, u32)) -> Vec<Option<Ticket>> {
        let mut found = Vec::new();
        self.compact_unaligned(|range| {
            moved(range.from, range.to, range.size);
            found.push(range.allocation());
        });
        found.into_iter().map(|handle| self.ticket(handle)).collect()
    }

    fn is_live(&self, grant: Ticket) -> bool {
        self.is_live(grant)
    }

    fn range(&self, grant: Ticket) -> Option<(u32, u32)> {
        let (size, offset) = (self.size_of(grant), self.offset_of(grant));
        Some((size?, offset?))
    }

    fn grant(&self, handle: Allocation<T::Index>) -> Option<Ticket> {
        self.ticket(handle)
    }

    fn at(mut grant: Ticket, offset: u32) -> Ticket {
        grant.offset = offset;
        grant
    }
}

/// A live range: its grant, with the offset of when it was made, and the number of its pattern.
#[derive(Clone, Copy)]
struct Range<G> {
    grant: G,
    number: u64,
}

#[derive(Clone, Copy)]
struct Block<G> {
    size: u32,
    live: Option<Range<G>>,
    /// When it became free. Of one class, the newest block is taken first.
    stamp: u64,
}

/// The blocks of a space in its order.
#[derive(Clone)]
struct Model<G> {
    limit: usize,
    blocks: Vec<Block<G>>,
    time: u64,
}

impl<G: Copy> Model<G> {
    fn free_block(&mut self, size: u32) -> Block<G> {
        self.time += 1;
        Block { size, live: None, stamp: self.time }
    }

    fn size(&self) -> u32 {
        self.blocks.iter().map(|block| block.size).sum()
    }

    fn offset(&self, place: usize) -> u32 {
        self.blocks[..place].iter().map(|block| block.size).sum()
    }

    fn admits_blocks(&self, more: u32) -> bool {
        self.blocks.len() + (more as usize) < self.limit
    }

    /// Coalesces a free block with its free neighbours.
    fn coalesce(&mut self, place: usize) {
        let is_free = |block: Option<&Block<G>>| block.is_some_and(|block| block.live.is_none());
        let start = if place > 0 && is_free(self.blocks.get(place - 1)) { place - 1 } else { place };
        let end = if is_free(self.blocks.get(place + 1)) { place + 2 } else { place + 1 };
        let whole = self.blocks[start..end].iter().map(|block| block.size).sum();
        let whole = self.free_block(whole);
        self.blocks.splice(start..end, [whole]);
    }

    /// Grants a request, and returns the place of its block, which has no handle yet.
    fn request(&mut self, size: u32, align: u32) -> Option<usize> {
        let needed = size.checked_add(align - 1)?;
        if !self.admits_blocks(align.min(2)) {
            return None;
        }
        let is_fitting = |block: &Block<G>| block.live.is_none() && class_for(needed) <= class_of(block.size);
        let fitting = (0..self.blocks.len()).filter(|place| is_fitting(&self.blocks[*place]));
        let place = fitting.min_by_key(|place| self.rank(*place))?;
        Some(self.split(place, size, align))
    }

    /// The same for a tight request.
    fn request_tight(&mut self, size: u32, align: u32) -> Option<usize> {
        if let Some(place) = self.request(size, align) {
            return Some(place);
        }
        if !self.admits_blocks(align.min(2)) {
            return None;
        }
        let is_fitting = |place: &usize| {
            let block = &self.blocks[*place];
            block.live.is_none() && u64::from(self.padding(*place, align)) + u64::from(size) <= u64::from(block.size)
        };
        let place = (0..self.blocks.len()).filter(is_fitting).min_by_key(|place| self.rank(*place))?;
        Some(self.split(place, size, align))
    }

    /// The free block of the least rank is taken.
    fn rank(&self, place: usize) -> (usize, u64) {
        (class_of(self.blocks[place].size), u64::MAX - self.blocks[place].stamp)
    }

    fn padding(&self, place: usize, align: u32) -> u32 {
        (align - self.offset(place) % align) % align
    }

    /// Splits a free block at a multiple, and returns the place of the one of `size` units.
    fn split(&mut self, place: usize, size: u32, align: u32) -> usize {
        self.cut(place, self.padding(place, align), size)
    }

    /// The place of the last free block that has these units from this offset on.
    fn free_at(&self, offset: u32, size: u32) -> Option<usize> {
        let (begin, end) = (u64::from(offset), u64::from(offset) + u64::from(size));
        let holds = |place: &usize| {
            let block = &self.blocks[*place];
            let first = u64::from(self.offset(*place));
            block.live.is_none() && first <= begin && end <= first + u64::from(block.size)
        };
        (0..self.blocks.len()).rev().find(holds)
    }

    /// Grants a request for these units from this offset on, as `request` does.
    fn request_at(&mut self, offset: u32, size: u32) -> Option<usize> {
        let place = self.free_at(offset, size)?;
        let padding = offset - self.offset(place);
        let added = u32::from(padding > 0) + u32::from(padding + size < self.blocks[place].size);
        self.admits_blocks(added.max(1)).then(|| self.cut(place, padding, size))
    }

    /// The place of the last live range that has one of these units, or, where either has no unit, lies within the other.
    fn in_the_way(&self, offset: u32, size: u32) -> Option<usize> {
        let (begin, end) = (u64::from(offset), u64::from(offset) + u64::from(size));
        let is_in_the_way = |place: &usize| {
            let (first, units) = (u64::from(self.offset(*place)), u64::from(self.blocks[*place].size));
            let last = first + units;
            self.blocks[*place].live.is_some()
                && if size == 0 {
                    first < begin && begin < last
                } else if units == 0 {
                    begin < first && first < end
                } else {
                    begin.max(first) < end.min(last)
                }
        };
        (0..self.blocks.len()).rev().find(is_in_the_way)
    }

    /// Splits a free block behind these units, and returns the place of the one of `size` units.
    fn cut(&mut self, place: usize, padding: u32, size: u32) -> usize {
        let rest = self.blocks[place].size - padding - size;
        let padding_block = self.free_block(padding);
        let rest_block = self.free_block(rest);
        self.blocks[place].size = size;
        if rest > 0 {
            self.blocks.insert(place + 1, rest_block);
        }
        if padding > 0 {
            self.blocks.insert(place, padding_block);
        }
        place + usize::from(padding > 0)
    }

    fn free(&mut self, place: usize) {
        self.blocks[place].live = None;
        self.coalesce(place);
    }

    /// Makes a live block one of `size` units, with those of the free block after it. Whether that can be done.
    fn resize(&mut self, place: usize, size: u32) -> bool {
        let next = self.blocks.get(place + 1).filter(|next| next.live.is_none()).copied();
        let left = u64::from(self.blocks[place].size) + u64::from(next.map_or(0, |next| next.size));
        let needs_block = next.is_none() && size < self.blocks[place].size;
        if u64::from(size) > left || needs_block && !self.admits_blocks(1) {
            return false;
        }
        if size == self.blocks[place].size {
            return true;
        }
        if next.is_some() {
            self.blocks.remove(place + 1);
        }
        let rest = left as u32 - size;
        self.blocks[place].size = size;
        if rest > 0 {
            let rest = self.free_block(rest);
            self.blocks.insert(place + 1, rest);
        }
        true
    }

    fn extend(&mut self, more: u32) -> bool {
        if more == 0 {
            return true;
        }
        if more > u32::MAX - self.size() || self.blocks.last().unwrap().live.is_some() && !self.admits_blocks(1) {
            return false;
        }
        let added = self.free_block(more);
        self.blocks.push(added);
        self.coalesce(self.blocks.len() - 1);
        true
    }

    fn reset(&mut self) {
        self.blocks = vec![self.free_block(self.size())];
    }

    /// The moves: from, to, size, and the grant that is moved.
    fn compact(&mut self) -> Vec<(u32, u32, u32, G)> {
        let (mut from, mut to, mut moves) = (0, 0, Vec::new());
        for block in &self.blocks {
            if let Some(range) = block.live {
                if from != to {
                    moves.push((from, to, block.size, range.grant));
                }
                to += block.size;
            }
            from += block.size;
        }
        if self.blocks.iter().any(|block| block.live.is_none()) {
            let all = self.free_block(from - to);
            self.blocks.retain(|block| block.live.is_some());
            self.blocks.push(all);
        }
        moves
    }

    /// Why a request is refused, by what helps: a fresh space of this size, or a compaction.
    fn refusal(&self, size: u32, align: u32) -> Option<Refusal> {
        if !self.admits_blocks(align.min(2)) {
            return Some(Refusal::Nodes);
        }
        let (mut fresh, mut compacted) = (self.clone(), self.clone());
        fresh.reset();
        compacted.compact();
        if self.clone().request(size, align).is_some() {
            None
        } else if fresh.request(size, align).is_none() {
            Some(Refusal::TooLarge)
        } else if compacted.request(size, align).is_none() {
            Some(Refusal::Space)
        } else {
            Some(Refusal::Fragmented)
        }
    }

    /// Why a tight request is refused.
    fn refusal_tight(&self, size: u32, align: u32) -> Option<Refusal> {
        if !self.admits_blocks(align.min(2)) {
            return Some(Refusal::Nodes);
        }
        let (mut fresh, mut compacted) = (self.clone(), self.clone());
        fresh.reset();
        compacted.compact();
        if self.clone().request_tight(size, align).is_some() {
            None
        } else if fresh.request_tight(size, align).is_none() {
            Some(Refusal::TooLarge)
        } else if self.free_units() < size.max(1) {
            Some(Refusal::Space)
        } else {
            // after a move the free block begins elsewhere, perhaps with more units before a multiple of `align`
            assert!(compacted.request_tight(size, 1).is_some());
            Some(Refusal::Fragmented)
        }
    }

    /// The free units and the value of the largest class with a free block, as `storage_report` has them.
    fn report(&self) -> (u32, u32) {
        if !self.admits_blocks(1) {
            return (0, 0);
        }
        let free = self.blocks.iter().filter(|block| block.live.is_none());
        (self.free_units(), free.map(|block| VALUES[class_of(block.size)]).max().unwrap_or(0))
    }

    fn free_units(&self) -> u32 {
        self.blocks.iter().filter(|block| block.live.is_none()).map(|block| block.size).sum()
    }

    /// The size of a block, or a little less.
    fn any_size(&self, random: &mut Random) -> u32 {
        let block = &self.blocks[random.below(self.blocks.len() as u32) as usize];
        block.size.saturating_sub(random.below(4))
    }

    /// All units of a block; or an offset beside its start, or any one, and units up to its end, or any.
    fn any_place(&self, random: &mut Random) -> (u32, u32) {
        let place = random.below(self.blocks.len() as u32) as usize;
        let (begin, block) = (self.offset(place), self.blocks[place].size);
        if random.below(6) == 0 {
            return (begin, block);
        }
        let offset = match random.below(8) {
            0 => random.next() as u32,
            1 => begin.saturating_sub(random.below(4)),
            2..=4 => begin.saturating_add(random.below(4)),
            _ => begin + random.below(block.saturating_add(1)),
        };
        let to_its_end = begin.saturating_add(block).saturating_sub(offset);
        let size = match random.below(4) {
            0 => random.units(self.size()),
            1 => to_its_end,
            2 => to_its_end.saturating_sub(random.below(4)).saturating_add(random.below(3)),
            _ => random.below(to_its_end.saturating_add(1)),
        };
        (offset, size)
    }

    /// The places of the live ranges.
    fn live(&self) -> Vec<usize> {
        (0..self.blocks.len()).filter(|place| self.blocks[*place].live.is_some()).collect()
    }
}

/// Byte `i` of the range of this number.
fn byte(number: u64, i: u32) -> u8 {
    (number.wrapping_mul(0x9e37_79b9_7f4a_7c15) >> (i % 8 * 8)) as u8 ^ (i / 8) as u8
}

/// What the histories had, so that none of it is missing.
#[derive(Default, Debug)]
struct Met {
    calls: u64,
    /// Tickets that were tried after their end.
    stale: u64,
    grants: u64,
    /// Grants of tight requests that a plain one would not have had.
    tight_grants: u64,
    refusals: u64,
    /// By the four reasons, of plain requests and of tight ones.
    reasons: [[u64; 4]; 2],
    moves: u64,
    overlapping_moves: u64,
    compacted_at_the_limit: u64,
    shrunk: u64,
    grown: u64,
    /// Requests at an offset: granted with 0 to 2 blocks added, refused for nodes, or since no free block holds them, and
    /// those for which a live range is in the way.
    at_grants: [u64; 3],
    at_no_nodes: u64,
    at_refusals: u64,
    in_the_way: u64,
}

struct Pair<S: Space> {
    space: S,
    model: Model<S::Grant>,
    buffer: Option<Vec<u8>>,
    grants: u64,
    /// Some grants that were freed.
    gone: Vec<S::Grant>,
}

impl<S: Space> Pair<S> {
    fn new(size: u32, limit: u32) -> Self {
        let first = Block { size, live: None, stamp: 0 };
        Pair {
            space: S::new(size, limit),
            model: Model { limit: limit as usize, blocks: vec![first], time: 0 },
            buffer: (size <= LARGEST_BUFFER).then(|| vec![0; size as usize]),
            grants: 0,
            gone: Vec::new(),
        }
    }

    fn allocate(&mut self, size: u32, align: u32, is_tight: bool, met: &mut Met) {
        let plain = self.space.refusal(size, align);
        assert_eq!(plain, self.model.refusal(size, align));
        let tight = self.space.refusal_tight(size, align);
        assert_eq!(tight, self.model.refusal_tight(size, align));
        let why = if is_tight { tight } else { plain };
        let found = if is_tight { self.space.allocate_tight(size, align) } else { self.space.allocate(size, align) };
        assert_eq!(found.is_none(), why.is_some());
        met.tight_grants += u64::from(found.is_some() && plain.is_some());
        if let Some(why) = why {
            met.reasons[usize::from(is_tight)][why as usize] += 1;
        }
        let expected = if is_tight { self.model.request_tight(size, align) } else { self.model.request(size, align) };
        met.refusals += u64::from(found.is_none());
        met.grants += u64::from(found.is_some());
        self.keep(found, expected, size);
    }

    /// Keeps a grant that has its handle, and the place of its block.
    fn keep(&mut self, found: Option<S::Grant>, expected: Option<usize>, size: u32) {
        let (Some(grant), Some(place)) = (found, expected) else {
            assert!(found.is_none() && expected.is_none());
            return;
        };
        let offset = self.model.offset(place);
        assert_eq!(grant, S::at(grant, offset));
        self.grants += 1;
        let range = Range { grant, number: self.grants };
        self.model.blocks[place].live = Some(range);
        self.write(range, offset, 0, size);
    }

    /// What is at an offset, and a request for it.
    fn allocate_at(&mut self, offset: u32, size: u32, met: &mut Met) {
        let is_free = self.model.free_at(offset, size).is_some();
        assert_eq!(self.space.allocator().is_free_at(offset, size), is_free);
        for (units, found) in [(size, self.space.in_the_way(offset, size)), (1, self.space.live_at(offset))] {
            let expected = self.model.in_the_way(offset, units);
            let grant = expected.map(|place| S::at(self.model.blocks[place].live.unwrap().grant, self.model.offset(place)));
            assert_eq!(found, grant);
            met.in_the_way += u64::from(found.is_some());
            assert!(units != size || grant.is_none() || !is_free, "a free block holds them, and something is in the way");
        }
        let blocks = self.model.blocks.len();
        let found = self.space.allocate_at(offset, size);
        let expected = self.model.request_at(offset, size);
        match found {
            Some(_) => {
                met.grants += 1;
                met.at_grants[self.model.blocks.len() - blocks] += 1;
            }
            None if is_free => met.at_no_nodes += 1,
            None => met.at_refusals += 1,
        }
        self.keep(found, expected, size);
    }

    /// Writes the pattern of a range at its bytes from `start` to `end`.
    fn write(&mut self, range: Range<S::Grant>, offset: u32, start: u32, end: u32) {
        let Some(buffer) = &mut self.buffer else { return };
        for i in start..end {
            buffer[(offset + i) as usize] = byte(range.number, i);
        }
    }

    fn free(&mut self, place: usize) {
        let grant = self.model.blocks[place].live.unwrap().grant;
        self.space.free(grant);
        self.model.free(place);
        assert_eq!(self.space.range(grant), None);
        self.gone.push(grant);
    }

    fn resize(&mut self, place: usize, size: u32, met: &mut Met) {
        let (range, offset, held) = (self.model.blocks[place].live.unwrap(), self.model.offset(place), self.model.blocks[place].size);
        let (shrunk, grown) = if size < held {
            // to fewer units nothing grows, and to more units nothing shrinks
            assert!(!self.space.grow_in_place(range.grant, size));
            (self.space.shrink(range.grant, size), false)
        } else {
            assert_eq!(self.space.shrink(range.grant, size), size == held);
            (false, self.space.grow_in_place(range.grant, size))
        };
        assert_eq!(shrunk || grown, self.model.resize(place, size));
        met.shrunk += u64::from(shrunk);
        met.grown += u64::from(grown && size > held);
        if grown {
            self.write(range, offset, held, size);
        }
    }

    fn extend(&mut self, more: u32) {
        let is_done = self.space.extend(more);
        assert_eq!(is_done, self.model.extend(more));
        let size = self.model.size();
        match &mut self.buffer {
            Some(buffer) if size <= LARGEST_BUFFER => buffer.resize(size as usize, 0),
            _ => self.buffer = None,
        }
    }

    fn reset(&mut self) {
        for place in self.model.live() {
            self.gone.push(self.model.blocks[place].live.unwrap().grant);
        }
        self.space.reset();
        self.model.reset();
    }

    fn compact(&mut self, met: &mut Met) {
        met.compacted_at_the_limit += u64::from(!self.model.admits_blocks(1));
        let mut moves = Vec::new();
        let buffer = &mut self.buffer;
        let grants = self.space.compact(|from, to, size| {
            moves.push((from, to, size));
            if let Some(buffer) = buffer {
                buffer.copy_within(from as usize..(from + size) as usize, to as usize);
            }
        });
        let expected = self.model.compact();
        assert_eq!(moves.len(), expected.len());
        assert_eq!(grants.len(), expected.len());
        for (((from, to, size), found), (old, new, units, grant)) in moves.iter().zip(grants).zip(expected) {
            assert_eq!((*from, *to, *size, found), (old, new, units, Some(S::at(grant, new))));
        }
        met.moves += moves.len() as u64;
        met.overlapping_moves += moves.iter().filter(|(from, to, size)| to + size > *from).count() as u64;
        self.space.compact(|_, _, _| panic!("a second compact moves nothing"));
        self.check_bytes();
    }

    fn check_bytes(&self) {
        let Some(buffer) = &self.buffer else { return };
        let mut offset = 0;
        for block in &self.model.blocks {
            if let Some(range) = block.live {
                let bytes = &buffer[offset as usize..(offset + block.size) as usize];
                assert!((0..).zip(bytes).all(|(i, b)| *b == byte(range.number, i)), "the bytes of a live range");
            }
            offset += block.size;
        }
    }

    fn check_reports(&self) {
        let space = self.space.allocator();
        assert_eq!(space.size(), self.model.size());
        assert_eq!(space.block_count() as usize, self.model.blocks.len());
        assert_eq!(space.is_full(), !self.model.admits_blocks(1));
        let report = space.storage_report();
        assert_eq!((report.total_free_space, report.largest_free_region), self.model.report());
        let mut counts = [0; 256];
        for block in self.model.blocks.iter().filter(|block| block.live.is_none()) {
            counts[class_of(block.size)] += 1;
        }
        for (class, region) in space.storage_report_full().free_regions.iter().enumerate() {
            let value = if class < 8 { class as u64 } else { (8 + class as u64 % 8) << (class / 8 - 1) };
            assert_eq!((region.size, region.count), (value as u32, counts[class]));
        }
        self.check_statistics();
    }

    /// They are exact at the node limit too.
    fn check_statistics(&self) {
        let found = self.space.allocator().statistics();
        let live: Vec<u32> = self.model.live().iter().map(|place| self.model.blocks[*place].size).collect();
        let free: Vec<u32> = self.model.blocks.iter().filter(|block| block.live.is_none()).map(|block| block.size).collect();
        assert_eq!((found.live_ranges as usize, found.free_blocks as usize), (live.len(), free.len()));
        assert_eq!((found.live_units, found.free_units), (live.iter().sum(), free.iter().sum()));
        let largest = free.iter().max().copied().unwrap_or(0);
        assert_eq!((found.largest_free_block, found.largest_free_region), (largest, VALUES[class_of(largest)]));
        assert_eq!(found.unused_nodes as usize, self.model.limit - self.model.blocks.len());
        assert_eq!(self.space.allocator().is_empty(), live.is_empty());
    }

    fn check(&self) {
        self.check_reports();
        let mut blocks = self.space.allocator().blocks();
        assert_eq!(blocks.len(), self.model.blocks.len());
        let mut end = self.model.size();
        for block in self.model.blocks.iter().rev() {
            end -= block.size;
            let found = blocks.next().unwrap();
            assert_eq!((found.offset, found.size), (end, block.size));
            let grant = found.allocation.map(|handle| self.space.grant(handle).unwrap());
            assert_eq!(grant, block.live.map(|range| S::at(range.grant, end)));
            if let Some(range) = block.live {
                // its public offset is perhaps that of before a move
                assert!(self.space.is_live(range.grant));
                assert_eq!(self.space.range(range.grant), Some((block.size, end)));
            }
        }
        assert!(blocks.next().is_none());
    }

    fn call(&mut self, random: &mut Random, met: &mut Met) {
        let live = self.model.live();
        let size = random.units(self.model.size());
        match random.below(43) {
            0..=11 | 40..=42 => {
                let is_tight = random.below(4) == 0;
                let size = if is_tight && random.below(2) == 0 { self.model.any_size(random) } else { size };
                self.allocate(size, 1, is_tight, met);
            }
            12..=15 => {
                let align = match random.below(8) {
                    0 if random.below(4) == 0 => 1 + random.below(u32::MAX),
                    0 => 1 << random.below(32),
                    1..=3 => 1 + random.below(40),
                    _ => 1 << random.below(5),
                };
                let is_tight = random.below(3) == 0;
                let size = if is_tight && random.below(2) == 0 { self.model.any_size(random) } else { size };
                self.allocate(size, align, is_tight, met);
            }
            16..=26 if !live.is_empty() => self.free(live[random.below(live.len() as u32) as usize]),
            27..=28 => self.extend(if random.below(16) == 0 { random.next() as u32 } else { random.below(40) }),
            29 if random.below(4) == 0 => self.reset(),
            30..=31 => self.compact(met),
            32..=35 if !live.is_empty() => {
                let place = live[random.below(live.len() as u32) as usize];
                let held = self.model.blocks[place].size;
                let size = if random.below(2) == 0 { size } else { held.saturating_add(random.below(9)).saturating_sub(random.below(9)) };
                self.resize(place, size, met);
            }
            36..=39 => {
                let (offset, size) = self.model.any_place(random);
                self.allocate_at(offset, size, met);
            }
            _ => self.check_bytes(),
        }
        if S::IS_GUARDED && !self.gone.is_empty() {
            let gone = self.gone[random.below(self.gone.len() as u32) as usize];
            assert!(!self.space.is_live(gone));
            assert_eq!(self.space.range(gone), None);
            met.stale += 1;
        }
        self.check();
    }
}

fn play<S: Space>(random: &mut Random, met: &mut Met) {
    let size = match random.below(16) {
        0 => random.next() as u32,
        1 => u32::MAX - random.below(100),
        2 => random.below(4),
        _ => random.below(400),
    };
    let limit = if random.below(3) == 0 { 2 + random.below(10) } else { 12 + random.below(60) };
    let mut pair = Pair::<S>::new(size, limit);
    for _ in 0..random.below(MOST_CALLS) {
        pair.call(random, met);
        met.calls += 1;
    }
    pair.compact(met);
    pair.check();
    // every unit is in one block again
    for place in pair.model.live().into_iter().rev() {
        pair.space.free(pair.model.blocks[place].live.unwrap().grant);
    }
    assert_eq!(pair.space.allocator().block_count(), 1);
    let last = pair.space.allocate(0, 1).and_then(|grant| pair.space.range(grant));
    assert_eq!(last, (limit > 2).then_some((0, 0)));
}

#[test]
fn each_space_and_a_list_of_blocks_agree() {
    let play_from = |first: u64| {
        let mut met = Met::default();
        for seed in (first..HISTORIES).step_by(THREADS as usize) {
            let mut random = Random(seed);
            match random.below(8) {
                0 => play::<AllocatorOf<ByNode<u32>>>(&mut random, &mut met),
                1 => play::<AllocatorOf<ByNode<u16>>>(&mut random, &mut met),
                2 => play::<AllocatorOf<ByField<u32>>>(&mut random, &mut met),
                3 => play::<AllocatorOf<ByField<u16>>>(&mut random, &mut met),
                4 => play::<GuardedOf<ByNode<u32>>>(&mut random, &mut met),
                5 => play::<GuardedOf<ByNode<u16>>>(&mut random, &mut met),
                6 => play::<GuardedOf<ByField<u32>>>(&mut random, &mut met),
                _ => play::<GuardedOf<ByField<u16>>>(&mut random, &mut met),
            }
        }
        let count = HISTORIES / THREADS;
        assert!(met.calls > 20 * count && met.stale > 5 * count, "{met:?}");
        assert!(met.grants > 10 * count && met.refusals > count, "{met:?}");
        assert!(met.tight_grants > count / 8, "{met:?}");
        assert!(met.reasons.iter().flatten().all(|n| *n > count / 50), "{met:?}");
        assert!(met.moves > 2 * count && met.overlapping_moves > count, "{met:?}");
        assert!(met.compacted_at_the_limit > count / 50, "{met:?}");
        assert!(met.shrunk > count / 2 && met.grown > count / 4, "{met:?}");
        assert!(met.at_grants.iter().all(|n| *n > count / 12) && met.at_no_nodes > count / 50, "{met:?}");
        assert!(met.at_refusals > count / 4 && met.in_the_way > count, "{met:?}");
    };
    std::thread::scope(|scope| {
        for first in 0..THREADS {
            scope.spawn(move || play_from(first));
        }
    });
}
