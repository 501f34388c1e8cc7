//! 100,000 random spaces, and what `compact_by` leaves of each by steps of 1, 2, 3, 16 and 256 units, beside a plain
//! model that is written for this test, from the words of the documents alone. It has the ranges by their offsets: in space
//! order each one goes to the smallest offset at or after the end of the one before it that is a multiple of the step from
//! its old one. What is between two ranges is one free block. A byte array has a pattern for each live range, and is copied
//! as the moves say. A step of one unit is compared with `compact` of a copy too.

#[path = "../../random.rs"]
mod random;

use offset_allocator::{Allocation, AllocatorOf, ByField, ByNode, Global, Tables};
use offset_allocator_guarded::GuardedOf;
use random::Random;

const SPACES: u64 = 100_000;
const THREADS: u64 = 4;
const STEPS: [u32; 5] = [1, 2, 3, 16, 256];
/// A space of more units has no bytes.
const MOST_BYTES: u32 = 4096;

/// What the spaces had, so that none of it is missing.
#[derive(Default, Debug)]
struct Met {
    moves: u64,
    overlapping_moves: u64,
    refused: u64,
    done_at_the_limit: u64,
    unchanged: u64,
    /// Free blocks that keep some of their units, and not all.
    remainders: u64,
    /// Free blocks of less than a step behind one of a step.
    kept_whole: u64,
    /// Live ranges of no units that move.
    empty_moves: u64,
    /// Of a space that ends with a live range.
    new_last_blocks: u64,
    granted_after: u64,
}

/// The largest size that a request may have to be granted from a free block: the value of its class.
fn class_value(size: u32) -> u32 {
    if size < 8 {
        return size;
    }
    // the four leading bits
    let shift = 28 - size.leading_zeros();
    size >> shift << shift
}

/// A live range: its handle, its offset and its size.
type Range<NI> = (Allocation<NI>, u32, u32);

/// A block: where it begins, how long it is, and the handle where it is live.
type Part<NI> = (u32, u32, Option<Allocation<NI>>);

fn live_ranges<T: Tables>(space: &AllocatorOf<T>) -> Vec<Range<T::Index>> {
    parts(space).into_iter().filter_map(|(offset, size, handle)| Some((handle?, offset, size))).collect()
}

fn parts<T: Tables>(space: &AllocatorOf<T>) -> Vec<Part<T::Index>> {
    let mut all: Vec<_> = space.blocks().map(|block| (block.offset, block.size, block.allocation)).collect();
    all.reverse();
    all
}

/// The least offset at or after `end` that is a multiple of the step from `old`, by trying each.
fn place(end: u64, old: u64, step: u64) -> u64 {
    (end..=old).find(|to| (old - to) % step == 0).unwrap()
}

/// The same at once. Where it takes no time both are compared.
fn far_place(end: u64, old: u64, step: u64) -> u64 {
    let steps = (old - end) / step;
    old - steps * step
}

/// What is expected: where the ranges are, or none where the call is refused.
struct Expected {
    /// By range, the new offset.
    offsets: Vec<u32>,
    is_done: bool,
}

fn expected<T: Tables>(space: &AllocatorOf<T>, step: u32) -> Expected {
    let ranges = live_ranges(space);
    let size = u64::from(space.size());
    let mut offsets = Vec::new();
    // the ends of the range before: of the moved one, and of the one where it was
    let (mut end, mut old_end) = (0, 0);
    let mut is_whole = false;
    for (_, offset, units) in &ranges {
        let (offset, units) = (u64::from(*offset), u64::from(*units));
        let to = far_place(end, offset, u64::from(step));
        if size <= 400 {
            assert_eq!(to, place(end, offset, u64::from(step)));
        }
        is_whole |= offset - old_end >= u64::from(step);
        offsets.push(to as u32);
        (end, old_end) = (to + units, offset + units);
    }
    // as many blocks as would be there: those before the first free one of a step, the ranges behind it, what stays before
    // each, and one free block at the end; a free block of no units has a node too
    let all = parts(space);
    let last = all.len() - 1;
    let first = all[..last].iter().position(|it| it.2.is_none() && it.1 >= step);
    assert_eq!(is_whole, first.is_some());
    let is_done = first.is_none_or(|first| {
        let stay = all[first..last].iter().filter(|it| it.2.is_some() || it.1 % step > 0).count();
        let blocks = first + stay + usize::from(all[last].2.is_some()) + 1;
        blocks < space.max_allocs() as usize
    });
    if !is_done {
        offsets = ranges.iter().map(|it| it.1).collect();
    }
    Expected { offsets, is_done }
}

/// Byte `i` of the range of this number.
fn byte(number: usize, i: u32) -> u8 {
    (number as u32).wrapping_mul(37).wrapping_add(i.wrapping_mul(11)) as u8 | 1
}

/// Calls `compact_by`, and compares all that can be seen of the space.
fn check<T: Tables>(space: &mut AllocatorOf<T>, step: u32, random: &mut Random, met: &mut Met) {
    let (ranges, before) = (live_ranges(space), parts(space));
    let (size, is_full) = (space.size(), space.is_full());
    let statistics = space.statistics();
    let wanted = expected(space, step);
    let mut bytes = vec![0u8; if size <= MOST_BYTES { size as usize } else { 0 }];
    if size <= MOST_BYTES {
        for (number, (_, offset, units)) in ranges.iter().enumerate() {
            for i in 0..*units {
                bytes[(offset + i) as usize] = byte(number, i);
            }
        }
    }
    let mut moves = Vec::new();
    let is_done = space.compact_by(step, |it| {
        moves.push((it.allocation(), it.from, it.to, it.size));
        if size <= MOST_BYTES {
            bytes.copy_within(it.from as usize..(it.from + it.size) as usize, it.to as usize);
        }
    });
    assert_eq!(is_done, wanted.is_done);

    // each move, in space order
    let mut expected_moves = Vec::new();
    for ((handle, offset, units), to) in ranges.iter().zip(&wanted.offsets) {
        assert!(to <= offset && (offset - to) % step == 0);
        if to != offset {
            let mut after = *handle;
            after.offset = *to;
            expected_moves.push((after, *offset, *to, *units));
        }
    }
    assert_eq!(moves, expected_moves);

    // handles stay, also those with the offset of before
    for ((handle, _, units), to) in ranges.iter().zip(&wanted.offsets) {
        assert!(space.is_live(*handle));
        assert_eq!((space.allocation_size(*handle), space.allocation_offset(*handle)), (*units, Some(*to)));
    }
    if size <= MOST_BYTES {
        for (number, ((_, _, units), to)) in ranges.iter().zip(&wanted.offsets).enumerate() {
            assert!((0..*units).all(|i| bytes[(to + i) as usize] == byte(number, i)), "the bytes of a live range");
        }
    }

    check_blocks(space, &ranges, &wanted.offsets, &before, step, met);
    // they have no part in a move
    assert_eq!((space.size(), space.live_units(), space.free_units()), (size, statistics.live_units, statistics.free_units));
    check_reports(space);

    met.refused += u64::from(!is_done);
    met.done_at_the_limit += u64::from(is_full && !moves.is_empty());
    met.unchanged += u64::from(is_done && moves.is_empty());
    met.moves += moves.len() as u64;
    met.overlapping_moves += moves.iter().filter(|(_, from, to, units)| to + units > *from).count() as u64;
    met.empty_moves += moves.iter().filter(|it| it.3 == 0).count() as u64;
    met.new_last_blocks += u64::from(!moves.is_empty() && before.last().unwrap().2.is_some());
    check_requests(space, random, met);
}

/// The blocks are the ranges, and one free block wherever units are between them.
fn check_blocks<T: Tables>(
    space: &AllocatorOf<T>,
    ranges: &[Range<T::Index>],
    offsets: &[u32],
    before: &[Part<T::Index>],
    step: u32,
    met: &mut Met,
) {
    let (mut wanted, mut end) = (Vec::new(), 0);
    for ((handle, _, units), to) in ranges.iter().zip(offsets) {
        if *to > end {
            wanted.push((end, to - end, None));
        }
        let mut present = *handle;
        present.offset = *to;
        wanted.push((*to, *units, Some(present)));
        end = to + units;
    }
    if space.size() > end {
        wanted.push((end, space.size() - end, None));
    }
    let found = parts(space);
    // a free block of no units has no place between two ranges: where there is one, it was there before
    let with_units: Vec<_> = found.iter().copied().filter(|it| it.1 > 0 || it.2.is_some()).collect();
    assert_eq!(with_units, wanted);
    let none = |all: &[Part<T::Index>]| all.iter().filter(|it| it.1 == 0 && it.2.is_none()).count();
    if ranges.iter().zip(offsets).all(|(it, to)| it.1 == *to) {
        // nothing moved, so nothing changed
        assert_eq!(found, before);
    } else {
        // those before the first free block of a step stay, and all others go
        let first = before.iter().position(|it| it.2.is_none() && it.1 >= step).unwrap();
        assert_eq!(none(&found), none(&before[..first]));
        assert_eq!(found[..first], before[..first]);
    }
    for pair in found.windows(2) {
        assert!(pair[0].2.is_some() || pair[1].2.is_some(), "free neighbours are one block");
    }

    // every remainder is kept: before a range is what whole steps leave of what was before it
    let (mut old_end, mut end, mut is_behind) = (0, 0, false);
    for ((_, offset, units), to) in ranges.iter().zip(offsets) {
        let (old_gap, gap) = (offset - old_end, to - end);
        if ranges.iter().zip(offsets).any(|(it, to)| it.1 != *to) {
            assert_eq!(gap, old_gap % step);
            met.remainders += u64::from(gap > 0 && gap < old_gap);
            met.kept_whole += u64::from(gap > 0 && gap == old_gap && is_behind);
            is_behind |= old_gap >= step;
        }
        (old_end, end) = (offset + units, to + units);
    }
}

/// The reports are those of the blocks.
fn check_reports<T: Tables>(space: &AllocatorOf<T>) {
    let found = parts(space);
    let free: Vec<u32> = found.iter().filter(|it| it.2.is_none()).map(|it| it.1).collect();
    let largest = free.iter().copied().max().unwrap_or(0);
    let report = space.storage_report();
    let wanted = if space.is_full() { (0, 0) } else { (free.iter().sum(), class_value(largest)) };
    assert_eq!((report.total_free_space, report.largest_free_region), wanted);
    let mut regions: Vec<u32> = Vec::new();
    for region in space.storage_report_full().free_regions {
        regions.extend((0..region.count).map(|_| region.size));
    }
    let mut classes: Vec<u32> = free.iter().map(|size| class_value(*size)).collect();
    classes.sort_unstable();
    assert_eq!(regions, classes);
    let sums = space.statistics();
    assert_eq!((sums.free_blocks as usize, sums.largest_free_block), (free.len(), largest));
    assert_eq!(sums.unused_nodes as usize, space.max_allocs() as usize - found.len());
}

/// A request of what the report says is granted, and one more unit is not, before and after other calls.
fn check_requests<T: Tables>(space: &mut AllocatorOf<T>, random: &mut Random, met: &mut Met) {
    let largest = space.storage_report().largest_free_region;
    assert!(space.allocate(largest + 1).is_none());
    if largest > 0 {
        let granted = space.allocate(largest).expect("the report says so");
        assert_eq!(space.allocation_size(granted), largest);
        met.granted_after += 1;
        space.free(granted);
    }
    for _ in 0..random.below(4) {
        let ranges = live_ranges(space);
        if ranges.is_empty() || random.below(2) == 0 {
            let size = random.below(space.size() / 4 + 2);
            let report = space.storage_report();
            // a request of no units takes any free block
            let is_any_free = parts(space).iter().any(|it| it.2.is_none());
            let is_fitting = !space.is_full() && is_any_free && size <= report.largest_free_region;
            assert_eq!(space.allocate(size).is_some(), is_fitting);
        } else {
            space.free(ranges[random.below(ranges.len() as u32) as usize].0);
        }
    }
    check_reports(space);
    // all of it can be one block again
    for (handle, _, _) in live_ranges(space) {
        space.free(handle);
    }
    assert_eq!((space.block_count(), space.free_units()), (1, space.size()));
}

/// A step of one unit does what `compact` does, at the node limit too: the same ranges at the same offsets, and the same
/// moves.
fn check_compact<T: Tables>(space: &AllocatorOf<T>) {
    let mut other = space.try_clone(Global).unwrap();
    let mut by_one = space.try_clone(Global).unwrap();
    let (mut moves, mut moves_by_one) = (Vec::new(), Vec::new());
    other.compact(|it| moves.push((it.allocation(), it.from, it.to, it.size)));
    assert!(by_one.compact_by(1, |it| moves_by_one.push((it.allocation(), it.from, it.to, it.size))));
    assert_eq!(moves, moves_by_one);
    assert_eq!(live_ranges(&other), live_ranges(&by_one));
}

/// The requests and releases that make a space with holes.
fn fill(random: &mut Random, size: u32, mut allocate: impl FnMut(u32, bool) -> bool, mut free: impl FnMut(&mut Random)) {
    let calls = random.below(40);
    let largest = match random.below(4) {
        0 => size / 2,
        1 => size / 6,
        2 => 8,
        _ => 40,
    };
    for _ in 0..calls {
        if random.below(8) < 5 {
            let units = if random.below(12) == 0 { 0 } else { random.below(largest.saturating_add(1)) };
            allocate(units, random.below(5) == 0);
        } else {
            free(random);
        }
    }
    // sometimes all that is left is taken, so that the last range is live
    if random.below(3) == 0 {
        while allocate(u32::MAX, true) {}
    }
    for _ in 0..random.below(6) {
        free(random);
    }
}

/// A space at its node limit, whose last range is live; holes are between others.
fn full_space<T: Tables>(random: &mut Random) -> AllocatorOf<T> {
    let (size, limit) = (100 + random.below(900), 4 + random.below(12));
    let mut space = AllocatorOf::<T>::with_max_allocs(Global, size, limit).unwrap();
    let first = 1 + random.below(size / 2);
    let first = space.allocate_tight(first).unwrap();
    for _ in 0..limit - 4 {
        space.allocate_tight(random.below(size / 2 / limit)).unwrap();
    }
    space.allocate_tight(largest_free(&space).unwrap()).unwrap();
    let ranges = live_ranges(&space);
    for range in ranges[..ranges.len() - 1].iter().skip(2).step_by(2) {
        if random.below(4) > 0 {
            space.free(range.0);
        }
    }
    let kept = random.below(space.allocation_size(first));
    assert!(space.shrink(first, kept) && space.is_full());
    space
}

fn space_size(random: &mut Random) -> (u32, u32) {
    let size = match random.below(16) {
        0 => random.next() as u32,
        1 => u32::MAX - random.below(100),
        2 => random.below(4),
        3..=6 => random.below(4096),
        _ => random.below(400),
    };
    let limit = if random.below(2) == 0 { 2 + random.below(10) } else { 12 + random.below(40) };
    (size, limit)
}

/// The largest free block, by its exact size.
fn largest_free<T: Tables>(space: &AllocatorOf<T>) -> Option<u32> {
    parts(space).into_iter().filter(|it| it.2.is_none() && it.1 > 0).map(|it| it.1).max()
}

fn any_space<T: Tables>(random: &mut Random) -> AllocatorOf<T> {
    if random.below(8) == 0 {
        return full_space(random);
    }
    let (size, limit) = space_size(random);
    let space = std::cell::RefCell::new(AllocatorOf::<T>::with_max_allocs(Global, size, limit).unwrap());
    fill(
        random,
        size,
        |units, is_tight| {
            let mut space = space.borrow_mut();
            let units = if units == u32::MAX { largest_free(&space).unwrap_or(0) } else { units };
            if units == 0 && largest_free(&space).is_none() {
                return false;
            }
            if is_tight { space.allocate_tight(units) } else { space.allocate(units) }.is_some()
        },
        |random| {
            let mut space = space.borrow_mut();
            let ranges = live_ranges(&space);
            if !ranges.is_empty() {
                space.free(ranges[random.below(ranges.len() as u32) as usize].0);
            }
        },
    );
    space.into_inner()
}

fn play<T: Tables>(random: &mut Random, met: &mut Met) {
    let space = any_space::<T>(random);
    for step in STEPS {
        let mut copy = space.try_clone(Global).unwrap();
        check(&mut copy, step, random, met);
    }
    check_compact(&space);
}

/// 501 live ranges of 8 units, and between each two a hole: all blocks that the limit of 1,002 admits. A hole has as many
/// units as its number says.
fn holes_at_the_limit<T: Tables>(units: impl Fn(usize) -> u32) -> AllocatorOf<T> {
    let size = 501 * 8 + (0..500).map(&units).sum::<u32>();
    let mut space = AllocatorOf::<T>::with_max_allocs(Global, size, 1002).unwrap();
    let first = space.allocate_tight(8 + units(0)).unwrap();
    space.allocate_tight(8).unwrap();
    let mut holes = Vec::new();
    for number in 1..500 {
        holes.push(space.allocate_tight(units(number)).unwrap());
        space.allocate_tight(8).unwrap();
    }
    for hole in holes {
        space.free(hole);
    }
    assert!(space.shrink(first, 8));
    assert!(space.is_full() && space.block_count() == 1001 && live_ranges(&space).len() == 501);
    space
}

/// How many ranges move, and how many blocks there are then; none moves where it is refused.
fn moved<T: Tables>(space: &AllocatorOf<T>, step: u32, done: bool) -> (usize, u32) {
    let mut copy = space.try_clone(Global).unwrap();
    let mut moves = 0;
    assert_eq!(copy.compact_by(step, |_| moves += 1), done, "by {step}");
    assert!(done || parts(&copy) == parts(space) && moves == 0);
    (moves, copy.block_count())
}

/// The same, up to this many ranges from an offset on; none where it is refused.
fn moved_within<T: Tables>(space: &AllocatorOf<T>, step: u32, from: u32, ranges: u32) -> Option<u32> {
    let mut copy = space.try_clone(Global).unwrap();
    let found = copy.compact_within(step, from, u32::MAX, ranges, |_| ());
    assert!(found.is_some() || parts(&copy) == parts(space));
    found.map(|it| it.ranges)
}

fn check_limit<T: Tables>() {
    let space = holes_at_the_limit::<T>(|_| 4);
    let last = space.size() - 8;
    // each hole is used up, or none is
    for step in [1, 2, 4] {
        assert_eq!(moved(&space, step, true), (500, 502));
        assert_eq!(moved_within(&space, step, 0, 500), Some(500));
        assert_eq!(moved_within(&space, step, last, 1), Some(1));
    }
    assert_eq!(moved(&space, 3, false), (0, 1001));
    assert_eq!((moved_within(&space, 3, 0, 500), moved_within(&space, 3, last, 1)), (None, None));
    // a run that ends in a hole uses it up
    assert_eq!((moved_within(&space, 3, 0, 1), moved_within(&space, 3, 0, 499)), (Some(1), Some(499)));
    // there is none of a step
    assert_eq!((moved(&space, 5, true), moved_within(&space, 5, 0, 500)), ((0, 1001), Some(0)));

    // one hole of whole steps is enough, the first one or another
    for at in [0, 1, 250, 499] {
        let space = holes_at_the_limit::<T>(|number| if number == at { 6 } else { 4 });
        let last = space.size() - 8;
        assert_eq!(moved(&space, 3, true), (500, 1001));
        assert_eq!((moved(&space, 5, false), moved(&space, 6, true)), ((0, 1001), (500 - at, 1001)));
        assert_eq!(moved_within(&space, 3, 0, 500), Some(500));
        assert_eq!(moved_within(&space, 3, last, 1), (at == 499).then_some(1));
        assert_eq!((moved_within(&space, 5, 0, 500), moved_within(&space, 6, 0, 500)), (None, Some(500 - at as u32)));
    }
    // one of no units is used up behind a hole of a step, and stays before it
    for (at, done) in [(1, false), (499, true)] {
        let space = holes_at_the_limit::<T>(|number| if number == at { 0 } else if number == 0 { 2 } else { 4 });
        assert_eq!(moved(&space, 3, done).1, 1001);
        assert_eq!(moved_within(&space, 3, 0, 500).is_some(), done);
    }
}

#[test]
fn at_the_limit_a_hole_that_is_used_up_gives_its_node() {
    check_limit::<ByNode<u32>>();
    check_limit::<ByField<u32>>();
    check_limit::<ByNode<u16>>();
    check_limit::<ByField<u16>>();
}

/// With tickets: the same moves as those of the allocator, and every ticket stays as it is.
fn play_with_tickets<T: Tables>(random: &mut Random) {
    let (size, limit) = space_size(random);
    let mut space = GuardedOf::<T>::with_realm(Global, size, limit, 7).unwrap();
    let (mut held, mut gone) = (Vec::new(), Vec::new());
    for _ in 0..random.below(40) {
        if random.below(8) < 5 || held.is_empty() {
            let most = if random.below(2) == 0 { 40 } else { size / 5 + 1 };
            held.extend(space.allocate(random.below(most)));
        } else {
            let ticket = held.swap_remove(random.below(held.len() as u32) as usize);
            assert!(space.free(ticket));
            gone.push(ticket);
        }
    }
    for step in STEPS {
        let mut copy = space.try_clone(Global).unwrap();
        let mut plain = copy.allocator().try_clone(Global).unwrap();
        let wanted = expected(&plain, step);
        let ranges = live_ranges(&plain);
        let (mut moves, mut plain_moves) = (Vec::new(), Vec::new());
        let is_done = copy.compact_by(step, |it| moves.push((it.allocation(), it.from, it.to, it.size)));
        let plain_done = plain.compact_by(step, |it| plain_moves.push((it.allocation(), it.from, it.to, it.size)));
        assert_eq!((is_done, &moves), (plain_done, &plain_moves));
        assert_eq!(is_done, wanted.is_done);
        for ticket in &held {
            let place = ranges.iter().position(|it| it.0.name() == ticket.name()).unwrap();
            assert!(copy.is_live(*ticket));
            assert_eq!((copy.size_of(*ticket), copy.offset_of(*ticket)), (Some(ranges[place].2), Some(wanted.offsets[place])));
            let ticketed = copy.ticket(ranges[place].0).unwrap();
            assert_eq!((ticketed.serial(), ticketed.realm()), (ticket.serial(), 7));
        }
        for ticket in &gone {
            assert!(!copy.is_live(*ticket) && copy.offset_of(*ticket).is_none());
        }
        assert_eq!(parts(copy.allocator()), parts(&plain));
        // the next serial is that of before
        if let (Some(there), Some(here)) = (copy.allocate(0), space.try_clone(Global).unwrap().allocate(0)) {
            assert_eq!(there.serial(), here.serial());
        }
    }
}

#[test]
fn ranges_move_by_whole_steps() {
    let play_from = |first: u64| {
        let mut met = Met::default();
        for seed in (first..SPACES).step_by(THREADS as usize) {
            let mut random = Random(seed);
            match random.below(10) {
                0..=2 => play::<ByNode<u32>>(&mut random, &mut met),
                3 => play::<ByNode<u16>>(&mut random, &mut met),
                4..=6 => play::<ByField<u32>>(&mut random, &mut met),
                7 => play::<ByField<u16>>(&mut random, &mut met),
                8 => play_with_tickets::<ByNode<u32>>(&mut random),
                _ => play_with_tickets::<ByField<u16>>(&mut random),
            }
        }
        let count = SPACES / THREADS;
        assert!(met.moves > count && met.overlapping_moves > count / 2, "{met:?}");
        assert!(met.refused > count / 50 && met.done_at_the_limit > count / 50, "{met:?}");
        assert!(met.unchanged > count / 10 && met.new_last_blocks > count / 50, "{met:?}");
        assert!(met.remainders > count / 10 && met.kept_whole > count / 50, "{met:?}");
        assert!(met.empty_moves > count / 50 && met.granted_after > count, "{met:?}");
    };
    std::thread::scope(|scope| {
        for first in 0..THREADS {
            scope.spawn(move || play_from(first));
        }
    });
}
