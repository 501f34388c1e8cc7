//! What `room_cost_by` returns and what `make_room_by` leaves, by steps of 1, 2, 3, 16 and 256 units, for requests at
//! alignments, against a search over all runs of blocks in 100,000 random spaces, on all layouts. Each run is slid in a plain
//! list of blocks, written for this test from the words of the documents alone, and the request looked for in what is left.
//! In the same spaces, what `compact_cost_by` says of a compaction, against that list, and against a copy that is compacted.
//!
//! `SPACES=1000000 cargo test --release --test room_by_steps` tries as many spaces.

#[path = "../../random.rs"]
mod random;

use offset_allocator_proved::laws::{compact_cost_by_counted, room_cost_by_counted};
use offset_allocator_proved::{Accesses, Allocation, AllocatorOf, ByField, ByNode, CompactCost, Global, RoomCost, Tables};
use random::Random;

const STEPS: [u32; 5] = [1, 2, 3, 16, 256];

fn count() -> u64 {
    std::env::var("SPACES").map_or(100_000, |it| it.parse().expect("a number"))
}

// The smallest number of four significant bits that is at least `size`.
fn class_value(size: u64) -> u64 {
    let shift = (0..40).find(|shift| size.div_ceil(1 << shift) <= 16).unwrap();
    size.div_ceil(1 << shift) << shift
}

// A block: where it begins, its units, and the name of its handle where it is live.
#[derive(Clone, Copy, PartialEq, Debug)]
struct Part {
    offset: u32,
    size: u32,
    name: Option<u32>,
}

// From the start of the space on.
fn parts<T: Tables<Index = u32>>(space: &AllocatorOf<T>) -> Vec<Part> {
    let part = |it: offset_allocator_proved::Block| Part { offset: it.offset, size: it.size, name: it.allocation.map(|it| it.name()) };
    let mut all: Vec<Part> = space.blocks().map(part).collect();
    all.reverse();
    all
}

// The blocks when the live ones of a run have slid, each to the smallest offset at or after the end of what is before it that
// is whole steps from its own, and the last free block of the run has all that is left.
fn slid(parts: &[Part], first: usize, last: usize, step: u32) -> Vec<Part> {
    let mut all = parts[..first].to_vec();
    let mut end = parts[first].offset;
    for it in &parts[first..last] {
        if it.name.is_some() {
            let to = end + (it.offset - end) % step;
            if to > end {
                all.push(Part { offset: end, size: to - end, name: None });
            }
            all.push(Part { offset: to, ..*it });
            end = to + it.size;
        }
    }
    let until = parts[last].offset + parts[last].size;
    all.push(Part { offset: end, size: until - end, name: None });
    all.extend(&parts[last + 1..]);
    all
}

// A request: its units, its alignment, and the node limit.
#[derive(Clone, Copy, Debug)]
struct Request {
    size: u32,
    align: u32,
    limit: usize,
}

impl Request {
    // The units that a block has to have.
    fn units(self) -> u64 {
        class_value(u64::from(self.size) + u64::from(self.align) - 1)
    }

    // Whether these blocks leave names for those that it may add: a remainder, and above an alignment of 1 padding too.
    fn has_names(self, parts: &[Part]) -> bool {
        parts.len() + if self.align == 1 { 1 } else { 2 } < self.limit
    }
}

// The cheapest run after whose slide its free block has the units and there are names for the request; of several the last.
fn searched(parts: &[Part], request: Request, step: u32) -> Option<(u32, u32, usize, usize)> {
    let mut least: Option<(u32, u32, usize, usize)> = None;
    for first in (0..parts.len()).filter(|it| parts[*it].name.is_none()) {
        let (mut units, mut ranges) = (0, 0);
        for last in first..parts.len() {
            if parts[last].name.is_some() {
                units += parts[last].size;
                ranges += 1;
                continue;
            }
            // a walk from the run's start need not go on where it costs more already
            if least.is_some_and(|it| (it.0, it.1) < (units, ranges)) {
                break;
            }
            let after = slid(parts, first, last, step);
            let hole = after[after.len() - (parts.len() - last)];
            assert!(hole.name.is_none());
            if u64::from(hole.size) >= request.units() && request.has_names(&after) {
                least = Some((units, ranges, first, last));
            }
        }
    }
    least
}

fn size_of(random: &mut Random) -> u32 {
    let bits = random.below(6);
    random.below(1 << bits)
}

// A random space of at most some forty blocks: ranges are granted until some are refused, and about half are freed.
fn space<T: Tables<Index = u32>>(random: &mut Random) -> AllocatorOf<T> {
    let size = match random.below(20) {
        0 => random.below(4),
        1 => u32::MAX - random.below(1 << 28),
        2 => 2000 + random.below(4000),
        _ => 20 + random.below(400),
    };
    let unit = size / 400 + 1;
    let mut space = AllocatorOf::<T>::with_max_allocs(Global, size, 4 + random.below(40)).unwrap();
    let mut held: Vec<Allocation> = Vec::new();
    for _ in 0..random.below(60) {
        held.extend(space.allocate(size_of(random).wrapping_mul(unit)));
    }
    // in some the last block is live, and small grants take the nodes that are left
    let is_packed = random.below(4) == 0;
    if is_packed {
        let last = space.blocks().next().filter(|it| it.allocation.is_none()).map_or(0, |it| it.size);
        held.extend(space.allocate_tight(last));
    }
    let one_of = 2 + random.below(2);
    for handle in held {
        if random.below(one_of) == 0 {
            space.free(handle);
        }
    }
    for _ in 0..if is_packed { 20 } else { 0 } {
        space.allocate(1 + random.below(2));
    }
    space
}

#[derive(Default, Debug)]
struct Seen {
    none: u64,
    nothing: u64,
    few: u64,
    many: u64,
    // which the same request without steps costs less
    dearer: u64,
    // at the node limit, and granted afterwards
    full: u64,
    // refused at the node limit, though a free block is large enough
    without_names: u64,
    kept: u64,
    // compactions that move something, and those that are refused
    foretold: u64,
    refused: u64,
}

// Makes room, and copies the data as it says.
fn try_to_make<T: Tables<Index = u32>>(
    mut space: AllocatorOf<T>,
    request: Request,
    step: u32,
    wanted: Option<(u32, u32, usize, usize)>,
    seen: &mut Seen,
) {
    let Request { size, align, .. } = request;
    let before = parts(&space);
    let bytes = space.write_state(Global).unwrap();
    let mut data: Vec<Option<u32>> = vec![None; if space.size() < 1000 { space.size() as usize } else { 0 }];
    for it in &before {
        if !data.is_empty() {
            data[it.offset as usize..(it.offset + it.size) as usize].fill(it.name);
        }
    }
    let mut moves = Vec::new();
    let cost = space.make_room_by(size, align, step, |it| moves.push(it));
    assert_eq!(cost, wanted.map(|(units, ranges, ..)| RoomCost { units, ranges }));
    let Some((_, ranges, first, last)) = wanted.filter(|it| it.1 > 0) else {
        assert!(moves.is_empty());
        assert_eq!(&*space.write_state(Global).unwrap(), &*bytes);
        assert_eq!(space.refusal_aligned(size, align).is_none(), wanted.is_some());
        return;
    };
    let after = parts(&space);
    assert_eq!(after, slid(&before, first, last, step), "{request:?} by {step} in {before:?}");
    // each that begins elsewhere then was told, in space order; by whole steps
    let went: Vec<_> = before.iter().filter(|it| it.name.is_some()).zip(after.iter().filter(|it| it.name.is_some())).collect();
    let told: Vec<_> = moves.iter().map(|it| (Some(it.allocation().name()), it.from, it.to, it.size)).collect();
    let expected: Vec<_> = went
        .iter()
        .filter(|(old, new)| old.offset != new.offset)
        .map(|(old, new)| (old.name, old.offset, new.offset, old.size))
        .collect();
    assert_eq!(told, expected);
    assert!(told.len() <= ranges as usize);
    for it in &moves {
        assert!(it.to < it.from && (it.from - it.to) % step == 0 && space.allocation_offset(it.allocation()) == Some(it.to));
        if !data.is_empty() {
            data.copy_within(it.from as usize..(it.from + it.size) as usize, it.to as usize);
        }
    }
    for it in after.iter().filter(|it| it.name.is_some() && !data.is_empty()) {
        assert!(data[it.offset as usize..(it.offset + it.size) as usize].iter().all(|at| *at == it.name));
    }
    seen.full += u64::from(!request.has_names(&before));
    // free blocks between its ranges: more than the run's own one
    let free = |all: &[Part]| all.iter().filter(|it| it.name.is_none()).count();
    seen.kept += u64::from(free(&after) > free(&before[..first]) + free(&before[last + 1..]) + 1);
    // a space that is read from its bytes has the same blocks in the same bins
    assert_eq!(parts(&space.try_clone(Global).unwrap()), after);
    let granted = space.allocate_aligned(size, align).expect("there is room");
    assert_eq!(granted.offset % align, 0);
    space.free(granted);
    for it in after.iter().filter(|it| it.name.is_some()) {
        assert_eq!(space.blocks().filter(|at| at.allocation.map(|at| at.name()) == it.name).count(), 1);
    }
}

// The largest number of four significant bits that is at most `size`.
fn reported(size: u32) -> u32 {
    let shift = (0..32).find(|shift| size >> shift < 16).unwrap();
    (size >> shift) << shift
}

// What slides behind the first free block of at least a step that has a block after it, to the end of the space: the blocks
// then, and what `compact_cost_by` has to say, where the node limit admits these blocks.
fn compacted(before: &[Part], step: u32, limit: u32) -> (Vec<Part>, Option<CompactCost>) {
    let last = before.len() - 1;
    let Some(first) = before[..last].iter().position(|it| it.name.is_none() && it.size >= step) else {
        let largest = before.iter().filter(|it| it.name.is_none()).map(|it| reported(it.size)).max();
        return (before.to_vec(), Some(CompactCost { units: 0, ranges: 0, largest: largest.unwrap_or(0) }));
    };
    let mut all = before.to_vec();
    if let Some(at) = before.last().filter(|it| it.name.is_some()) {
        all.push(Part { offset: at.offset + at.size, size: 0, name: None });
    }
    let after = slid(&all, first, all.len() - 1, step);
    let moved = before[first..].iter().filter(|it| it.name.is_some());
    let cost = CompactCost {
        units: moved.clone().map(|it| it.size).sum(),
        ranges: moved.count() as u32,
        largest: after.iter().filter(|it| it.name.is_none()).map(|it| reported(it.size)).max().unwrap(),
    };
    let fits = after.len() < limit as usize;
    (after, fits.then_some(cost))
}

fn try_to_foretell<T: Tables<Index = u32>>(space: &AllocatorOf<T>, before: &[Part], step: u32, seen: &mut Seen) {
    let (after, wanted) = compacted(before, step, space.max_allocs());
    let mut accesses = Accesses::new();
    assert_eq!(compact_cost_by_counted(space, step, &mut accesses), wanted, "by {step} in {before:?}");
    assert_eq!(space.compact_cost_by(step), wanted);
    let mut copy = space.try_clone(Global).unwrap();
    let (mut units, mut ranges) = (0, 0);
    assert_eq!(copy.compact_by(step, |it| (units, ranges) = (units + it.size, ranges + 1)), wanted.is_some());
    let Some(cost) = wanted else {
        seen.refused += 1;
        return;
    };
    assert_eq!((units, ranges), (cost.units, cost.ranges));
    assert_eq!(parts(&copy), after);
    seen.foretold += u64::from(cost.ranges > 0);
    if !copy.is_full() {
        assert!(cost.largest == 0 || copy.refusal(cost.largest).is_none(), "by {step} in {before:?}");
        assert!(copy.refusal(cost.largest + 1).is_some(), "by {step} in {before:?}");
    }
}

fn try_one<T: Tables<Index = u32>>(random: &mut Random, seen: &mut Seen) {
    let space = space::<T>(random);
    let before = parts(&space);
    for step in STEPS {
        try_to_foretell(&space, &before, step, seen);
        let size = match random.below(12) {
            0 => random.next() as u32,
            1 => space.size(),
            2 => size_of(random),
            _ => random.below(space.free_units().max(1)),
        };
        let align = match random.below(4) {
            0 | 1 => 1,
            2 => 1 << random.below(9),
            _ => 1 + random.below(300),
        };
        let request = Request { size, align, limit: space.max_allocs() as usize };
        let wanted = searched(&before, request, step);
        let found = space.room_cost_by(size, align, step);
        assert_eq!(
            found,
            wanted.map(|(units, ranges, ..)| RoomCost { units, ranges }),
            "{request:?} by {step} in {before:?}"
        );
        let mut accesses = Accesses::new();
        assert_eq!(room_cost_by_counted(&space, size, align, step, &mut accesses), found);
        // nothing has to move exactly where the request would be granted
        assert_eq!(found.is_some_and(|it| it.ranges == 0), space.refusal_aligned(size, align).is_none());
        if step == 1 && align == 1 && request.has_names(&before) {
            assert_eq!(found, space.room_cost(size));
        }
        let by_one = searched(&before, request, 1);
        seen.dearer += u64::from(by_one.is_some_and(|it| wanted.is_none_or(|at| (it.0, it.1) < (at.0, at.1))));
        let is_large = |it: &Part| it.name.is_none() && u64::from(it.size) >= request.units();
        seen.without_names += u64::from(wanted.is_none() && before.iter().any(is_large));
        try_to_make(space.try_clone(Global).unwrap(), request, step, wanted, seen);
        match wanted {
            None => seen.none += 1,
            Some((_, 0, ..)) => seen.nothing += 1,
            Some((_, 1, ..)) => seen.few += 1,
            Some(_) => seen.many += 1,
        }
    }
}

#[test]
fn it_is_the_least_cost_of_all_runs_by_steps() {
    let mut seen = Seen::default();
    for seed in 0..count() {
        let mut random = Random(seed);
        match seed % 2 {
            0 => try_one::<ByNode<u32>>(&mut random, &mut seen),
            _ => try_one::<ByField<u32>>(&mut random, &mut seen),
        }
    }
    println!("{seen:?}");
    let Seen { none, nothing, few, many, dearer, full, without_names, kept, foretold, refused } = seen;
    // each kind of answer is frequent
    assert!([none, nothing, few, many, dearer, kept, foretold, refused].iter().all(|it| *it > count() / 100), "{seen:?}");
    assert!([full, without_names].iter().all(|it| *it > count() / 1000), "{seen:?}");
}
