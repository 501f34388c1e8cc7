//! What `room_cost` returns and what `make_room` leaves, against a search over all runs of blocks in random spaces, on all
//! layouts.
//!
//! `SPACES=1000000 cargo test --release --test room` tries as many spaces.

#[path = "../../random.rs"]
mod random;

use offset_allocator_proved::laws::room_cost_counted;
use offset_allocator_proved::{Accesses, Allocation, AllocatorOf, Block, ByField, ByNode, Global, Refusal, RoomCost, Tables};
use random::Random;

fn count() -> u64 {
    std::env::var("SPACES").map_or(100_000, |it| it.parse().expect("a number"))
}

// The smallest number of four significant bits that is at least `size`.
fn class_value(size: u32) -> u64 {
    let size = u64::from(size);
    let shift = (0..32).find(|shift| size.div_ceil(1 << shift) <= 16).unwrap();
    size.div_ceil(1 << shift) << shift
}

// Of all runs that begin and end with a free block, the least units and ranges of one with enough free units.
fn searched(blocks: &[(u32, bool)], want: u64) -> Option<(u32, u32)> {
    let mut least = None;
    for first in 0..blocks.len() {
        let (mut room, mut units, mut ranges) = (0, 0, 0);
        for &(size, free) in &blocks[first..] {
            if free {
                room += u64::from(size);
                if blocks[first].1 && room >= want {
                    least = Some(least.map_or((units, ranges), |it: (u32, u32)| it.min((units, ranges))));
                }
            } else {
                units += size;
                ranges += 1;
            }
        }
    }
    least
}

fn size_of(random: &mut Random) -> u32 {
    let bits = random.below(6);
    random.below(1 << bits)
}

// A random space of at most some sixty blocks: ranges are granted until some are refused, and about half are freed.
fn space<T: Tables<Index = u32>>(random: &mut Random) -> AllocatorOf<T> {
    let size = match random.below(20) {
        0 => random.below(4),
        1 => u32::MAX - random.below(1 << 28),
        _ => 20 + random.below(400),
    };
    let unit = size / 400 + 1;
    let mut space = AllocatorOf::<T>::with_max_allocs(Global, size, 4 + random.below(60)).unwrap();
    let mut held: Vec<Allocation> = Vec::new();
    for _ in 0..random.below(80) {
        held.extend(space.allocate(size_of(random).wrapping_mul(unit)));
    }
    for handle in held {
        if random.below(2) == 0 {
            space.free(handle);
        }
    }
    space
}

fn blocks_of<T: Tables<Index = u32>>(space: &AllocatorOf<T>) -> Vec<Block> {
    let mut blocks: Vec<Block> = space.blocks().collect();
    blocks.reverse();
    blocks
}

// The blocks after the live ones of a run have slid to its front.
fn slid(blocks: &[Block], first: usize, last: usize) -> Vec<(u32, u32, Option<u32>)> {
    let run = &blocks[first..=last];
    let live = run.iter().filter(|it| it.allocation.is_some()).map(|it| (it.size, it.allocation.map(|it| it.name())));
    let room = run.iter().filter(|it| it.allocation.is_none()).map(|it| it.size).sum();
    let after = blocks[last + 1..].iter().map(|it| (it.size, it.allocation.map(|it| it.name())));
    let before = blocks[..first].iter().map(|it| (it.size, it.allocation.map(|it| it.name())));
    let mut offset = 0;
    before
        .chain(live)
        .chain([(room, None)])
        .chain(after)
        .map(|(size, name)| {
            offset += size;
            (offset - size, size, name)
        })
        .collect()
}

// Makes room, and copies the data as it says.
fn try_to_make<T: Tables<Index = u32>>(mut space: AllocatorOf<T>, size: u32, want: u64, wanted: Option<(u32, u32)>) {
    let before = blocks_of(&space);
    let bytes = space.write_state(Global).unwrap();
    let mut data: Vec<Option<u32>> = vec![None; if space.size() < 1000 { space.size() as usize } else { 0 }];
    for it in &before {
        if !data.is_empty() {
            data[it.offset as usize..(it.offset + it.size) as usize].fill(it.allocation.map(|it| it.name()));
        }
    }
    let mut moves = Vec::new();
    let cost = space.make_room(size, |it| moves.push(it));
    assert_eq!(cost, wanted.map(|(units, ranges)| RoomCost { units, ranges }));
    let moved = (moves.iter().map(|it| it.size).sum(), moves.len() as u32);
    assert_eq!(moved, wanted.unwrap_or((0, 0)));
    if moved.1 == 0 {
        assert_eq!(&*space.write_state(Global).unwrap(), &*bytes);
        return;
    }
    assert_eq!(space.refusal(size), None);
    let after: Vec<_> = blocks_of(&space).iter().map(|it| (it.offset, it.size, it.allocation.map(|it| it.name()))).collect();
    // of all runs of this cost the last in space has slid
    let costs_as_much = |&(first, last): &(usize, usize)| {
        let (live, free): (Vec<&Block>, Vec<&Block>) = before[first..=last].iter().partition(|it| it.allocation.is_some());
        let room: u64 = free.iter().map(|it| u64::from(it.size)).sum();
        let is_run = before[first].allocation.is_none() && before[last].allocation.is_none();
        is_run && room >= want && (live.iter().map(|it| it.size).sum(), live.len() as u32) == moved
    };
    let mut runs = (0..before.len()).flat_map(|first| (first + 1..before.len()).map(move |last| (first, last)));
    let (first, last) = runs.rfind(costs_as_much).unwrap();
    assert_eq!(slid(&before, first, last), after, "{size} in {before:?}");
    for it in &moves {
        assert!(it.to < it.from && space.allocation_offset(it.allocation()) == Some(it.to));
        if !data.is_empty() {
            data.copy_within(it.from as usize..(it.from + it.size) as usize, it.to as usize);
        }
    }
    for (offset, size, name) in after {
        if !data.is_empty() && name.is_some() {
            assert!(data[offset as usize..(offset + size) as usize].iter().all(|it| *it == name));
        }
    }
    assert!(space.allocate(size).is_some());
}

#[derive(Default, Debug)]
struct Seen {
    none: u64,
    nothing: u64,
    few: u64,
    many: u64,
    full: u64,
}

fn try_one<T: Tables<Index = u32>>(random: &mut Random, seen: &mut Seen) {
    let space = space::<T>(random);
    let mut blocks: Vec<(u32, bool)> = space.blocks().map(|it| (it.size, it.allocation.is_none())).collect();
    blocks.reverse();
    for _ in 0..4 {
        let size = match random.below(12) {
            0 => random.next() as u32,
            1 => space.size(),
            2 => size_of(random),
            _ => random.below(space.free_units().max(1)),
        };
        let wanted = searched(&blocks, class_value(size));
        let found = space.room_cost(size);
        assert_eq!(found, wanted.map(|(units, ranges)| RoomCost { units, ranges }), "{size} in {blocks:?}");
        let mut accesses = Accesses::new();
        assert_eq!(room_cost_counted(&space, size, &mut accesses), found);
        // what it says beside the reason of a refusal
        match space.refusal(size) {
            None => assert_eq!(wanted, Some((0, 0))),
            Some(Refusal::Nodes) => seen.full += 1,
            Some(Refusal::Fragmented) => assert!(wanted.is_some_and(|(_, ranges)| ranges > 0)),
            Some(_) => assert_eq!(wanted, None),
        }
        try_to_make(space.try_clone(Global).unwrap(), size, class_value(size), wanted);
        match wanted {
            None => seen.none += 1,
            Some((_, 0)) => seen.nothing += 1,
            Some((_, 1)) => seen.few += 1,
            Some(_) => seen.many += 1,
        }
    }
}

#[test]
fn it_is_the_least_cost_of_all_runs() {
    let mut seen = Seen::default();
    for seed in 0..count() {
        let mut random = Random(seed);
        match seed % 2 {
            0 => try_one::<ByNode<u32>>(&mut random, &mut seen),
            _ => try_one::<ByField<u32>>(&mut random, &mut seen),
        }
    }
    println!("{seen:?}");
    // each kind of answer is frequent
    assert!([seen.none, seen.nothing, seen.few, seen.many, seen.full].iter().all(|it| *it > count() / 100), "{seen:?}");
}

#[test]
fn a_class_value_has_four_bits() {
    let rows = [(0, 0), (1, 1), (15, 15), (16, 16), (17, 18), (33, 36), (100, 104), (4026531840, 4026531840), (4026531841, 1 << 32)];
    for (size, value) in rows {
        assert_eq!(class_value(size), value);
    }
}
