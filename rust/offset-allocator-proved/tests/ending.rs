//! What is beside a range, what `relocate` grants, what `retract` takes off, and the pieces of a move, in random spaces on
//! all layouts, against lists of blocks, a copy that makes the plain request, and bytes that are moved at once.
//!
//! `SPACES=1000000 cargo test --release --test ending` tries as many spaces.

#[path = "../../random.rs"]
mod random;

use offset_allocator_proved::{Allocation, AllocatorOf, ByField, ByNode, Global, MovePieces, Tables};
use random::Random;

fn count() -> u64 {
    std::env::var("SPACES").map_or(20_000, |it| it.parse().expect("a number"))
}

// A block in space order: where it begins, its units, and the handle of its range.
type Listed = (u32, u32, Option<Allocation<u32>>);

fn listed<T: Tables<Index = u32>>(space: &AllocatorOf<T>) -> Vec<Listed> {
    let mut blocks: Vec<Listed> = space.blocks().map(|it| (it.offset, it.size, it.allocation)).collect();
    blocks.reverse();
    blocks
}

fn bytes<T: Tables<Index = u32>>(space: &AllocatorOf<T>) -> Vec<u8> {
    space.write_state(Global).unwrap().to_vec()
}

fn random_space<T: Tables<Index = u32>>(random: &mut Random) -> (AllocatorOf<T>, Vec<Allocation<u32>>) {
    let (size, nodes) = (random.below(200), 3 + random.below(24));
    let mut space = AllocatorOf::<T>::with_max_allocs(Global, size, nodes).unwrap();
    let mut live = Vec::new();
    for _ in 0..random.below(60) {
        if random.below(3) > 0 {
            live.extend(space.allocate(random.below(20)));
        } else if !live.is_empty() {
            space.free(live.swap_remove(random.below(live.len() as u32) as usize));
        }
    }
    (space, live)
}

fn expect_neighbours<T: Tables<Index = u32>>(space: &AllocatorOf<T>, blocks: &[Listed]) {
    let live: Vec<_> = blocks.iter().filter_map(|it| it.2).collect();
    assert_eq!(space.last_live(), live.last().copied());
    assert_eq!(space.first_live(), live.first().copied());
    for (at, &handle) in live.iter().enumerate() {
        assert_eq!(space.live_before(handle), at.checked_sub(1).map(|at| live[at]));
        assert_eq!(space.live_after(handle), live.get(at + 1).copied());
    }
}

// A second range is that of the plain request, made on a copy, where it begins before the first one. Whether there was one.
fn expect_second<T: Tables<Index = u32>>(space: &mut AllocatorOf<T>, handle: Allocation<u32>) -> bool {
    let (begins, size) = (space.allocation_offset(handle).unwrap(), space.allocation_size(handle));
    let before = bytes(space);
    let mut copy = space.try_clone(Global).unwrap();
    let wanted = copy.allocate(size).filter(|it| it.offset < begins);
    assert_eq!(space.relocate(handle), wanted);
    match wanted {
        None => assert_eq!(bytes(space), before),
        Some(second) => {
            assert_eq!(bytes(space), bytes(&copy));
            assert!(space.is_live(handle) && second.offset + size <= begins);
        }
    }
    wanted.is_some()
}

// Units go from a free last block alone, and as many as it has. Whether they did.
fn expect_less<T: Tables<Index = u32>>(space: &mut AllocatorOf<T>, less: u32) -> bool {
    let (size, before) = (space.size(), bytes(space));
    let mut wanted = listed(space);
    let (offset, last, used) = wanted.pop().unwrap();
    let done = less == 0 || used.is_none() && less <= last;
    assert_eq!(space.retract(less), done);
    if !done || less == 0 {
        assert_eq!(bytes(space), before);
        return false;
    }
    if less < last || wanted.is_empty() {
        wanted.push((offset, last - less, None));
    }
    assert_eq!(listed(space), wanted);
    assert_eq!(space.size(), size - less);
    // it is a space that goes on: its units can be added again
    assert!(space.extend(less) || space.is_full());
    true
}

fn spaces<T: Tables<Index = u32>>(seed: u64) {
    let mut random = Random(seed);
    let (mut seconds, mut cuts) = (0, 0);
    for _ in 0..count() {
        let (mut space, live) = random_space::<T>(&mut random);
        expect_neighbours(&space, &listed(&space));
        if !live.is_empty() {
            seconds += u64::from(expect_second(&mut space, live[random.below(live.len() as u32) as usize]));
        }
        let less = random.below(40);
        cuts += u64::from(expect_less(&mut space, less));
        expect_neighbours(&space, &listed(&space));
    }
    assert!(seconds > count() / 20 && cuts > count() / 20, "{seconds} second ranges, {cuts} cuts");
}

#[test]
fn by_node() {
    spaces::<ByNode<u32>>(1);
}

#[test]
fn by_field() {
    spaces::<ByField<u32>>(2);
}

#[test]
fn pieces_are_the_move() {
    let mut random = Random(3);
    for _ in 0..count() {
        let (to, size, most) = (random.below(30), random.below(60), 1 + random.below(20));
        let from = to + 1 + random.below(30);
        let mut bytes: Vec<u64> = (0..u64::from(from + size)).collect();
        let mut whole = bytes.clone();
        whole.copy_within(from as usize..(from + size) as usize, to as usize);
        let pieces: Vec<_> = MovePieces::of(from, to, size, most).collect();
        for (at, it) in pieces.iter().enumerate() {
            assert!(0 < it.size && it.size <= most && it.to + it.size <= it.from);
            assert!(at + 1 == pieces.len() || it.size == most.min(from - to));
            let (read, written) = (it.from as usize, it.to as usize);
            for unit in 0..it.size as usize {
                bytes[written + unit] = bytes[read + unit];
            }
        }
        assert_eq!(bytes, whole);
    }
}
