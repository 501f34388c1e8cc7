//! That a recording may begin with any space: its first lines make one that goes on as the given one does.

use offset_allocator_guarded::GuardedOf;
use offset_allocator_proved::{Allocator, AllocatorOf, ByField, ByNode, Global, Tables};
use offset_allocator_recorded::{play, Recorded};

struct Random(u64);

impl Random {
    fn below(&mut self, n: u32) -> u32 {
        self.0 = self.0.wrapping_mul(6_364_136_223_846_793_005).wrapping_add(1_442_695_040_888_963_407);
        ((self.0 >> 33) % u64::from(n)) as u32
    }
}

// What an independent reader of the answers has as live ranges: their offsets and units.
fn answers(text: &str) -> Vec<String> {
    let mut out = Vec::new();
    play(text.as_bytes(), &mut out).unwrap();
    String::from_utf8(out).unwrap().lines().map(str::to_owned).collect()
}

// A space after random calls: small blocks of few classes, so that bins have several.
fn random_space<T: Tables>(random: &mut Random) -> (AllocatorOf<T>, Vec<offset_allocator_proved::Allocation<T::Index>>) {
    let limit = [4, 6, 9, 40, 200][random.below(5) as usize];
    let size = [0, 1, 60, 300, 4_000_000_000, u32::MAX][random.below(6) as usize];
    let mut space = AllocatorOf::<T>::with_max_allocs(Global, size, limit).unwrap();
    let mut live = Vec::new();
    for _ in 0..random.below(200) {
        match random.below(8) {
            0..=2 => live.extend(space.allocate(random.below(12))),
            3 => live.extend(space.allocate_at(random.below(300), random.below(9))),
            4 if random.below(4) == 0 => {
                space.extend(random.below(20));
            }
            5 => {
                space.retract(random.below(9));
            }
            _ if !live.is_empty() => space.free(live.swap_remove(random.below(live.len() as u32) as usize)),
            _ => (),
        }
    }
    (space, live)
}

// The calls after the beginning answer what the space gives: grants are known by their offsets.
fn goes_on<T: Tables>(seed: u64) -> Option<usize> {
    let mut random = Random(seed);
    let (space, mut live) = random_space::<T>(&mut random);
    let (size, limit) = (space.size(), space.max_allocs());
    let blocks: Vec<(u32, u32, bool)> = space.blocks().map(|block| (block.offset, block.size, block.allocation.is_some())).collect();
    let mut bytes = Vec::new();
    let mut heap = match Recorded::new(space, &mut bytes) {
        Ok(heap) => heap,
        Err(error) => {
            // only where ranges have no units, and a node or a unit is lacking
            assert!(blocks.iter().any(|block| block.1 == 0) && (size == u32::MAX || blocks.len() as u32 + 2 >= limit), "seed {seed}: {error}");
            return None;
        }
    };
    let mut expected = Vec::new();
    for _ in 0..60 {
        let size = random.below(14);
        match random.below(4) {
            0 if !live.is_empty() => {
                heap.free(live.swap_remove(random.below(live.len() as u32) as usize));
                expected.push("freed".to_owned());
            }
            1 => {
                let found = heap.allocate_tight(size);
                live.extend(found);
                expected.push(found.map_or("none".to_owned(), |it| format!("at {}", it.offset)));
            }
            _ => {
                let found = heap.allocate(size);
                live.extend(found);
                expected.push(found.map_or("none".to_owned(), |it| format!("at {}", it.offset)));
            }
        }
    }
    assert!(heap.finish().1.is_ok());
    let text = String::from_utf8(bytes).unwrap();
    let answered = answers(&text);
    let first = answered.len() - expected.len();
    let found: Vec<String> = answered[first..].iter().map(|line| line.find("at ").map_or(line.clone(), |at| line[at..].to_owned())).collect();
    assert_eq!(found, expected, "seed {seed}: {text}");
    // the first lines are all granted
    assert!(answered[..first].iter().all(|line| line != "none" && line != "gone"), "seed {seed}: {text}");
    // and before the others the blocks are those of the space
    let begun: String = text.lines().filter(|line| !line.starts_with('#')).take(first + 1).map(|line| format!("{line}\n")).collect();
    let course = offset_allocator_recorded::course(begun.as_bytes()).unwrap();
    let mut ranges: Vec<(u32, u32)> = course.lives.iter().filter(|life| life.last == first).map(|life| (life.offset, life.size)).collect();
    ranges.sort_unstable();
    let mut used: Vec<(u32, u32)> = blocks.iter().filter(|block| block.2).map(|block| (block.0, block.1)).collect();
    used.sort_unstable();
    if first > 0 {
        assert_eq!(ranges, used, "seed {seed}: {text}");
        assert_eq!(course.sizes[first], size, "seed {seed}: {text}");
    }
    Some(first)
}

#[test]
fn random_spaces_go_on() {
    let (mut longest, mut refused, mut done) = (0, 0, 0);
    for seed in 0..6_000 {
        for found in [goes_on::<ByNode<u32>>(seed), goes_on::<ByField<u16>>(seed + 1_000_000)] {
            match found {
                None => refused += 1,
                Some(first) => {
                    done += 1;
                    longest = longest.max(first);
                }
            }
        }
    }
    assert!(longest > 60 && refused < done / 20, "{longest} {refused} {done}");
}

#[test]
fn states_and_copies() {
    // used 0 to 10, free 10 to 15, used 15 to 20, free 20 to 25, used 25 to 30, free 30 to 100; of the two of 5 units the
    // first was freed last, so that it is granted first
    let mut space = GuardedOf::<ByNode<u32>>::with_realm(Global, 100, 16, 7).unwrap();
    let held: Vec<_> = [10, 5, 5, 5, 5].iter().map(|size| space.allocate(*size).unwrap()).collect();
    assert!(space.free(held[3]) && space.free(held[1]));
    let bytes = space.write_state(Global).unwrap();
    let restored = GuardedOf::<ByNode<u32>>::read_state(Global, &bytes, 16).unwrap();
    let copied = space.try_clone(Global).unwrap();
    for space in [restored, copied] {
        let mut text = Vec::new();
        let mut heap = Recorded::guarded(space, &mut text).unwrap();
        assert_eq!(heap.allocate(5).unwrap().offset, 10);
        assert_eq!(heap.allocate(5).unwrap().offset, 20);
        // a ticket from before
        assert!(heap.free(held[2]));
        assert!(heap.finish().1.is_ok());
        let text = String::from_utf8(text).unwrap();
        // the ranges with what is free behind them; 70 units are in a higher class, and given back first
        assert_eq!(
            text,
            "space 100 nodes 16 index 32\nat 0 15\nat 15 10\nat 25 75\nshrink 3 5\nshrink 2 5\nshrink 1 10\n#! begun\nalloc 5\nalloc 5\nfree 2\n"
        );
        assert_eq!(answers(&text)[6..], ["grant 4 at 10", "grant 5 at 20", "freed"]);
    }
}

#[test]
fn as_many_blocks_as_may_be() {
    // free 0 to 10, used 10 to 20, free 20 to 100: all of 3 blocks, so that nothing is granted, and reports say 0
    let mut space = Allocator::<u32>::with_max_allocs(Global, 100, 4).unwrap();
    let first = space.allocate_at(0, 10).unwrap();
    assert!(space.allocate_at(10, 10).is_some());
    space.free(first);
    let mut space = Allocator::<u32>::read_state(Global, &space.write_state(Global).unwrap(), 4).unwrap();
    assert_eq!(space.block_count(), 3);
    assert_eq!(space.allocate(1), None);
    let mut text = Vec::new();
    assert!(Recorded::new(space, &mut text).unwrap().finish().1.is_ok());
    let text = String::from_utf8(text).unwrap();
    assert_eq!(answers(&(text.clone() + "why alloc 1\nreport\nfirst\nfree 2\nreport\n"))[text.lines().count() - 2..],
        ["too few nodes are left", "free 0 largest 0", "range 2 at 10", "freed", "free 100 largest 96"]);
}
