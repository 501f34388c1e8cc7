//! What `compact_within` leaves and returns, by steps of 1, 2, 3, 16 and 256 units and within budgets of any size, in
//! 100,000 random spaces, on both layouts: beside a plain model, written from the words of the documents alone. Passes
//! over a space to which requests and releases come between two calls; and a pass without them leaves no step before a range.
//!
//! `SPACES=1000000 cargo test --release --test within` tries as many spaces.

#[path = "../../random.rs"]
mod random;

use offset_allocator_proved::{Allocation, AllocatorOf, Block, ByField, ByNode, Global, Progress, Tables};
use random::Random;

const STEPS: [u32; 5] = [1, 2, 3, 16, 256];

fn count() -> u64 {
    std::env::var("SPACES").map_or(100_000, |it| it.parse().expect("a number"))
}

// A block: where it begins, its units, and the name of its handle where it is live.
#[derive(Clone, Copy, PartialEq, Debug)]
struct Part {
    offset: u32,
    size: u32,
    name: Option<u32>,
}

fn parts<T: Tables<Index = u32>>(space: &AllocatorOf<T>) -> Vec<Part> {
    let part = |it: Block| Part { offset: it.offset, size: it.size, name: it.allocation.map(|it| it.name()) };
    let mut all: Vec<Part> = space.blocks().map(part).collect();
    all.reverse();
    all
}

fn live(all: &[Part]) -> Vec<Part> {
    all.iter().filter(|it| it.name.is_some()).copied().collect()
}

// What a call has to leave and return.
struct Expected {
    parts: Vec<Part>,
    progress: Option<Progress>,
}

fn expected(before: &[Part], limit: usize, step: u32, from: u32, units: u32, ranges: u32) -> Expected {
    let is_start = |it: &Part| it.name.is_none() && it.size >= step && it.offset + it.size >= from;
    let Some(first) = before[..before.len() - 1].iter().position(is_start) else {
        return Expected { parts: before.to_vec(), progress: Some(Progress { units: 0, ranges: 0, next: None }) };
    };
    // up to the first live range that is too much
    let (mut moved, mut last) = (Vec::new(), first);
    let mut next = None;
    for (at, it) in before.iter().enumerate().skip(first + 1) {
        if it.name.is_some() {
            let sum: u64 = moved.iter().map(|it: &Part| u64::from(it.size)).sum();
            let is_first = moved.is_empty();
            if !is_first && (sum + u64::from(it.size) > u64::from(units) || moved.len() as u64 + 1 > u64::from(ranges)) {
                next = Some(it.offset);
                break;
            }
            moved.push(*it);
        }
        last = at;
    }
    let mut all = before[..first].to_vec();
    let mut end = before[first].offset;
    for it in &moved {
        // the smallest offset that is whole steps from its own
        let to = end + (it.offset - end) % step;
        if to > end {
            all.push(Part { offset: end, size: to - end, name: None });
        }
        all.push(Part { offset: to, ..*it });
        end = to + it.size;
    }
    let until = before[last].offset + before[last].size;
    all.push(Part { offset: end, size: until - end, name: None });
    all.extend(&before[last + 1..]);
    // as many blocks as these are not admitted
    if all.len() >= limit {
        return Expected { parts: before.to_vec(), progress: None };
    }
    let units = moved.iter().map(|it| it.size).sum();
    Expected { parts: all, progress: Some(Progress { units, ranges: moved.len() as u32, next }) }
}

#[derive(Default, Debug)]
struct Seen {
    refused: u64,
    nothing: u64,
    one_large: u64,
    many: u64,
    whole: u64,
    kept: u64,
    passes: u64,
}

fn try_call<T: Tables<Index = u32>>(space: &mut AllocatorOf<T>, step: u32, from: u32, budget: (u32, u32), seen: &mut Seen) -> Option<Progress> {
    let before = parts(space);
    let bytes = space.write_state(Global).unwrap();
    let wanted = expected(&before, space.max_allocs() as usize, step, from, budget.0, budget.1);
    let mut data: Vec<Option<u32>> = vec![None; if space.size() < 1000 { space.size() as usize } else { 0 }];
    for it in before.iter().filter(|_| !data.is_empty()).collect::<Vec<_>>() {
        data[it.offset as usize..(it.offset + it.size) as usize].fill(it.name);
    }
    let mut told = Vec::new();
    let found = space.compact_within(step, from, budget.0, budget.1, |it| {
        assert!(it.to < it.from && (it.from - it.to) % step == 0);
        if !data.is_empty() {
            data.copy_within(it.from as usize..(it.from + it.size) as usize, it.to as usize);
        }
        told.push((Some(it.allocation().name()), it.from, it.to, it.size));
    });
    let after = parts(space);
    assert_eq!((found, &after), (wanted.progress, &wanted.parts), "{step} {from} {budget:?} {before:?}");
    let went = live(&before).into_iter().zip(live(&after)).filter(|(old, new)| old.offset != new.offset);
    assert_eq!(told, went.map(|(old, new)| (old.name, old.offset, new.offset, old.size)).collect::<Vec<_>>());
    for it in after.iter().filter(|it| it.name.is_some() && !data.is_empty()) {
        assert!(data[it.offset as usize..(it.offset + it.size) as usize].iter().all(|at| *at == it.name));
    }
    let none = |all: &[Part]| all.iter().filter(|it| it.name.is_none()).count();
    match found {
        None => seen.refused += 1,
        Some(Progress { ranges: 0, .. }) => seen.nothing += 1,
        Some(Progress { units, ranges, next }) => {
            assert_eq!((units, ranges), (told.iter().map(|it| it.3).sum(), told.len() as u32));
            assert!(ranges == 1 || units <= budget.0 && ranges <= budget.1);
            seen.one_large += u64::from(units > budget.0 || ranges > budget.1);
            seen.many += u64::from(ranges > 1);
            seen.whole += u64::from(next.is_none());
            seen.kept += u64::from(none(&after) > 1 && none(&after) >= none(&before));
        }
    }
    if told.is_empty() && found.is_none_or(|it| it.ranges == 0) {
        assert_eq!(&*space.write_state(Global).unwrap(), &*bytes);
    }
    found
}

fn try_one<T: Tables<Index = u32>>(random: &mut Random, seen: &mut Seen) {
    let size = match random.below(12) {
        0 => random.below(4),
        1 => u32::MAX - random.below(1 << 28),
        _ => 20 + random.below(600),
    };
    let unit = size / 500 + 1;
    let mut space = AllocatorOf::<T>::with_max_allocs(Global, size, 4 + random.below(40)).unwrap();
    let mut held: Vec<Allocation> = Vec::new();
    let request = |space: &mut AllocatorOf<T>, random: &mut Random| {
        let bits = random.below(6);
        space.allocate(random.below(1 << bits).wrapping_mul(unit))
    };
    for _ in 0..random.below(60) {
        held.extend(request(&mut space, random));
    }
    for _ in 0..held.len() / 3 {
        space.free(held.swap_remove(random.below(held.len() as u32) as usize));
    }
    let step = STEPS[random.below(5) as usize];
    let budget = (random.below(60).wrapping_mul(unit), random.below(6));
    // a pass, with other calls between
    let mut from = if random.below(4) == 0 { random.below(size.max(1)) } else { 0 };
    for _ in 0..8 {
        let Some(progress) = try_call(&mut space, step, from, budget, seen) else { break };
        for _ in 0..random.below(3) {
            if random.below(2) == 0 {
                held.extend(request(&mut space, random));
            } else if !held.is_empty() {
                space.free(held.swap_remove(random.below(held.len() as u32) as usize));
            }
        }
        from = progress.next.unwrap_or(0);
    }
    // one without: each call comes further, and at its end no step is before a range
    let mut at_once = space.try_clone(Global).unwrap();
    if !at_once.compact_by(step, |_| ()) {
        return;
    }
    let slid = live(&parts(&at_once));
    let mut from = 0;
    loop {
        let Some(progress) = try_call(&mut space, step, from, budget, seen) else { return };
        let Some(next) = progress.next else { break };
        // the same offset only where a range of no units begins there too
        assert!(next >= from && progress.ranges > 0);
        from = next;
    }
    seen.passes += 1;
    let all = parts(&space);
    let last = all.iter().rposition(|it| it.name.is_some()).unwrap_or(0);
    assert!(all[..last].iter().all(|it| it.name.is_some() || it.size < step), "{all:?}");
    // each range is where it would be if all had slid at once
    assert_eq!(live(&all), slid, "{step} {budget:?}");
    // in another order of moves, and yet where `compact_by` has each range
    for it in held {
        assert!(space.is_live(it));
    }
}

#[test]
fn it_is_a_compaction_in_parts() {
    let mut seen = Seen::default();
    for seed in 0..count() {
        let mut random = Random(seed);
        match seed % 2 {
            0 => try_one::<ByNode<u32>>(&mut random, &mut seen),
            _ => try_one::<ByField<u32>>(&mut random, &mut seen),
        }
    }
    println!("{seen:?}");
    let Seen { refused, nothing, one_large, many, whole, kept, passes } = seen;
    assert!([nothing, one_large, many, whole, kept, passes].iter().all(|it| *it > count() / 100), "{seen:?}");
    assert!(refused > count() / 1000, "{seen:?}");
}
