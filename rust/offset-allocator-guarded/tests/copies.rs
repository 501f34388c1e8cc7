//! A copy has the tickets of the space that it was made of, and gives the same answers, tickets included.

#[path = "../../random.rs"]
mod random;

use offset_allocator_guarded::{Global, Guarded, Ticket};
use random::Random;

// One random call, and its answer.
fn call(space: &mut Guarded, held: &mut Vec<Ticket>, random: &mut Random) -> (Option<Ticket>, bool) {
    let (kind, size) = (random.below(8), random.below(60));
    match (kind, held.len() as u32) {
        (0..=3, _) | (_, 0) => {
            let granted = if kind == 3 { space.allocate_aligned(size, 4) } else { space.allocate(size) };
            held.extend(granted);
            (granted, false)
        }
        // tickets that were freed stay in the list
        (4 | 5, n) => (None, space.free(held[random.below(n) as usize])),
        (6, n) => (None, space.grow_in_place(held[random.below(n) as usize], size) == Some(true)),
        (_, _) => {
            match random.below(40) {
                0 => space.reset(),
                _ => space.compact_unaligned(|_| {}),
            }
            (None, true)
        }
    }
}

#[test]
fn a_copy_goes_on_alike() {
    let mut random = Random(1);
    for round in 0..500 {
        let mut space = Guarded::with_realm(Global, 1_000 + round, 2 + random.below(60), round).unwrap();
        let mut held = Vec::new();
        for _ in 0..random.below(100) {
            call(&mut space, &mut held, &mut random);
        }
        let mut copy = space.try_clone(Global).unwrap();
        assert_eq!(copy.realm(), space.realm());
        for ticket in &held {
            assert_eq!((copy.size_of(*ticket), copy.offset_of(*ticket)), (space.size_of(*ticket), space.offset_of(*ticket)));
        }
        let start = u64::from(random.below(u32::MAX));
        let (mut own, mut other, mut held_there) = (Random(start), Random(start), held.clone());
        for _ in 0..100 {
            let wanted = call(&mut space, &mut held, &mut own);
            assert_eq!(call(&mut copy, &mut held_there, &mut other), wanted);
        }
    }
}

// A space whose limit is raised whenever another call might be refused for nodes answers as one that had a large limit from
// the start, and in the end they have the same bytes.
#[test]
fn a_raised_limit_changes_no_answer() {
    const LIMIT: u32 = 1_000;
    let (mut random, mut count) = (Random(2), 0);
    for round in 0..500 {
        let size = 1_000 + round;
        let mut large = Guarded::with_realm(Global, size, LIMIT, round).unwrap();
        let mut small = Guarded::with_realm(Global, size, 2 + random.below(4), round).unwrap();
        let start = u64::from(random.below(u32::MAX));
        let (mut own, mut other) = (Random(start), Random(start));
        let (mut held, mut held_there) = (Vec::new(), Vec::new());
        for _ in 0..200 {
            // a request may add two blocks, and one name stays without a block
            let needed = small.allocator().block_count() + 3;
            if small.allocator().max_allocs() < needed {
                small = small.raised(Global, needed + random.below(8)).unwrap();
                count += 1;
            }
            let wanted = call(&mut large, &mut held, &mut own);
            assert_eq!(call(&mut small, &mut held_there, &mut other), wanted);
        }
        small = small.raised(Global, LIMIT).unwrap();
        assert_eq!(&*small.write_state(Global).unwrap(), &*large.write_state(Global).unwrap());
    }
    assert!(count > 1_000);
}
