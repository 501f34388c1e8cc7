//! Tickets of random spaces: whatever moves, is copied, stored and read, each range that an aligned request granted begins
//! at a multiple of its alignment as long as it lives, and the step is the least common multiple of all, worked out here
//! anew.
//!
//! `CALLS=10000000 cargo test --release --test alignments` makes as many calls.

#[path = "../../random.rs"]
mod random;

use offset_allocator::{ByField, ByNode, Tables};
use offset_allocator_guarded::{Global, GuardedOf, Move, Ticket};
use random::Random;

// The least common multiple, where it has 32 bits.
fn common(step: u32, align: u32) -> Option<u32> {
    (1..=u64::from(align)).map(|it| it * u64::from(step)).find(|it| it % u64::from(align) == 0).and_then(|it| it.try_into().ok())
}

const FAMILIES: [&[u32]; 5] = [&[1, 16, 256, 4096], &[12, 20, 32], &[1, 3, 5, 8], &[7, 48, 1], &[1, 7, 101, 4_096, 8_191]];

struct Spaces<T: Tables<Index = u32>> {
    space: GuardedOf<T>,
    held: Vec<(Ticket, u32)>,
    aligns: &'static [u32],
    step: Option<u32>,
    moves: u64,
}

impl<T: Tables<Index = u32>> Spaces<T> {
    fn new(random: &mut Random) -> Self {
        let (size, limit) = (random.below(20_000), 2 + random.below(80));
        let space = GuardedOf::with_realm(Global, size, limit, 1).unwrap();
        let aligns = FAMILIES[random.below(FAMILIES.len() as u32) as usize];
        Spaces { space, held: Vec::new(), aligns, step: Some(1), moves: 0 }
    }

    fn keep(&mut self, granted: Option<Ticket>, align: u32) {
        if let Some(ticket) = granted {
            self.step = self.step.and_then(|it| common(it, align));
            self.held.push((ticket, align));
        }
    }

    fn call(&mut self, random: &mut Random) {
        let align = self.aligns[random.below(self.aligns.len() as u32) as usize];
        let bits = random.below(11);
        let size = random.below(1 << bits);
        let chosen = (!self.held.is_empty()).then(|| random.below(self.held.len() as u32) as usize);
        let moves = &mut self.moves;
        let mut note = |it: Move| *moves += u64::from(it.from > it.to);
        match (random.below(26), chosen) {
            (0..=2, _) => {
                let granted = self.space.allocate(size);
                self.keep(granted, 1);
            }
            (3..=8, _) => {
                let granted = self.space.allocate_aligned(size, align);
                self.keep(granted, align);
            }
            (9, _) => {
                let granted = self.space.allocate_tight_aligned(size, align);
                self.keep(granted, align);
            }
            (10..=15, Some(place)) => assert!(self.space.free(self.held.swap_remove(place).0)),
            (16, Some(place)) => {
                let (ticket, align) = self.held[place];
                let from = self.space.offset_of(ticket).unwrap();
                if let Some(second) = self.space.relocate(ticket) {
                    assert!(self.step.is_some() && second.offset <= from && self.space.free(ticket));
                    self.held[place] = (second, align);
                }
            }
            (17, Some(place)) => {
                let _ = self.space.shrink(self.held[place].0, size);
            }
            (18, _) => {
                // what it copies, and what is granted then, was said before
                let cost = self.space.compact_cost();
                let (mut units, mut ranges) = (0, 0);
                let done = self.space.compact(|it: Move| {
                    note(it);
                    (units, ranges) = (units + it.size, ranges + 1);
                });
                assert!(!done || self.step.is_some());
                assert_eq!(cost.map(|it| (it.units, it.ranges)), done.then_some((units, ranges)));
                if let Some(cost) = cost.filter(|_| !self.space.is_full()) {
                    let is_granted = |size| self.space.allocator().refusal(size).is_none();
                    assert!((cost.largest == 0 || is_granted(cost.largest)) && !is_granted(cost.largest + 1));
                }
            }
            (19, _) => {
                let found = self.space.compact_within(random.below(20_000), size, 1 + random.below(4), &mut note);
                assert!(found.is_none() || self.step.is_some());
            }
            (20, _) => {
                let cost = self.space.room_cost(size);
                assert_eq!(self.space.make_room(size, &mut note), cost);
                assert!(cost.is_none() || self.space.refusal(size).is_none());
            }
            (21, _) => {
                let cost = self.space.room_cost_aligned(size, align);
                assert_eq!(self.space.make_room_aligned(size, align, &mut note), cost);
                assert!(cost.is_none() || self.space.refusal_aligned(size, align).is_none());
            }
            (22, _) => self.space = self.space.try_clone(Global).unwrap(),
            (23, _) => {
                let bytes = self.space.write_state(Global).unwrap();
                self.space = GuardedOf::read_state(Global, &bytes, 1_000).unwrap_or_else(|_| panic!("it is read"));
            }
            (24, _) if random.below(8) == 0 => {
                self.space.reset();
                self.held.clear();
                self.step = Some(1);
            }
            _ => {
                self.space.extend(random.below(4));
            }
        }
        assert_eq!(self.space.step(), self.step);
        for (ticket, align) in &self.held {
            assert_eq!(self.space.offset_of(*ticket).unwrap() % align, 0);
        }
    }
}

fn aligned<T: Tables<Index = u32>>(seed: u64) {
    let calls: u64 = std::env::var("CALLS").map_or(200_000, |it| it.parse().expect("a number"));
    let mut random = Random(seed);
    let (mut moves, mut ends) = (0, 0);
    for _ in 0..calls / 400 {
        let mut spaces = Spaces::<T>::new(&mut random);
        for _ in 0..400 {
            spaces.call(&mut random);
        }
        moves += spaces.moves;
        ends += u64::from(spaces.step.is_none());
    }
    println!("{moves} moves; {ends} spaces without a step");
    assert!(moves > calls / 100 && ends > 0);
}

#[test]
fn each_alignment_is_kept() {
    aligned::<ByNode<u32>>(1);
    aligned::<ByField<u32>>(2);
}
