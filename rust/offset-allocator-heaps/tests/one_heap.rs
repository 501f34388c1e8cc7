//! Random calls on one heap of many, and the same on a space with tickets: each call returns the same, the space is the same,
//! and no other heap changes. After each call the index is that of heaps which were read from a state, so made anew.

#[path = "../../random.rs"]
mod random;

use offset_allocator_heaps::{AllocatorOf, ByField, ByNode, Global, GuardedOf, HeapsOf, Limits, Move, Place, Tables, Ticket};
use random::Xorshift as Numbers;

// The limits, with the node limit that heaps begin with: it stays, since no call on a heap raises it.
fn limits(first_allocs: u32) -> Limits {
    Limits { size: 4096, first_size: 1024, max_allocs: 64, first_allocs, most: 3, most_larger: 1 }
}

// Makes the same call on both, and compares what they return and the moves.
macro_rules! both {
    ($space:ident, $heap:ident, |$it:ident, $moved:ident| $call:expr) => {{
        let mut moves = [Vec::new(), Vec::new()];
        let one = {
            let $it = &mut $space;
            let $moved = |it: Move<T::Index>| moves[0].push((it.from, it.to, it.size));
            $call
        };
        let other = {
            let $it = &mut $heap;
            let $moved = |it: Move<T::Index>| moves[1].push((it.from, it.to, it.size));
            $call
        };
        assert_eq!(one, other);
        assert_eq!(moves[0], moves[1]);
        one
    }};
}

// The blocks of a space: where each begins, its units, and its name where it is live.
fn blocks<T: Tables>(space: &AllocatorOf<T>) -> Vec<(u32, u32, Option<u32>)> {
    space.blocks().map(|it| (it.offset, it.size, it.allocation.map(|it| it.to_parts().1))).collect()
}

fn plays<T: Tables>(seed: u64, first_allocs: u32, calls: u32) {
    let mut numbers = Numbers(seed.wrapping_mul(0x9e37_79b9_7f4a_7c15));
    let mut below = |limit: u32| ((numbers.next() >> 11) % u64::from(limit)) as u32;
    let mut heaps = HeapsOf::<T>::with_realms(Global, limits(first_allocs), 7, 40).unwrap();
    // heap 0 has 1024 units, heap 1 2048 and heap 2 4096
    let sizes = [1000, 2000, 3000];
    let places: Vec<Place> = sizes.iter().map(|&size| heaps.allocate(size).unwrap().place).collect();
    assert_eq!(places.iter().map(|it| it.heap).collect::<Vec<_>>(), [0, 1, 2]);
    let number = below(3);
    let units = 1024 << number;
    let mut space = GuardedOf::<T>::with_realm(Global, units, first_allocs, 41 + number).unwrap();
    let first = space.allocate(sizes[number as usize]).unwrap();
    assert_eq!(places[number as usize].ticket(first.offset), first);
    let mut tickets: Vec<Ticket> = vec![first];
    let others: Vec<_> = (0..3).map(|k| heaps.heap(k).map(|it| blocks(it.allocator()))).collect();
    for _ in 0..calls {
        let size = below(300) * below(2) + below(20);
        let align = [1, 4, 12, 16, 64, 256][below(6) as usize];
        let step = [1, 8, 96, 256][below(4) as usize];
        let at = below(units);
        let ticket = tickets[below(tickets.len() as u32) as usize];
        let mut heap = heaps.heap_mut(number).unwrap();
        assert_eq!(heap.number(), number);
        let granted = match below(26) {
            0 | 1 => both!(space, heap, |it, _moved| it.allocate(size)),
            2 | 3 => both!(space, heap, |it, _moved| it.allocate_aligned(size, align)),
            4 => both!(space, heap, |it, _moved| it.allocate_tight(size)),
            5 => both!(space, heap, |it, _moved| it.allocate_tight_aligned(size, align)),
            6 => both!(space, heap, |it, _moved| it.allocate_at(at, size)),
            7 => both!(space, heap, |it, _moved| it.relocate(ticket)),
            8 => both!(space, heap, |it, _moved| it.relocate_aligned(ticket, align)),
            9 => both!(space, heap, |it, _moved| it.relocate_unaligned(ticket)),
            call => {
                match call {
                    10..=13 => drop(both!(space, heap, |it, _moved| it.free(ticket))),
                    14 => drop(both!(space, heap, |it, _moved| it.shrink(ticket, size))),
                    15 => drop(both!(space, heap, |it, _moved| it.grow_in_place(ticket, size))),
                    16 => drop(both!(space, heap, |it, moved| it.compact(moved))),
                    17 => drop(both!(space, heap, |it, moved| it.compact_by(step, moved))),
                    18 => both!(space, heap, |it, moved| it.compact_unaligned(moved)),
                    19 => drop(both!(space, heap, |it, moved| it.compact_within(at, size, align, moved))),
                    20 => drop(both!(space, heap, |it, moved| it.compact_within_by(step, at, size, align, moved))),
                    21 => drop(both!(space, heap, |it, moved| it.make_room(size, moved))),
                    22 => drop(both!(space, heap, |it, moved| it.make_room_aligned(size, align, moved))),
                    23 => drop(both!(space, heap, |it, moved| it.make_room_by(size, align, step, moved))),
                    24 => drop(both!(space, heap, |it, moved| it.make_room_unaligned(size, moved))),
                    _ if below(20) == 0 => both!(space, heap, |it, _moved| it.reset()),
                    _ if below(20) == 0 => drop(both!(space, heap, |it, _moved| it.extend(size))),
                    // a heap keeps the units that it was made with
                    _ if below(5) == 0 => {
                        let kept = u64::from(units) + u64::from(size) <= u64::from(space.size());
                        assert_eq!(heap.retract(size), kept && space.retract(size));
                    }
                    _ => both!(space, heap, |it, _moved| it.raise_step(align)),
                }
                None
            }
        };
        // the questions of a space are asked of the heap
        assert_eq!(heap.step(), space.step());
        assert_eq!(heap.statistics(), space.statistics());
        if let Some(ticket) = granted {
            let place = heap.place(ticket);
            assert_eq!((place.heap, place.realm, place.ticket(ticket.offset)), (number, 7, ticket));
            assert_eq!(heaps.offset_of(place), Some(ticket.offset));
            tickets.push(ticket);
        }
        if tickets.len() > 40 {
            tickets.drain(..20);
        }
        // blocks, bins, names and serials
        let states = [heaps.heap(number).unwrap(), &space].map(|it| it.write_state(Global).unwrap().to_vec());
        assert_eq!(states[0], states[1]);
        for k in (0..3).filter(|&k| k != number) {
            assert_eq!(heaps.heap(k).map(|it| blocks(it.allocator())), others[k as usize]);
        }
        // the index: what heaps with one that was made anew say
        let bytes = heaps.write_state(Global).unwrap();
        let anew = HeapsOf::<T>::read_state(Global, &bytes, 4, 64).ok().unwrap();
        assert_eq!(heaps.totals(), anew.totals());
        for size in [1, size + 1, 1500, 4000] {
            assert_eq!(heaps.refusal(size), anew.refusal(size));
            assert_eq!(heaps.refusal_aligned(size, align), anew.refusal_aligned(size, align));
        }
        let (mut one, mut other) = (heaps.try_clone(Global).unwrap(), anew);
        assert_eq!(one.allocate(size), other.allocate(size));
        assert_eq!(one.allocate_aligned(size, 4), other.allocate_aligned(size, 4));
        assert_eq!(one.drop_empty(0), other.drop_empty(0));
    }
}

#[test]
fn a_heap_does_what_a_space_does() {
    for seed in 1..=40 {
        for first_allocs in [64, 12] {
            plays::<ByNode<u32>>(seed, first_allocs, 300);
            plays::<ByNode<u16>>(seed + 100, first_allocs, 300);
            plays::<ByField<u32>>(seed + 200, first_allocs, 300);
        }
    }
}

#[test]
fn a_number_without_a_heap_has_none_to_change() {
    let mut heaps = HeapsOf::<ByNode<u32>>::with_realms(Global, limits(64), 7, 40).unwrap();
    assert!(heaps.heap_mut(0).is_none() && heaps.heap_mut(4).is_none() && heaps.heap_mut(u32::MAX).is_none());
}
