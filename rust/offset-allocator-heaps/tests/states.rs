//! States of many heaps: bytes of random ones, read back, and bytes that were changed or made up. None panics; what is wrong
//! with them, and where, is worked out here anew; each that is read is written back; and heaps that were read, or copied,
//! give the same answers as those that were written, places included.
//!
//! `STATES=10000000 cargo test --release --test states` tries as many changed states.

#[path = "../../random.rs"]
mod random;

use offset_allocator::{ByField, ByNode, Tables};
use offset_allocator_heaps::{Global, Heaps, HeapsOf, Limits, Place, ReadError, StateFault, StateFaultKind};
use offset_guarded::GuardedOf;
use random::Random;
use std::collections::BTreeMap;

// What was read, or what is wrong with the bytes: memory is not out here.
fn known<T, F>(read: Result<T, ReadError<F>>) -> Result<T, F> {
    read.map_err(|error| match error {
        ReadError::Memory => panic!("memory"),
        ReadError::Fault(fault) => fault,
    })
}

fn count() -> u64 {
    std::env::var("STATES").map_or(100_000, |it| it.parse().expect("a number"))
}

// The numbers of 64 bits that a state begins with, without the checksum, and the bytes behind that: written here anew.
fn parts(state: &[u8]) -> (Vec<u64>, Vec<u8>) {
    let number = |place: usize| u64::from_le_bytes(state[8 * place..8 * place + 8].try_into().unwrap());
    let slots = (number(6) + number(7)) as usize;
    ((0..11 + slots).map(number).collect(), state[96 + 8 * slots..].to_vec())
}

fn joined(numbers: &[u64], rest: &[u8]) -> Vec<u8> {
    let sum = numbers.iter().fold(0u64, |sum, it| sum.wrapping_mul(1_099_511_628_211).wrapping_add(*it));
    let all = numbers.iter().chain([&sum]).flat_map(|it| it.to_le_bytes());
    all.chain(rest.iter().copied()).collect()
}

// Heaps, and the places that they granted.
struct Worked<T: Tables<Index = u32>> {
    heaps: HeapsOf<T>,
    held: Vec<Place>,
    made: u64,
}

impl<T: Tables<Index = u32>> Worked<T> {
    // One random call, and the answer. Places that were freed stay in the list.
    fn call(&mut self, random: &mut Random) -> String {
        let bits = random.below(12);
        let size = random.below(1 << bits);
        let (kind, align) = (random.below(10), 1 << random.below(4));
        let chosen = (!self.held.is_empty()).then(|| self.held[random.below(self.held.len() as u32) as usize]);
        match (kind, chosen) {
            (0..=4, _) => {
                let align = if kind < 3 { 1 } else { align };
                let is_tight = random.below(8) == 0;
                let granted = if is_tight { self.heaps.allocate_tight_aligned(size, align) } else { self.heaps.allocate_aligned(size, align) };
                if let Ok(it) = granted {
                    self.held.push(it.place);
                    self.made += u64::from(it.is_new);
                }
                format!("{granted:?}")
            }
            (5..=7, Some(place)) => format!("{}", self.heaps.free(place)),
            (8, _) => format!("{:?}", self.heaps.drop_empty(random.below(2))),
            _ => match random.below(20) {
                0 => {
                    self.heaps.reset();
                    String::new()
                }
                1 => format!("{}", self.heaps.give_up(random.below(6))),
                2 | 3 => format!("{:?}", self.heaps.extend_heap(random.below(6), random.below(300))),
                4 => {
                    let mut moves = Vec::new();
                    self.heaps.compact(|number, it| moves.push((number, it.from, it.to, it.size)));
                    format!("{moves:?}")
                }
                _ => format!("{:?}", self.heaps.totals()),
            },
        }
    }
}

fn worked<T: Tables<Index = u32>>(random: &mut Random) -> Worked<T> {
    let max_allocs = 4 + random.below(36);
    let least = max_allocs.min(8);
    let size = random.below(1_500);
    let limits = Limits {
        size,
        first_size: if random.below(2) == 0 { size } else { size.min(1 + random.below(size.max(1))) },
        max_allocs,
        first_allocs: least + random.below(max_allocs - least + 1),
        most: random.below(6),
        most_larger: random.below(4),
    };
    let heaps = HeapsOf::with_realm(Global, limits, random.next() as u32).unwrap();
    let mut made = Worked { heaps, held: Vec::new(), made: 0 };
    for _ in 0..random.below(150) {
        made.call(random);
    }
    made
}

fn written<T: Tables>(heaps: &HeapsOf<T>) -> Vec<u8> {
    heaps.write_state(Global).unwrap().into()
}

fn goes_on<T: Tables<Index = u32>>(seed: u64, rounds: u64) {
    let mut random = Random(seed);
    for round in 0..rounds {
        let mut own = worked::<T>(&mut random);
        let state = written(&own.heaps);
        // the numbers, as the calls so far have them, and the states of the heaps
        let limits = own.heaps.limits();
        let slots = limits.most + limits.most_larger;
        let mut wanted = vec![0x5348_414f, 3, limits.size.into(), limits.first_size.into(), limits.max_allocs.into(), limits.first_allocs.into()];
        wanted.extend([limits.most.into(), limits.most_larger.into(), own.made, own.heaps.realm().into(), 0]);
        let mut states = Vec::new();
        for number in 0..slots {
            if let Some(heap) = own.heaps.heap(number) {
                states.extend(Vec::from(heap.write_state(Global).unwrap()));
            }
            wanted.push(states.len() as u64);
        }
        assert_eq!(parts(&state), (wanted.clone(), states.clone()));
        assert_eq!(joined(&wanted, &states), state);
        let heaps = if round % 2 == 0 {
            known(HeapsOf::<T>::read_state(Global, &state, slots, limits.max_allocs)).unwrap()
        } else {
            own.heaps.try_clone(Global).unwrap()
        };
        assert_eq!(written(&heaps), state);
        let mut other = Worked { heaps, held: own.held.clone(), made: own.made };
        for place in &own.held {
            assert_eq!(other.heaps.is_live(*place), own.heaps.is_live(*place));
            let range = (own.heaps.size_of(*place), own.heaps.offset_of(*place));
            assert_eq!((other.heaps.size_of(*place), other.heaps.offset_of(*place)), range);
        }
        let start = random.next();
        let (mut one, mut two) = (Random(start), Random(start));
        for _ in 0..100 {
            assert_eq!(other.call(&mut two), own.call(&mut one));
        }
        assert_eq!(written(&other.heaps), written(&own.heaps));
    }
}

#[test]
fn heaps_that_were_read_or_copied_go_on_alike() {
    goes_on::<ByNode<u32>>(1, 1_000);
    goes_on::<ByField<u32>>(2, 1_000);
}

const MOST: u64 = 40;

// What is wrong with the numbers before states of so many bytes, if anything is but the realm or the state of a heap.
fn fault_of(numbers: &[u64], rest: usize) -> Option<(usize, StateFaultKind)> {
    if (numbers[0], numbers[1]) != (1_397_244_239, 3) {
        return Some((0, StateFaultKind::Form));
    }
    let length = 8 * numbers.len() + 8 + rest;
    let bad = |place: usize, is_bad: bool, kind| is_bad.then_some((8 * place, kind));
    let slots = numbers[6].wrapping_add(numbers[7]);
    None.or_else(|| bad(2, numbers[2] >= 1 << 32, StateFaultKind::Limits))
        .or_else(|| bad(3, numbers[3] > numbers[2] || numbers[3] == 0 && numbers[2] != 0, StateFaultKind::Limits))
        .or_else(|| bad(4, numbers[4] < 4 || numbers[4] > MOST, StateFaultKind::Limits))
        .or_else(|| bad(5, numbers[5] > numbers[4] || numbers[5] < 8 && numbers[5] != numbers[4], StateFaultKind::Limits))
        .or_else(|| bad(6, numbers[6] > MOST, StateFaultKind::Limits))
        .or_else(|| bad(7, numbers[7] > MOST || slots > MOST, StateFaultKind::Limits))
        .or_else(|| bad(8, numbers[8] >= 1 << 32, StateFaultKind::Counts))
        .or_else(|| bad(9, numbers[9] >= 1 << 32, StateFaultKind::Counts))
        .or_else(|| (slots > (length as u64 - 96) / 8).then_some((length, StateFaultKind::Length)))
        .or_else(|| bad(11 + slots as usize, slots != numbers.len() as u64 - 11, StateFaultKind::Checksum))
        .or_else(|| bad(10, numbers[10] != 0, StateFaultKind::Place))
        .or_else(|| bad(10 + slots as usize, numbers[10 + slots as usize] != rest as u64, StateFaultKind::Place))
}

// Changes some of the numbers.
fn change(numbers: &mut Vec<u64>, random: &mut Random) {
    for _ in 0..random.below(4) {
        let place = random.below(numbers.len() as u32) as usize;
        match random.below(8) {
            0 => numbers[place] = u64::from(random.below(50)),
            1 => numbers[place] = random.next(),
            2 => numbers[place] = numbers[place].wrapping_add(1),
            3 => numbers[place] = numbers[place].wrapping_sub(1),
            // the realm of the heap that was made last, and that of all
            4 => numbers[8] = u64::from(random.below(90)),
            5 => numbers[9] = u64::from(random.next() as u32),
            // one larger heap more, which has no state, or two in another order
            6 => {
                numbers.push(*numbers.last().unwrap());
                numbers[7] = numbers[7].wrapping_add(1);
            }
            _ => {
                let other = random.below(numbers.len() as u32) as usize;
                numbers.swap(place, other);
            }
        }
    }
}

#[test]
fn changed_states_are_read_or_refused() {
    let mut random = Random(3);
    let (mut read, mut kinds) = (0u64, BTreeMap::<String, u64>::new());
    let mut own = worked::<ByNode<u32>>(&mut random);
    let (mut old, mut rest) = parts(&written(&own.heaps));
    for round in 0..count() {
        if round % 16 == 0 {
            own = worked(&mut random);
            (old, rest) = parts(&written(&own.heaps));
        }
        let mut numbers = old.clone();
        change(&mut numbers, &mut random);
        let state = joined(&numbers, &rest);
        let wanted = fault_of(&numbers, rest.len());
        match known(Heaps::<u32>::read_state(Global, &state, MOST as u32, MOST as u32)) {
            Err(StateFault { at, kind }) => {
                assert!(at <= state.len());
                match wanted {
                    Some(wanted) => assert_eq!((at, kind), wanted, "{numbers:?}"),
                    None => assert!(matches!(
                        kind,
                        StateFaultKind::Place | StateFaultKind::Realm | StateFaultKind::Size | StateFaultKind::Heap(_)
                    )),
                }
                if kind == StateFaultKind::Size {
                    // at the start of a heap, and the limits were changed, or which heaps there are
                    let start = 8 * numbers.len() + 8;
                    let slots = numbers.len() - 11;
                    assert!((0..slots).any(|k| numbers[11 + k] > numbers[10 + k] && start as u64 + numbers[10 + k] == at as u64));
                    assert!(numbers[2..8] != old[2..8] || numbers[10..] != old[10..]);
                }
                *kinds.entry(format!("{kind:?}").split('(').next().unwrap().into()).or_default() += 1;
            }
            Ok(heaps) => {
                read += 1;
                assert_eq!(wanted, None, "{numbers:?}");
                assert_eq!(written(&heaps), state);
                let made = numbers[8];
                let limits = heaps.limits();
                for number in 0..limits.most + limits.most_larger {
                    let Some(heap) = heaps.heap(number) else { continue };
                    let (size, limit) = (heap.allocator().size(), heap.allocator().max_allocs());
                    assert!(u64::from(heap.realm()) <= made);
                    if number < limits.most {
                        // twice the units of the one before it, up to the size of the limits; it may have more
                        let usual = (0..number).fold(limits.first_size, |units, _| units.saturating_mul(2).min(limits.size));
                        assert!(size >= usual);
                        assert!((limits.first_allocs..=limits.max_allocs).contains(&limit));
                    } else {
                        assert!(size > 0 && limit == 4);
                    }
                }
                let mut other = Worked { heaps, held: own.held.clone(), made };
                for _ in 0..6 {
                    other.call(&mut random);
                }
            }
        }
    }
    println!("{read} of {} read; faults: {kinds:?}", count());
    assert!(read > count() / 20);
    let all = ["Checksum", "Counts", "Form", "Heap", "Length", "Limits", "Place", "Realm", "Size"];
    assert_eq!(kinds.keys().map(String::as_str).collect::<Vec<_>>(), all);
}

// Some bytes fewer, one more, or another bit.
#[test]
fn changed_bytes_are_refused() {
    let mut random = Random(4);
    let mut later = 0;
    for _ in 0..count() / 50 {
        let own = worked::<ByNode<u32>>(&mut random);
        let mut state = written(&own.heaps);
        let read = |state: &[u8]| known(Heaps::<u32>::read_state(Global, state, 100, 100));
        let last = 8 * parts(&state).0.len() - 8;
        let cut = random.below(state.len() as u32) as usize;
        let fault = read(&state[..cut]).err().unwrap();
        let wanted = if cut < last + 16 { (cut, StateFaultKind::Length) } else { (last, StateFaultKind::Place) };
        assert_eq!((fault.at, fault.kind), wanted);
        state.push(0);
        assert_eq!(read(&state).err(), Some(StateFault { at: last, kind: StateFaultKind::Place }));
        state.pop();
        let place = random.below(state.len() as u32) as usize;
        state[place] ^= 1 << random.below(8);
        let fault = read(&state).err().unwrap();
        assert!(fault.at <= state.len());
        assert_eq!(matches!(fault.kind, StateFaultKind::Heap(_)), place >= last + 16);
        if place >= last + 16 {
            // what that heap alone is refused for, behind the heaps before it
            let (numbers, rest) = parts(&state);
            let start = last + 16;
            let heap = (11..numbers.len()).find(|k| place < start + numbers[*k] as usize).unwrap();
            let (from, to) = (numbers[heap - 1] as usize, numbers[heap] as usize);
            let own = known(GuardedOf::<ByNode<u32>>::read_state(Global, &rest[from..to], 100)).err().unwrap();
            assert_eq!((fault.at, fault.kind), (start + from + own.at, StateFaultKind::Heap(own.kind)));
            later += u32::from(from > 0);
        }
    }
    assert!(later > 100);
}

#[test]
fn made_up_bytes_are_refused() {
    let mut random = Random(5);
    for _ in 0..count() / 4 {
        let length = random.below(200) as usize;
        let mut made: Vec<u8> = (0..length).map(|_| if random.below(3) == 0 { random.next() as u8 } else { 0 }).collect();
        if length >= 16 && random.below(2) == 0 {
            made[..16].copy_from_slice(b"OAHS\0\0\0\0\x03\0\0\0\0\0\0\0");
        }
        assert!(known(Heaps::<u32>::read_state(Global, &made, u32::MAX, u32::MAX)).is_err());
    }
    // no limit is a number to request memory by before the caller admits it
    let limits = Limits { size: 10, first_size: 10, max_allocs: 100, first_allocs: 100, most: 3, most_larger: 2 };
    let heaps = Heaps::<u32>::with_realm(Global, limits, 7).unwrap();
    let state = written(&heaps);
    let fault = |most, allocs| known(Heaps::<u32>::read_state(Global, &state, most, allocs)).err();
    assert_eq!(fault(5, 100), None);
    assert_eq!(fault(5, 99), Some(StateFault { at: 32, kind: StateFaultKind::Limits }));
    assert_eq!(fault(4, 100), Some(StateFault { at: 56, kind: StateFaultKind::Limits }));
    assert_eq!(fault(2, 100), Some(StateFault { at: 48, kind: StateFaultKind::Limits }));
    let error: Box<dyn std::error::Error> = fault(2, 100).unwrap().into();
    assert_eq!(error.to_string(), "limits that are not admitted, at byte 48");
}
