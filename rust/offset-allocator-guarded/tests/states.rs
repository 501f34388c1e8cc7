//! States with tickets: bytes of random spaces, read back, and bytes that were changed or made up. None panics; what is
//! wrong with them, and where, is worked out here anew; each that is read is written back; and a space that was read gives
//! the same answers as the one that was written, tickets included.
//!
//! `STATES=10000000 cargo test --release --test states` tries as many changed states.

#[path = "../../random.rs"]
mod random;

use offset_allocator::{ByField, ByNode, StateFaultKind as SpaceFault, Tables};
use offset_allocator_guarded::{Global, GuardedOf, ReadError, StateFault, StateFaultKind, Ticket};
use random::Random;
use std::collections::{BTreeMap, HashMap};

// What was read, or what is wrong with the bytes: memory is not out here.
fn known<T, F>(read: Result<T, ReadError<F>>) -> Result<T, F> {
    read.map_err(|error| match error {
        ReadError::Memory => panic!("memory"),
        ReadError::Fault(fault) => fault,
    })
}

fn count() -> u64 {
    std::env::var("STATES").map_or(200_000, |it| it.parse().expect("a number"))
}

// The numbers of 64 bits that a state begins with, without the checksum, and the bytes behind that: written here anew.
fn parts(state: &[u8]) -> (Vec<u64>, Vec<u8>) {
    let number = |place: usize| u64::from_le_bytes(state[8 * place..8 * place + 8].try_into().unwrap());
    let stored = number(2) as usize;
    ((0..6 + stored).map(number).collect(), state[56 + 8 * stored..].to_vec())
}

fn joined(numbers: &[u64], rest: &[u8]) -> Vec<u8> {
    let sum = numbers.iter().fold(0u64, |sum, it| sum.wrapping_mul(1_099_511_628_211).wrapping_add(*it));
    let all = numbers.iter().chain([&sum]).flat_map(|it| it.to_le_bytes());
    all.chain(rest.iter().copied()).collect()
}

// A space, every ticket that it granted, for each name the serial of its last grant, and the step.
struct Worked<T: Tables<Index = u32>> {
    space: GuardedOf<T>,
    held: Vec<Ticket>,
    last: HashMap<u32, u64>,
    step: Option<u32>,
}

// The least common multiple, where it has 32 bits.
fn common(step: u32, align: u32) -> Option<u32> {
    (1..=u64::from(align)).map(|it| it * u64::from(step)).find(|it| it % u64::from(align) == 0).and_then(|it| it.try_into().ok())
}

impl<T: Tables<Index = u32>> Worked<T> {
    fn grant(&mut self, granted: Option<Ticket>) -> (u64, Option<Ticket>) {
        if let Some(ticket) = granted {
            self.held.push(ticket);
            self.last.insert(ticket.name(), ticket.serial());
        }
        (u64::from(granted.is_some()), granted)
    }

    // One random call; the answer, as a number, and the ticket of a grant. Tickets that were freed stay in the list.
    fn call(&mut self, random: &mut Random) -> (u64, Option<Ticket>) {
        let kind = random.below(9);
        let bits = random.below(9);
        let size = random.below(1 << bits);
        let chosen = (!self.held.is_empty()).then(|| self.held[random.below(self.held.len() as u32) as usize]);
        match (kind, chosen) {
            (0..=2, _) => {
                let granted = self.space.allocate(size);
                self.grant(granted)
            }
            (3, _) => {
                let align = 1 + random.below(40);
                let granted = self.space.allocate_aligned(size, align);
                if granted.is_some() {
                    self.step = self.step.and_then(|it| common(it, align));
                }
                assert_eq!(self.space.step(), self.step);
                self.grant(granted)
            }
            (4, _) => {
                let granted = self.space.allocate_tight(size);
                self.grant(granted)
            }
            (5 | 6, Some(ticket)) => (u64::from(self.space.free(ticket)), None),
            (7, Some(ticket)) => (self.space.grow_in_place(ticket, size).map_or(2, u64::from), None),
            _ => {
                match random.below(60) {
                    0 => self.space.compact_unaligned(|_| {}),
                    1 => {
                        self.space.reset();
                        self.step = Some(1);
                    }
                    2 => return (u64::from(self.space.extend(size)), None),
                    3 => {
                        self.space.raise_step(1 + size);
                        self.step = self.step.and_then(|it| common(it, 1 + size));
                    }
                    _ => {}
                }
                (u64::from(self.space.allocator().storage_report().largest_free_region), None)
            }
        }
    }
}

fn worked<T: Tables<Index = u32>>(random: &mut Random) -> Worked<T> {
    let (size, limit, realm) = (random.below(5_000), 2 + random.below(60), random.next() as u32);
    let space = GuardedOf::with_realm(Global, size, limit, realm).unwrap();
    let mut made = Worked { space, held: Vec::new(), last: HashMap::new(), step: Some(1) };
    for _ in 0..random.below(120) {
        made.call(random);
    }
    made
}

fn written<T: Tables>(space: &GuardedOf<T>) -> Vec<u8> {
    space.write_state(Global).unwrap().into()
}

fn goes_on<T: Tables<Index = u32>>(seed: u64, rounds: u64) {
    let mut random = Random(seed);
    for _ in 0..rounds {
        let mut own = worked::<T>(&mut random);
        let state = written(&own.space);
        // the numbers, as the calls so far have them, and the bytes that the space itself is written to
        let (numbers, rest) = parts(&state);
        let stored = numbers[2] as u32;
        let names = own.last.keys().max().map_or(0, |it| it + 1);
        assert!(stored >= names && stored <= own.space.allocator().max_allocs());
        let serials: Vec<u64> = (0..stored).map(|it| own.last.get(&it).copied().unwrap_or(0)).collect();
        let step = own.step.map_or(0, u64::from);
        let header = [0x4b54_414f, 2, u64::from(stored), own.held.len() as u64, u64::from(own.space.realm()), step];
        assert_eq!(numbers, [&header[..], &serials].concat());
        assert_eq!(rest, <Vec<u8>>::from(own.space.allocator().write_state(Global).unwrap()));
        assert_eq!(joined(&numbers, &rest), state);
        let space = known(GuardedOf::<T>::read_state(Global, &state, own.space.allocator().max_allocs())).unwrap();
        assert_eq!(written(&space), state);
        let mut read = Worked { space, held: own.held.clone(), last: own.last.clone(), step: own.step };
        for ticket in &own.held {
            assert_eq!(read.space.is_live(*ticket), own.space.is_live(*ticket));
            let range = (own.space.size_of(*ticket), own.space.offset_of(*ticket));
            assert_eq!((read.space.size_of(*ticket), read.space.offset_of(*ticket)), range);
        }
        let start = random.next();
        let (mut one, mut other) = (Random(start), Random(start));
        for _ in 0..100 {
            assert_eq!(read.call(&mut other), own.call(&mut one));
        }
        assert_eq!(written(&read.space), written(&own.space));
    }
}

#[test]
fn a_space_that_was_read_goes_on_alike() {
    goes_on::<ByNode<u32>>(1, 1_000);
    goes_on::<ByField<u32>>(2, 1_000);
}

// What is wrong with numbers of tickets whose checksum is right, before a space with these live names.
fn fault_of(numbers: &[u64], live: &[u32], length: usize) -> Option<(usize, StateFaultKind)> {
    let serials = &numbers[6..];
    if (numbers[0], numbers[1]) != (1_263_812_943, 2) {
        return Some((0, StateFaultKind::Form));
    }
    if numbers[2] > (length as u64 - 56) / 8 {
        return Some((length, StateFaultKind::Length));
    }
    if numbers[4] >= 1 << 32 {
        return Some((32, StateFaultKind::Realm));
    }
    if numbers[5] >= 1 << 32 {
        return Some((40, StateFaultKind::Step));
    }
    if let Some(place) = serials.iter().position(|it| *it > numbers[3]) {
        return Some((48 + 8 * place, StateFaultKind::Serial));
    }
    let mut bare: Vec<u32> = live.iter().copied().filter(|it| serials.get(*it as usize).is_none_or(|it| *it == 0)).collect();
    bare.sort_unstable();
    let name = *bare.first()? as usize;
    Some((if name < serials.len() { 48 + 8 * name } else { 16 }, StateFaultKind::Serial))
}

// Changes some of the numbers.
fn change(numbers: &mut Vec<u64>, random: &mut Random) {
    for _ in 0..random.below(4) {
        let place = random.below(numbers.len() as u32) as usize;
        match random.below(8) {
            0 => numbers[place] = u64::from(random.below(70)),
            1 => numbers[place] = random.next(),
            2 => numbers[place] = numbers[place].wrapping_add(1),
            3 => numbers[place] = numbers[place].wrapping_sub(1),
            // the number of grants, and the realm or the step
            4 => numbers[3] = numbers[3].wrapping_add(random.next() >> random.below(64)),
            5 => numbers[4 + random.below(2) as usize] = random.next() >> random.below(64),
            // one serial fewer, or more
            6 if numbers.len() > 6 => {
                numbers.pop();
                numbers[2] = numbers[2].wrapping_sub(1);
            }
            _ => {
                numbers.push(u64::from(random.below(3)));
                numbers[2] = numbers[2].wrapping_add(1);
            }
        }
    }
}

#[test]
fn changed_states_are_read_or_refused() {
    let mut random = Random(3);
    let (mut read, mut kinds) = (0u64, BTreeMap::<String, u64>::new());
    let mut own = worked::<ByNode<u32>>(&mut random);
    let (mut old, mut rest) = parts(&written(&own.space));
    for round in 0..count() {
        if round % 16 == 0 {
            own = worked(&mut random);
            (old, rest) = parts(&written(&own.space));
        }
        let mut numbers = old.clone();
        change(&mut numbers, &mut random);
        let state = joined(&numbers, &rest);
        // as many numbers as the third says are in their place: else the checksum is that of others
        let is_counted = numbers[2] == numbers.len() as u64 - 6;
        let live: Vec<u32> = own.space.allocator().blocks().filter_map(|it| it.allocation).map(|it| it.to_parts().1).collect();
        match known(GuardedOf::<ByNode<u32>>::read_state(Global, &state, 1_000)) {
            Err(StateFault { at, kind }) => {
                assert!(at <= state.len());
                let wanted = fault_of(&numbers, &live, state.len());
                if is_counted || wanted.is_some_and(|(_, kind)| matches!(kind, StateFaultKind::Form | StateFaultKind::Length)) {
                    assert_eq!(Some((at, kind)), wanted, "{numbers:?}");
                }
                *kinds.entry(format!("{kind:?}").split('(').next().unwrap().into()).or_default() += 1;
            }
            Ok(space) => {
                read += 1;
                assert!(is_counted && fault_of(&numbers, &live, state.len()).is_none(), "{numbers:?}");
                assert_eq!(written(&space), state);
                let step = space.step();
                let mut other = Worked { space, held: Vec::new(), last: HashMap::new(), step };
                // what is freed here is never live again
                let mut freed = Vec::new();
                for handle in own.space.allocator().blocks().filter_map(|it| it.allocation) {
                    let ticket = other.space.ticket(handle).unwrap();
                    assert!(ticket.serial() >= 1 && ticket.serial() <= numbers[3]);
                    if random.below(2) == 0 {
                        assert!(other.space.free(ticket));
                        freed.push(ticket);
                    }
                }
                for _ in 0..6 {
                    if let (_, Some(ticket)) = other.call(&mut random) {
                        assert!(ticket.serial() > numbers[3]);
                    }
                    assert!(freed.iter().all(|it| !other.space.is_live(*it)));
                }
            }
        }
    }
    println!("{read} of {} read; faults: {kinds:?}", count());
    assert!(read > count() / 20);
    assert_eq!(kinds.keys().map(String::as_str).collect::<Vec<_>>(), ["Checksum", "Form", "Length", "Realm", "Serial", "Step"]);
}

// One byte more or fewer, or another bit.
#[test]
fn changed_bytes_are_refused() {
    let mut random = Random(4);
    for _ in 0..count() / 50 {
        let own = worked::<ByNode<u32>>(&mut random);
        let mut state = written(&own.space);
        let read = |state: &[u8]| known(GuardedOf::<ByNode<u32>>::read_state(Global, state, 1_000));
        let cut = random.below(state.len() as u32) as usize;
        let fault = read(&state[..cut]).err().unwrap();
        let tickets = 56 + 8 * parts(&state).0[2] as usize;
        let kind = if cut < tickets { StateFaultKind::Length } else { StateFaultKind::Allocator(SpaceFault::Length) };
        assert_eq!((fault.at, fault.kind), (cut, kind));
        state.push(0);
        assert_eq!(read(&state).err(), Some(StateFault { at: state.len(), kind: StateFaultKind::Allocator(SpaceFault::Length) }));
        state.pop();
        let place = random.below(state.len() as u32) as usize;
        state[place] ^= 1 << random.below(8);
        let fault = read(&state).err().unwrap();
        assert!(fault.at <= state.len());
        assert_eq!(matches!(fault.kind, StateFaultKind::Allocator(_)), place >= tickets);
    }
}

#[test]
fn made_up_bytes_are_refused() {
    let mut random = Random(5);
    for _ in 0..count() / 4 {
        let length = random.below(160) as usize;
        let mut made: Vec<u8> = (0..length).map(|_| if random.below(3) == 0 { random.next() as u8 } else { 0 }).collect();
        if length >= 16 && random.below(2) == 0 {
            made[..16].copy_from_slice(b"OATK\0\0\0\0\x02\0\0\0\0\0\0\0");
        }
        assert!(known(GuardedOf::<ByNode<u32>>::read_state(Global, &made, u32::MAX)).is_err());
    }
    // a node limit is no number to request memory by before the caller admits it
    let space: GuardedOf<ByNode<u32>> = GuardedOf::with_realm(Global, 10, 100, 7).unwrap();
    let fault = known(GuardedOf::<ByNode<u32>>::read_state(Global, &written(&space), 99)).err().unwrap();
    assert_eq!((fault.at, fault.kind), (56 + 12, StateFaultKind::Allocator(SpaceFault::Limit)));
    let error: Box<dyn std::error::Error> = fault.into();
    assert_eq!(error.to_string(), "a node limit that is not admitted, at byte 68");
}

#[test]
fn the_last_serial_may_be_given() {
    let mut space: GuardedOf<ByNode<u32>> = GuardedOf::with_realm(Global, 100, 10, 7).unwrap();
    let first = space.allocate(10).unwrap();
    let (mut numbers, rest) = parts(&written(&space));
    numbers[3] = u64::MAX;
    let mut spent = known(GuardedOf::<ByNode<u32>>::read_state(Global, &joined(&numbers, &rest), 10)).unwrap();
    assert!(spent.is_spent() && spent.allocate(1).is_none() && spent.is_live(first) && spent.free(first));
    numbers[3] -= 1;
    let mut last = known(GuardedOf::<ByNode<u32>>::read_state(Global, &joined(&numbers, &rest), 10)).unwrap();
    assert_eq!(last.allocate(1).map(|it| it.serial()), Some(u64::MAX));
    assert!(last.is_spent() && last.allocate(1).is_none());
}
