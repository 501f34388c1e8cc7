//! States: bytes of random spaces, read back and copied, and bytes that were changed or made up. None panics; each that is
//! read is written back; and a copy and a space that was read give the same answers, handles included.
//!
//! `STATES=10000000 cargo test --release --test states` tries as many changed states.

#[path = "../../random.rs"]
mod random;

use offset_allocator_proved::{Allocation, Allocator, AllocatorOf, ByField, ByNode, Global, ReadError, StateFaultKind, Tables};
use random::Random;

// What was read, or what is wrong with the bytes: memory is not out here.
fn known<T, F>(read: Result<T, ReadError<F>>) -> Result<T, F> {
    read.map_err(|error| match error {
        ReadError::Memory => panic!("memory"),
        ReadError::Fault(fault) => fault,
    })
}

fn count() -> u64 {
    std::env::var("STATES").map_or(200_000, |it| it.parse().expect("a number"))
}

// The numbers of bytes, and bytes of numbers: written here anew.
fn words(bytes: &[u8]) -> Vec<u32> {
    bytes.chunks_exact(4).map(|it| u32::from_le_bytes(it.try_into().unwrap())).collect()
}

fn bytes(words: &[u32]) -> Vec<u8> {
    words.iter().flat_map(|it| it.to_le_bytes()).collect()
}

fn summed(mut numbers: Vec<u32>) -> Vec<u8> {
    let sum = numbers.iter().fold(0u32, |sum, it| sum.wrapping_mul(16_777_619).wrapping_add(*it));
    numbers.push(sum);
    bytes(&numbers)
}

// One random call; the answer, as numbers.
fn call<T: Tables<Index = u32>>(space: &mut AllocatorOf<T>, held: &mut Vec<Allocation>, random: &mut Random) -> (u64, Option<Allocation>) {
    let kind = random.below(9);
    let bits = random.below(9);
    let size = random.below(1 << bits);
    let chosen = (!held.is_empty()).then(|| random.below(held.len() as u32) as usize);
    match (kind, chosen) {
        (0..=2, _) => {
            let granted = space.allocate(size);
            held.extend(granted);
            (u64::from(granted.is_some()), granted)
        }
        (3, _) => {
            let granted = space.allocate_aligned(size, 1 << random.below(6));
            held.extend(granted);
            (u64::from(granted.is_some()), granted)
        }
        (4, _) => {
            let granted = space.allocate_tight(size);
            held.extend(granted);
            (u64::from(granted.is_some()), granted)
        }
        (5 | 6, Some(place)) => {
            let handle = held.swap_remove(place);
            if space.is_live(handle) {
                space.free(handle);
            }
            (2, None)
        }
        (7, Some(place)) => {
            let handle = held[place];
            (if space.is_live(handle) { u64::from(space.grow_in_place(handle, size)) } else { 3 }, None)
        }
        _ => {
            match random.below(60) {
                0 => space.compact(|_| {}),
                1 => space.reset(),
                2 => return (u64::from(space.extend(size)), None),
                _ => {}
            }
            (u64::from(space.storage_report().largest_free_region), None)
        }
    }
}

// A space after random calls, and the handles that it granted.
fn worked<T: Tables<Index = u32>>(random: &mut Random) -> (AllocatorOf<T>, Vec<Allocation>) {
    let (size, limit) = (random.below(5_000), 2 + random.below(60));
    let mut space = AllocatorOf::with_max_allocs(Global, size, limit).unwrap();
    let mut held = Vec::new();
    for _ in 0..random.below(120) {
        call(&mut space, &mut held, random);
    }
    (space, held)
}

fn written<T: Tables>(space: &AllocatorOf<T>) -> Vec<u8> {
    space.write_state(Global).unwrap().into()
}

fn goes_on<T: Tables<Index = u32>>(seed: u64, rounds: u64) {
    let mut random = Random(seed);
    for _ in 0..rounds {
        let (mut space, mut held) = worked::<T>(&mut random);
        let state = written(&space);
        let mut copy = space.try_clone(Global).unwrap();
        let mut read = known(AllocatorOf::<T>::read_state(Global, &state, space.max_allocs())).unwrap();
        assert_eq!((written(&copy), written(&read)), (state.clone(), state.clone()));
        // as many bytes as the documentation says
        let free = space.statistics().free_blocks;
        assert_eq!(state.len() as u32, 32 + 8 * space.block_count() + 4 * free + 4 * (space.node_count() - space.block_count()));
        let start = random.next();
        let (mut own, mut copied, mut restored) = (Random(start), Random(start), Random(start));
        let (mut held_copy, mut held_read) = (held.clone(), held.clone());
        for _ in 0..100 {
            let wanted = call(&mut space, &mut held, &mut own);
            assert_eq!(call(&mut copy, &mut held_copy, &mut copied), wanted);
            assert_eq!(call(&mut read, &mut held_read, &mut restored), wanted);
        }
        assert_eq!((written(&copy), written(&read)), (written(&space), written(&space)));
    }
}

#[test]
fn a_copy_and_a_space_that_was_read_go_on_alike() {
    goes_on::<ByNode<u32>>(1, 1_000);
    goes_on::<ByField<u32>>(2, 1_000);
}

// A state that is changed at random, mostly with a checksum that fits again.
fn changed(state: &[u8], random: &mut Random) -> Vec<u8> {
    let mut numbers = words(state);
    numbers.pop();
    for _ in 0..random.below(4) {
        let place = random.below(numbers.len() as u32) as usize;
        let other = random.below(numbers.len() as u32) as usize;
        match random.below(6) {
            0 => numbers[place] = random.below(70),
            1 => numbers[place] = random.next() as u32,
            2 => numbers[place] = numbers[place].wrapping_add(1),
            3 => numbers[place] = numbers[place].wrapping_sub(1),
            4 => numbers.swap(place, other),
            _ => {
                // a name moves from one list to another
                let moved = numbers.remove(place);
                numbers.insert(other.min(numbers.len()), moved);
            }
        }
    }
    let mut state = summed(numbers);
    match random.below(12) {
        0 => state.truncate(random.below(state.len() as u32 + 1) as usize),
        1 => state.push(random.next() as u8),
        2 => {
            let place = random.below(state.len() as u32) as usize;
            state[place] ^= 1 << random.below(8);
        }
        _ => {}
    }
    state
}

#[test]
fn changed_states_are_read_or_refused() {
    let mut random = Random(3);
    let (mut read, mut kinds) = (0u64, std::collections::BTreeMap::<String, u64>::new());
    let mut state = written(&worked::<ByNode<u32>>(&mut random).0);
    for round in 0..count() {
        if round % 16 == 0 {
            state = written(&worked::<ByNode<u32>>(&mut random).0);
        }
        let changed = changed(&state, &mut random);
        match known(AllocatorOf::<ByNode<u32>>::read_state(Global, &changed, 1_000)) {
            Err(fault) => {
                assert!(fault.at <= changed.len(), "{fault:?}");
                *kinds.entry(format!("{:?}", fault.kind)).or_default() += 1;
            }
            Ok(mut space) => {
                read += 1;
                // a space has one list of bytes
                assert_eq!(written(&space), changed);
                let mut held = Vec::new();
                for _ in 0..4 {
                    call(&mut space, &mut held, &mut random);
                }
                assert_eq!(space.statistics().live_units + space.free_units(), space.size());
            }
        }
    }
    println!("{read} of {} read; faults: {kinds:?}", count());
    assert!(read > count() / 20);
    let all = ["Length", "Form", "Limit", "Counts", "Checksum", "Block", "Unused", "Free", "Neighbours"];
    assert_eq!(kinds.len(), all.len(), "each fault occurs: {kinds:?}");
}

#[test]
fn made_up_bytes_are_refused() {
    let mut random = Random(4);
    for _ in 0..count() / 4 {
        let length = random.below(80) as usize;
        let made: Vec<u8> = (0..length).map(|_| if random.below(3) == 0 { random.next() as u8 } else { 0 }).collect();
        assert!(known(AllocatorOf::<ByNode<u32>>::read_state(Global, &made, u32::MAX)).is_err());
    }
    // a node limit is no number to request memory by before the caller admits it
    let space: AllocatorOf<ByNode<u32>> = AllocatorOf::with_max_allocs(Global, 10, 100).unwrap();
    let fault = known(AllocatorOf::<ByNode<u32>>::read_state(Global, &written(&space), 99)).err().unwrap();
    assert_eq!((fault.at, fault.kind), (12, StateFaultKind::Limit));
    assert_eq!(fault.to_string(), "a node limit that is not admitted, at byte 12");
}

#[test]
fn a_state_is_read_by_one_result() {
    fn read(bytes: &[u8]) -> Result<Allocator<u32>, Box<dyn std::error::Error>> {
        Ok(Allocator::read_state(Global, bytes, 1_000)?)
    }
    let space: Allocator<u32> = Allocator::with_max_allocs(Global, 10, 100).unwrap();
    let mut bytes = written(&space);
    assert_eq!(read(&bytes).unwrap().size(), 10);
    bytes.pop();
    let words = format!("another number of bytes than the counts say, at byte {}", bytes.len());
    assert_eq!(read(&bytes).unwrap_err().to_string(), words);
}
