//! The arena of the example `release_queue`, with ranges that eight threads use and release.
#[path = "../../random.rs"]
mod random;
#[path = "../examples/release_queue.rs"]
mod release_queue;

use random::Xorshift;
use release_queue::{Arena, Range};
use std::sync::atomic::{AtomicU32, Ordering::SeqCst};
use std::sync::mpsc::channel;

// A worker releases a range only when it gets another, so a request must be granted once all have taken what was sent. Then
// at most 240 ranges of 100 units are live. A request of 100 is refused only where each free block, of at most 241, has less
// than 104 units: so in less than 50,000 units.
const UNITS: u32 = 1 << 16;
const THREADS: u32 = 8;

fn next(random: &mut Xorshift) -> u32 {
    (random.next() >> 32) as u32
}

#[test]
fn eight_threads_release() {
    const RANGES: u32 = 40_000;
    // who uses each unit: 0 for nobody
    let users: Vec<AtomicU32> = (0..UNITS).map(|_| AtomicU32::new(0)).collect();
    let exchange = |range: &Range, from: u32, to: u32| {
        for user in &users[range.start() as usize..(range.start() + range.units()) as usize] {
            assert_eq!(user.swap(to, SeqCst), from, "{range:?}");
        }
    };
    let mut arena = Arena::new(UNITS, 1024).unwrap();
    std::thread::scope(|scope| {
        let mut workers = Vec::new();
        for thread in 1..=THREADS {
            let (to, ranges) = channel::<Range>();
            let exchange = &exchange;
            scope.spawn(move || {
                let (mut held, mut random) = (Vec::<Range>::new(), Xorshift(u64::from(thread)));
                for range in ranges {
                    exchange(&range, 0, thread);
                    held.push(range);
                    // a random one is released, while the owner requests others
                    if held.len() > 30 {
                        let range = held.swap_remove(next(&mut random) as usize % held.len());
                        exchange(&range, thread, 0);
                        drop(range);
                    }
                }
                held.iter().for_each(|range| exchange(range, thread, 0));
            });
            workers.push(to);
        }
        let mut random = Xorshift(99);
        for number in 0..RANGES {
            let size = 1 + next(&mut random) % 100;
            let range = loop {
                match arena.request(size) {
                    Some(range) => break range,
                    None => std::thread::yield_now(),
                }
            };
            assert_eq!(range.units(), size);
            assert!(workers[(number % THREADS) as usize].send(range).is_ok());
        }
    });
    arena.drain();
    let space = arena.space();
    assert_eq!((space.block_count(), space.storage_report().total_free_space), (1, UNITS));
    assert_eq!(arena.drain(), 0);
}

#[test]
fn a_release_is_free_after_it_is_drained() {
    let mut arena = Arena::new(100, 16).unwrap();
    let [first, second] = [40, 60].map(|size| arena.request(size).unwrap());
    assert_eq!([first.start(), second.start()], [0, 40]);
    drop(first);
    // not yet drained
    assert_eq!(arena.space().storage_report().total_free_space, 0);
    assert_eq!(arena.drain(), 1);
    assert_eq!(arena.space().storage_report().total_free_space, 40);
    drop(second);
    // 48 units fit only what comes back with the second one; the request drains for itself
    assert_eq!(arena.request(48).unwrap().start(), 0);
    // a range may outlive its arena
    let last = arena.request(1).unwrap();
    drop(arena);
    drop(last);
}
