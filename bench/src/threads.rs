//! An allocator a thread, or one for all under a lock, or releases through a queue that the owner drains. All on the
//! erased side, with 1,000 live ranges a thread.
use crate::workloads::Random;
use offset_allocator_proved::{Allocation, Allocator, Global};
use std::sync::mpsc::{channel, Receiver, Sender};
use std::sync::{Barrier, Mutex};
use std::time::Instant;

const STEPS: u32 = 1_000_000;
const LIVE: u32 = 1_000;
const ROUNDS: usize = 5;

fn space() -> Allocator {
    Allocator::with_max_allocs(Global, 1 << 28, 131_072).unwrap()
}

/// Steps on random slots: an empty one gets a range, and a full one gives it to `release`.
fn play<R>(thread: usize, mut request: impl FnMut(u32) -> R, mut release: impl FnMut(R)) {
    let mut random = Random(0x9e3779b97f4a7c15 ^ (thread as u64) << 20);
    let mut slots: Vec<Option<R>> = (0..LIVE).map(|_| None).collect();
    for _ in 0..STEPS {
        let slot = &mut slots[random.below(LIVE) as usize];
        match slot.take() {
            Some(range) => release(range),
            None => *slot = Some(request(random.size(12))),
        }
    }
}

/// Nanoseconds a step, over all threads, of the fastest round. Each thread's work is made by `work` before the clock starts.
fn timed<W: FnOnce() + Send>(threads: usize, work: impl Fn() -> Vec<W>) -> f64 {
    let round = || {
        let start = Barrier::new(threads + 1);
        std::thread::scope(|scope| {
            let handles: Vec<_> = work()
                .into_iter()
                .map(|work| {
                    let start = &start;
                    scope.spawn(move || {
                        start.wait();
                        work();
                    })
                })
                .collect();
            start.wait();
            let at = Instant::now();
            handles.into_iter().for_each(|thread| thread.join().unwrap());
            at.elapsed().as_nanos() as f64 / f64::from(STEPS) / threads as f64
        })
    };
    (0..ROUNDS).map(|_| round()).fold(f64::MAX, f64::min)
}

fn own(threads: usize) -> f64 {
    timed(threads, || {
        let work = |thread| {
            move || {
                let space = std::cell::RefCell::new(space());
                play(thread, |size| space.borrow_mut().allocate(size).unwrap(), |range| space.borrow_mut().free(range));
            }
        };
        (0..threads).map(work).collect()
    })
}

/// With this many spaces, each under its own lock. Thread `t` uses space `t % spaces`.
fn locked(threads: usize, spaces: usize) -> f64 {
    let spaces: Vec<Mutex<Allocator>> = (0..spaces).map(|_| Mutex::new(space())).collect();
    timed(threads, || {
        let work = |thread| {
            let space = &spaces[thread % spaces.len()];
            move || play(thread, |size| space.lock().unwrap().allocate(size).unwrap(), |range| space.lock().unwrap().free(range))
        };
        (0..threads).map(work).collect()
    })
}

/// Each thread owns a space, and gives each range that it releases to the queue of the thread that granted it. Ranges are
/// handed to the next thread at once. An owner drains its queue every 64 grants.
fn queued(threads: usize) -> f64 {
    type Ends<T> = (Vec<Sender<T>>, Vec<Receiver<T>>);
    timed(threads, || {
        let (queues, released): Ends<Allocation> = (0..threads).map(|_| channel()).unzip();
        let (hands, handed): Ends<Allocation> = (0..threads).map(|_| channel()).unzip();
        let work = |(thread, (released, handed)): (usize, (Receiver<Allocation>, Receiver<Allocation>))| {
            let (hand, back) = (hands[(thread + 1) % threads].clone(), queues[(thread + threads - 1) % threads].clone());
            move || {
                let (mut space, mut grants) = (space(), 0);
                let request = |size| {
                    grants += 1;
                    if grants % 64 == 0 {
                        released.try_iter().for_each(|range| space.free(range));
                    }
                    if let Some(range) = space.allocate(size) {
                        // the next thread may have ended
                        let _ = hand.send(range);
                    }
                    // the one before it may have none for us yet
                    handed.try_recv().ok()
                };
                play(thread, request, |range| {
                    range.map(|range| back.send(range));
                });
            }
        };
        released.into_iter().zip(handed).enumerate().map(work).collect()
    })
}

/// The ways, with the nanoseconds of a step.
pub fn all() -> Vec<(String, f64)> {
    vec![
        ("one thread".to_string(), own(1)),
        ("one thread, a lock".to_string(), locked(1, 1)),
        ("four threads, an allocator each".to_string(), own(4)),
        ("four threads, an allocator each, a lock each".to_string(), locked(4, 4)),
        ("two threads, one allocator and lock".to_string(), locked(2, 1)),
        ("four threads, one allocator and lock".to_string(), locked(4, 1)),
        ("four threads, two allocators, a lock each".to_string(), locked(4, 2)),
        ("four threads, an allocator each, each release by another thread".to_string(), queued(4)),
    ]
}
