//! Plays a recorded program on each allocator, and prints rows, separated by tabs. It takes no times.
//!
//! - `corpus`: the names of all programs.
//! - `corpus NAME`: `requests COUNT`; `peak BYTES`; `least ALLOCATOR SPACE`, the smallest space that refuses nothing;
//!   `refusing ALLOCATOR SPACE`, the largest that refuses something, of 1,000 sizes up to half above the peak; of ours,
//!   `once SPACE` with one `compact` before the request that makes the peak, and `retried WAY SPACE COUNT UNITS` with one
//!   (`each`), or with `make_room` (`room`), at each refusal, how often, and what moves; `refused PERCENT ALLOCATOR COUNT
//!   FITTING`, the refusals in a space that is this much above the peak, and how many of them a free block was large enough
//!   for; `moving PERCENT WAY REFUSED ROUNDED COUNT UNITS MOST`, what `Moved` has.
mod best_fit;
mod moving;
mod peers;
mod traces;

use best_fit::BestFit;
use moving::{moving, Way, WAYS};
use peers::{Answers, REFUSED, RELEASED};
use std::collections::BTreeMap;
use traces::{Step, Trace};

type Ours = offset_allocator_proved::Allocator;

const PERCENT: [u32; 3] = [0, 1, 5];
/// The same where ranges move.
const MOVING: [u32; 4] = [0, 1, 2, 5];
/// The sizes that are tried below a least space that was found: right below it, and spread from the peak on.
const TRIED: u32 = 1000;
/// The largest space that all admit.
const LARGEST: u32 = i32::MAX as u32;

pub trait Space {
    type Range: Copy;
    fn make(size: u32, nodes: u32) -> Self;
    /// The range, and its offset.
    fn take(&mut self, size: u32) -> Option<(Self::Range, u32)>;
    fn put(&mut self, range: Self::Range);
}

impl Space for offset_allocator::Allocator {
    type Range = offset_allocator::Allocation;
    fn make(size: u32, nodes: u32) -> Self {
        Self::with_max_allocs(size, nodes)
    }
    fn take(&mut self, size: u32) -> Option<(Self::Range, u32)> {
        self.allocate(size).map(|range| (range, range.offset))
    }
    fn put(&mut self, range: Self::Range) {
        self.free(range);
    }
}

impl Space for Ours {
    type Range = offset_allocator_proved::Allocation;
    fn make(size: u32, nodes: u32) -> Self {
        Self::with_max_allocs(offset_allocator_proved::Global, size, nodes).unwrap()
    }
    fn take(&mut self, size: u32) -> Option<(Self::Range, u32)> {
        self.allocate(size).map(|range| (range, range.offset))
    }
    fn put(&mut self, range: Self::Range) {
        self.free(range);
    }
}

/// Ours with `allocate_tight`.
pub struct Tight(Ours);

impl Space for Tight {
    type Range = offset_allocator_proved::Allocation;
    fn make(size: u32, nodes: u32) -> Self {
        Tight(Ours::make(size, nodes))
    }
    fn take(&mut self, size: u32) -> Option<(Self::Range, u32)> {
        self.0.allocate_tight(size).map(|range| (range, range.offset))
    }
    fn put(&mut self, range: Self::Range) {
        self.0.put(range);
    }
}

/// The answers to the steps. Before each step `prepare` is called, with its number and size. What was refused is not released.
fn play<S: Space>(size: u32, trace: &Trace, mut prepare: impl FnMut(&mut S, usize, u32)) -> Vec<u64> {
    let mut space = S::make(size, trace.nodes);
    let mut slots: Vec<Option<S::Range>> = vec![None; trace.slots as usize];
    let mut answer = |(at, step): (usize, &Step)| {
        prepare(&mut space, at, step.size);
        let slot = &mut slots[step.slot as usize];
        if step.size == 0 {
            return slot.take().map_or(REFUSED, |range| {
                space.put(range);
                RELEASED
            });
        }
        space.take(step.size).map_or(REFUSED, |(range, offset)| {
            *slot = Some(range);
            offset.into()
        })
    };
    trace.steps.iter().enumerate().map(&mut answer).collect()
}

/// Ours with a `compact` before this step.
fn once(size: u32, trace: &Trace, at: usize) -> Vec<u64> {
    let prepare = |space: &mut Ours, step: usize, _: u32| {
        if step == at {
            space.compact(|_| ());
        }
    };
    play(size, trace, prepare)
}

type Player = Box<dyn Fn(u32, &Trace) -> Vec<u64>>;

fn in_c(answers: Answers) -> Player {
    Box::new(move |size, trace| {
        let mut found = vec![0; trace.steps.len()];
        let (slots, steps) = (trace.slots as usize, &trace.steps);
        unsafe { answers(size, trace.nodes, slots, steps.as_ptr(), steps.len(), found.as_mut_ptr()) };
        found
    })
}

extern "C" {
    fn tuned_answers_32(size: u32, nodes: u32, slots: usize, steps: *const Step, count: usize, to: *mut u64) -> u64;
}

fn in_rust<S: Space + 'static>() -> Player {
    Box::new(|size, trace| play::<S>(size, trace, |_, _, _| ()))
}

/// The first step that makes the peak, and its bytes.
fn peak(trace: &Trace) -> (usize, u32) {
    let mut sizes = vec![0; trace.slots as usize];
    let (mut now, mut found) = (0, (0, 0));
    for (at, step) in trace.steps.iter().enumerate() {
        now = now + step.size - sizes[step.slot as usize];
        sizes[step.slot as usize] = step.size;
        if now > found.1 {
            found = (at, now);
        }
    }
    found
}

/// The smallest space that is enough, from the peak on. A larger one may refuse what a smaller one grants: so below what a
/// bisection finds further sizes are tried, until none is enough.
fn least(peak: u32, enough: impl Fn(u32) -> bool) -> u32 {
    let bisect = |mut high: u32| {
        let mut low = peak - 1;
        while high - low > 1 {
            let middle = low + (high - low) / 2;
            *(if enough(middle) { &mut high } else { &mut low }) = middle;
        }
        high
    };
    let mut high = peak;
    while !enough(high) {
        assert!(high < LARGEST, "nothing is enough");
        high = high.saturating_mul(2).min(LARGEST);
    }
    let mut found = bisect(high);
    loop {
        let spread = (0..u64::from(TRIED)).map(|i| peak + (u64::from(found - peak) * i / u64::from(TRIED)) as u32);
        let below = spread.chain(found.saturating_sub(TRIED).max(peak)..found);
        let Some(smaller) = below.filter(|space| *space < found).find(|space| enough(*space)) else { return found };
        found = bisect(smaller);
    }
}

/// The largest space that is not enough, of sizes spread from the peak to half above it; 0 where all are.
fn refusing(peak: u32, enough: impl Fn(u32) -> bool) -> u32 {
    let sizes = (0..=TRIED).map(|i| peak + (u64::from(peak) * u64::from(i) / u64::from(2 * TRIED)) as u32);
    sizes.rev().find(|space| !enough(*space)).unwrap_or(0)
}

/// The refused requests, and how many of them fit in a free block; checks that no live ranges overlap.
fn refusals(size: u32, trace: &Trace, answers: &[u64]) -> (usize, usize) {
    let mut live: BTreeMap<u32, u32> = BTreeMap::new();
    let mut offsets = vec![0; trace.slots as usize];
    let (mut refused, mut fitting) = (0, 0);
    for (step, &answer) in trace.steps.iter().zip(answers) {
        let slot = &mut offsets[step.slot as usize];
        match answer {
            RELEASED => assert!(live.remove(slot).is_some()),
            REFUSED if step.size == 0 => {}
            REFUSED => {
                let (mut end, mut largest) = (0, 0);
                for (start, next) in live.iter().map(|(start, size)| (*start, start + size)).chain([(size, size)]) {
                    largest = largest.max(start - end);
                    end = next;
                }
                refused += 1;
                fitting += usize::from(largest >= step.size);
            }
            _ => {
                *slot = answer as u32;
                let end = *slot + step.size;
                assert!(end <= size && live.range(..end).next_back().map_or(true, |(start, size)| start + size <= *slot));
                live.insert(*slot, step.size);
            }
        }
    }
    (refused, fitting)
}

fn main() {
    let Some(name) = std::env::args().nth(1) else {
        traces::names().iter().for_each(|name| println!("{name}"));
        return;
    };
    let trace = traces::read(&name);
    let mut sides = vec![
        ("ours".to_string(), in_rust::<Ours>()),
        ("tight".to_string(), in_rust::<Tight>()),
        ("original".to_string(), in_rust::<offset_allocator::Allocator>()),
        ("c".to_string(), in_c(tuned_answers_32)),
    ];
    sides.extend(peers::all().into_iter().map(|(name, _, answers)| (name, in_c(answers))));
    sides.push(("best".to_string(), in_rust::<BestFit>()));
    let (at, peak) = peak(&trace);
    println!("requests\t{}\npeak\t{peak}", trace.slots);
    for (side, play) in &sides {
        let enough = |size| !play(size, &trace).contains(&REFUSED);
        let space = least(peak, enough);
        assert_eq!(refusals(space, &trace, &play(space, &trace)), (0, 0));
        println!("least\t{side}\t{space}");
        println!("refusing\t{side}\t{}", refusing(peak, enough));
    }
    println!("once\t{}", least(peak, |size| !once(size, &trace, at).contains(&REFUSED)));
    for (name, way, checked) in [("each", Way::Each, Way::Each), ("room", Way::Room, Way::Searched)] {
        let space = least(peak, |size| !moving(size, &trace, way).0.contains(&REFUSED));
        let (answers, found) = moving(space, &trace, checked);
        assert!(!answers.contains(&REFUSED));
        println!("retried\t{name}\t{space}\t{}\t{}", found.times, found.units);
    }
    let above = |percent: u32| (u64::from(peak) * u64::from(100 + percent) / 100) as u32;
    for percent in MOVING {
        for (name, way) in WAYS {
            let found = moving(above(percent), &trace, way).1;
            println!("moving\t{percent}\t{name}\t{}\t{}\t{}\t{}\t{}", found.refused, found.rounded, found.times, found.units, found.most);
        }
    }
    for percent in PERCENT {
        let size = above(percent);
        // with refusals the player in C requests 0 units where others do nothing
        for (side, play) in sides.iter().filter(|(side, _)| side != "c") {
            let (refused, fitting) = refusals(size, &trace, &play(size, &trace));
            println!("refused\t{percent}\t{side}\t{refused}\t{fitting}");
        }
    }
}
