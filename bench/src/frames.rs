//! Plays a recorded program on ours, with ranges that move in each frame, of 50 calls, within a budget: 64 ranges, and a
//! share of the peak. It takes no times, and prints rows, separated by tabs.
//!
//! - `frames`: the names of all programs.
//! - `frames NAME`: `peak BYTES`; for each share and way `least SHARE WAY SPACE`, the smallest space that refuses nothing, and
//!   `moved SHARE WAY UNITS RANGES LARGEST REFUSED` in a space that is 5% above the peak: what moves in all, the largest free
//!   block over all free units at the end of a frame, on average, in thousandths, and the refusals.
mod traces;

use offset_allocator_proved::{Allocation, Allocator, Global};
use std::collections::HashMap;
use traces::Trace;

const FRAME: usize = 50;
const RANGES: u32 = 64;
/// The budget of units is one of so many parts of the peak.
const SHARES: [u32; 2] = [64, 16];

/// What moves in a frame.
#[derive(Clone, Copy, PartialEq)]
enum Way {
    None,
    /// `compact_within`, on from where it stopped.
    Slide,
    /// `relocate`, from the end on, as long as it finds a place.
    Relocate,
    /// The same, and where nothing moved by it, `compact_within`.
    Both,
}

const WAYS: [(&str, Way); 4] = [("none", Way::None), ("slide", Way::Slide), ("relocate", Way::Relocate), ("both", Way::Both)];

#[derive(Default)]
struct Found {
    refused: u32,
    units: u64,
    ranges: u64,
    largest: f64,
    frames: f64,
}

struct Player {
    space: Allocator,
    slots: Vec<Option<Allocation>>,
    /// The slot of each name.
    owners: HashMap<u32, usize>,
    from: u32,
}

impl Player {
    fn relocate(&mut self, most: u32) -> (u32, u32) {
        let (mut units, mut ranges) = (0, 0);
        while let Some(old) = self.space.last_live() {
            let size = self.space.allocation_size(old);
            if ranges > 0 && (units + size > most || ranges + 1 > RANGES) {
                break;
            }
            let Some(new) = self.space.relocate(old) else { break };
            self.space.free(old);
            let slot = self.owners.remove(&old.name()).unwrap();
            self.owners.insert(new.name(), slot);
            self.slots[slot] = Some(new);
            (units, ranges) = (units + size, ranges + 1);
        }
        (units, ranges)
    }

    fn slide(&mut self, most: u32) -> (u32, u32) {
        let Some(progress) = self.space.compact_within(1, self.from, most, RANGES, |_| ()) else { return (0, 0) };
        self.from = progress.next.unwrap_or(0);
        (progress.units, progress.ranges)
    }

    fn frame(&mut self, way: Way, most: u32) -> (u32, u32) {
        match way {
            Way::None => (0, 0),
            Way::Slide => self.slide(most),
            Way::Relocate => self.relocate(most),
            Way::Both => match self.relocate(most) {
                (_, 0) => self.slide(most),
                moved => moved,
            },
        }
    }
}

fn play(size: u32, trace: &Trace, way: Way, most: u32) -> Found {
    let space = Allocator::with_max_allocs(Global, size, trace.nodes).unwrap();
    let mut player = Player { space, slots: vec![None; trace.slots as usize], owners: HashMap::new(), from: 0 };
    let mut found = Found::default();
    for (at, step) in trace.steps.iter().enumerate() {
        let slot = step.slot as usize;
        if step.size == 0 {
            if let Some(range) = player.slots[slot].take() {
                player.owners.remove(&range.name());
                player.space.free(range);
            }
        } else if let Some(range) = player.space.allocate(step.size) {
            player.owners.insert(range.name(), slot);
            player.slots[slot] = Some(range);
        } else {
            found.refused += 1;
        }
        if at % FRAME == FRAME - 1 {
            let (units, ranges) = player.frame(way, most);
            found.units += u64::from(units);
            found.ranges += u64::from(ranges);
            let sums = player.space.statistics();
            if sums.free_units > 0 {
                found.largest += f64::from(sums.largest_free_block) / f64::from(sums.free_units);
                found.frames += 1.0;
            }
        }
    }
    found
}

fn peak(trace: &Trace) -> u32 {
    let mut sizes = vec![0; trace.slots as usize];
    let (mut now, mut most) = (0, 0);
    for step in &trace.steps {
        now = now + step.size - sizes[step.slot as usize];
        sizes[step.slot as usize] = step.size;
        most = most.max(now);
    }
    most
}

/// The smallest of 3,000 sizes up to 15% above the peak that refuses nothing, or 0.
fn least(peak: u32, enough: impl Fn(u32) -> bool) -> u32 {
    let sizes = (0..3000u64).map(|part| (u64::from(peak) * (20_000 + part) / 20_000) as u32);
    sizes.into_iter().find(|size| enough(*size)).unwrap_or(0)
}

fn main() {
    let Some(name) = std::env::args().nth(1) else {
        return traces::names().iter().for_each(|name| println!("{name}"));
    };
    let trace = traces::read(&name);
    let peak = peak(&trace);
    println!("peak\t{peak}");
    for share in SHARES {
        for (word, way) in WAYS {
            let most = peak / share;
            println!("least\t{share}\t{word}\t{}", least(peak, |size| play(size, &trace, way, most).refused == 0));
            let found = play((u64::from(peak) * 105 / 100) as u32, &trace, way, most);
            let largest = 1000.0 * found.largest / found.frames;
            println!("moved\t{share}\t{word}\t{}\t{}\t{largest:.0}\t{}", found.units, found.ranges, found.refused);
        }
    }
}
