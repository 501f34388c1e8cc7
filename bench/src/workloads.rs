//! What is run: lists of steps over slots, and makings of tables.

#[path = "../../rust/random.rs"]
mod random;

pub use crate::traces::Step;
use crate::traces;
pub use random::Xorshift as Random;

/// The slot of a step that resets the space. No list of steps has a slot of this number.
pub const RESET: u32 = u32::MAX;

#[derive(Clone, Copy)]
pub enum Width {
    Bits16,
    Bits32,
}

pub enum Work {
    Steps { slots: usize, steps: Vec<Step> },
    /// Allocators, each made and dropped before the next.
    Make { times: u32 },
    /// Allocators, each made, used for these steps, and dropped before the next.
    Used { times: u32, slots: usize, steps: Vec<Step> },
    /// The last one of these steps, alone.
    Last { slots: usize, steps: Vec<Step> },
}

pub struct Workload {
    pub name: String,
    pub width: Width,
    pub space: u32,
    pub nodes: u32,
    pub work: Work,
}

impl Workload {
    pub fn count(&self) -> usize {
        match &self.work {
            Work::Steps { steps, .. } => steps.len(),
            Work::Make { times } | Work::Used { times, .. } => *times as usize,
            Work::Last { .. } => 1,
        }
    }

    /// What is counted: a step, an allocator that is made or used, or the last step.
    pub fn kind(&self) -> &str {
        match self.work {
            Work::Steps { .. } => "steps",
            Work::Make { .. } => "make",
            Work::Used { .. } => "used",
            Work::Last { .. } => "last",
        }
    }

    /// The name of the measured function, without the prefix of its side.
    pub fn function(&self) -> &str {
        match (&self.work, self.width) {
            (Work::Make { .. }, Width::Bits32) => "make_32",
            (Work::Make { .. }, Width::Bits16) => "make_16",
            (_, Width::Bits32) => "play_32",
            (_, Width::Bits16) => "play_16",
        }
    }
}

impl Random {
    pub fn below(&mut self, n: u32) -> u32 {
        (((self.next() >> 32) * u64::from(n)) >> 32) as u32
    }

    /// From 1 to 2^bits, small numbers more often.
    pub fn size(&mut self, bits: u32) -> u32 {
        let most = 1 << (1 + self.below(bits));
        1 + self.below(most)
    }

    pub fn shuffled(&mut self, count: u32) -> Vec<u32> {
        let mut order: Vec<u32> = (0..count).collect();
        for i in (1..count).rev() {
            order.swap(i as usize, self.below(i + 1) as usize);
        }
        order
    }
}

const STEPS: usize = 1_000_000;

/// Fills all slots, and then empties and fills a random one, again and again, and each at least once on average.
fn random(slots: u32, bits: u32) -> Work {
    let mut random = Random(0x9e3779b97f4a7c15);
    let mut steps: Vec<Step> = (0..slots).map(|slot| Step { slot, size: random.size(bits) }).collect();
    let more = STEPS.max(2 * slots as usize);
    while steps.len() < slots as usize + more {
        let slot = random.below(slots);
        steps.push(Step { slot, size: random.size(bits) });
        steps.push(Step { slot, size: random.size(bits) });
    }
    Work::Steps { slots: slots as usize, steps }
}

/// Fills all slots, and empties them in the given order, again and again.
fn waves(slots: u32, bits: u32, order: impl Fn(&mut Random) -> Vec<u32>) -> Work {
    let mut random = Random(0x2545f4914f6cdd1d);
    let mut steps = Vec::new();
    while steps.len() < STEPS {
        for slot in 0..slots {
            steps.push(Step { slot, size: random.size(bits) });
        }
        for slot in order(&mut random) {
            steps.push(Step { slot, size: 0 });
        }
    }
    Work::Steps { slots: slots as usize, steps }
}

/// Again and again fills slots with small ranges, frees every second one, requests ranges that fit no gap, and frees
/// all.
fn fragments(slots: u32) -> Work {
    let mut random = Random(0xd1342543de82ef95);
    let mut steps = Vec::new();
    let full = slots / 2;
    while steps.len() < STEPS {
        for slot in 0..full {
            steps.push(Step { slot, size: 1 + random.below(24) });
        }
        for slot in (0..full).step_by(2) {
            steps.push(Step { slot, size: 0 });
        }
        for slot in full..full + full / 4 {
            steps.push(Step { slot, size: 25 + random.below(200) });
        }
        for slot in (1..full).step_by(2).chain(full..full + full / 4) {
            steps.push(Step { slot, size: 0 });
        }
    }
    Work::Steps { slots: slots as usize, steps }
}

/// Frames, each of requests for `live` small ranges, and a reset.
fn frames(live: u32, times: u32) -> Work {
    let mut random = Random(9);
    let mut steps = Vec::new();
    for frame in 0..times {
        steps.extend((0..live).map(|i| Step { slot: frame * live + i, size: 1 + random.below(100) }));
        steps.push(Step { slot: RESET, size: 0 });
    }
    Work::Steps { slots: (live * times) as usize, steps }
}

/// This many small ranges.
fn few(live: u32) -> Vec<Step> {
    (0..live).map(|slot| Step { slot, size: 1 + 7 * slot }).collect()
}

/// A reset of a space with 10 live ranges.
fn reset_of_ten() -> Work {
    let mut steps = few(10);
    steps.push(Step { slot: RESET, size: 0 });
    Work::Last { slots: 10, steps }
}

/// A recorded program, again and again; what is live at its end is released each time.
fn recorded(name: &str) -> Work {
    let trace = traces::read(name);
    let left = trace.left().into_iter().zip(0..).filter(|(size, _)| *size > 0);
    let once: Vec<Step> = trace.steps.iter().copied().chain(left.map(|(_, slot)| Step { slot, size: 0 })).collect();
    Work::Steps { slots: trace.slots as usize, steps: once.repeat(STEPS.div_ceil(once.len())) }
}

/// All workloads, or only the one of this name.
pub fn all(only: Option<&str>) -> Vec<Workload> {
    use Width::{Bits16, Bits32};
    const NODES: u32 = 131_072;
    const SPACE: u32 = 1 << 28;
    // the largest space that all sides admit
    const LARGEST: u32 = i32::MAX as u32;
    let mut found = Vec::new();
    let mut add = |name: &str, width, space, nodes, work: &dyn Fn() -> Work| {
        if only.is_none_or(|only| only == name) {
            found.push(Workload { name: name.to_string(), width, space, nodes, work: work() });
        }
    };
    // for one workload the folder is not read: what that frees would lie where the tables of a small limit are made
    let names = only.map_or_else(traces::names, |only| traces::name(only).into_iter().collect());
    for name in names {
        let trace = traces::read(&name);
        add(&name, Bits32, trace.space, trace.nodes, &|| recorded(&name));
    }
    add("random, 1k live", Bits32, SPACE, NODES, &|| random(1_000, 12));
    add("random, 16k live", Bits32, SPACE, NODES, &|| random(16_000, 12));
    add("random, 60k live", Bits32, SPACE, NODES, &|| random(60_000, 12));
    add("random, a million live", Bits32, LARGEST, 4_194_304, &|| random(1_000_000, 12));
    add("random, 10,000,000 nodes", Bits32, LARGEST, 10_000_000, &|| random(2_500_000, 12));
    add("random, 300 of 1,024", Bits32, SPACE, 1_024, &|| random(300, 12));
    add("tight, with refusals", Bits32, 300_000, NODES, &|| random(2_000, 12));
    add("bump, then free in order", Bits32, SPACE, NODES, &|| waves(60_000, 12, |_| (0..60_000).collect()));
    add("bump, then free in reverse", Bits32, SPACE, NODES, &|| waves(60_000, 12, |_| (0..60_000).rev().collect()));
    add("bump, then free at random", Bits32, SPACE, NODES, &|| waves(60_000, 12, |r| r.shuffled(60_000)));
    add("fragmenting mix", Bits32, SPACE, NODES, &|| fragments(120_000));
    add("frames of 100, each reset", Bits32, SPACE, NODES, &|| frames(100, 2_000));
    add("frames of 60,000, each reset", Bits32, SPACE, NODES, &|| frames(60_000, 10));
    add("u16: random, 1k live", Bits16, 65_535, 65_000, &|| random(1_000, 6));
    add("u16: random, 16k live", Bits16, 65_535, 65_000, &|| random(16_000, 1));
    add("u16: random, 300 of 1,024", Bits16, 65_535, 1_024, &|| random(300, 7));
    add("u16: tight, with refusals", Bits16, 20_000, 65_000, &|| random(4_000, 6));
    add("u16: bump, then free at random", Bits16, 65_535, 65_000, &|| waves(10_000, 2, |r| r.shuffled(10_000)));
    add("u16: frames of 100, each reset", Bits16, 65_535, 65_000, &|| frames(100, 2_000));
    // the same work at each limit
    for (name, width, space, nodes, times) in [
        ("1,024 nodes", Bits32, SPACE, 1_024, 1_000),
        ("131,072 nodes", Bits32, SPACE, NODES, 1_000),
        ("10,000,000 nodes", Bits32, LARGEST, 10_000_000, 10),
        ("65,000 nodes, u16", Bits16, 65_535, 65_000, 1_000),
    ] {
        add(&format!("make, {name}"), width, space, nodes, &|| Work::Make { times });
        add(&format!("make, 10 grants, {name}"), width, space, nodes, &|| Work::Used { times, slots: 10, steps: few(10) });
        add(&format!("reset of 10, {name}"), width, space, nodes, &reset_of_ten);
    }
    for bits in [6, 8].into_iter().chain(10..=20) {
        let nodes = 1 << bits;
        add(&format!("growth, {nodes} nodes"), Bits32, LARGEST, nodes, &|| random(nodes / 4, 12));
    }
    found
}
