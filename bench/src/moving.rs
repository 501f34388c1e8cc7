//! Ours where ranges move when a request is refused as fragmented: how many requests are refused all the same, and what moves.
use crate::traces::Trace;
use crate::{play, Ours, REFUSED};
use offset_allocator_proved::Refusal;

/// When ranges move, and by which call.
#[derive(Clone, Copy, PartialEq)]
pub enum Way {
    /// By no call.
    None,
    /// One `compact`, at the first such refusal.
    First,
    /// A `compact` at each.
    Each,
    /// A `make_room` at each.
    Room,
    /// The same, and what each moves is compared with a search.
    Searched,
}

pub const WAYS: [(&str, Way); 4] = [("none", Way::None), ("first", Way::First), ("each", Way::Each), ("room", Way::Searched)];

#[derive(Default)]
pub struct Moved {
    /// The requests that are refused.
    pub refused: u32,
    /// Those of them for which as many units were free as they requested, but fewer than these rounded up to a class.
    pub rounded: u32,
    /// How often ranges were moved, the units in all, and the most at once.
    pub times: u32,
    pub units: u64,
    pub most: u64,
}

/// The smallest number that is at least this size and has four binary digits at most before its zeros: the class value.
fn class_value(size: u32) -> u64 {
    let shift = (u32::BITS - size.leading_zeros()).saturating_sub(4);
    u64::from(size).div_ceil(1 << shift) << shift
}

/// The least units that move, and of these the fewest ranges, over all runs of blocks from a free one to a free one that
/// have enough free units.
fn searched(space: &Ours, size: u32) -> Option<(u32, u32)> {
    let mut blocks: Vec<(u32, bool)> = space.blocks().map(|block| (block.size, block.allocation.is_none())).collect();
    blocks.reverse();
    let mut least = None;
    for first in (0..blocks.len()).filter(|first| blocks[*first].1) {
        let (mut free, mut units, mut ranges) = (0, 0, 0);
        for &(size_of, is_free) in &blocks[first..] {
            if is_free {
                free += u64::from(size_of);
            } else {
                (units, ranges) = (units + size_of, ranges + 1);
            }
            if is_free && free >= class_value(size) {
                least = Some(least.map_or((units, ranges), |known: (u32, u32)| known.min((units, ranges))));
            }
        }
    }
    least
}

/// Each live range by its name, with its size.
fn sizes(space: &Ours) -> Vec<(u32, u32)> {
    let mut found: Vec<(u32, u32)> = space.blocks().filter_map(|block| Some((block.allocation?.name(), block.size))).collect();
    found.sort();
    found
}

/// The answers, and what moved.
pub fn moving(size: u32, trace: &Trace, way: Way) -> (Vec<u64>, Moved) {
    let mut found = Moved::default();
    let prepare = |space: &mut Ours, _: usize, size: u32| {
        let why = if size == 0 { None } else { space.refusal(size) };
        if why == Some(Refusal::Space) {
            found.rounded += u32::from(space.free_units() >= size);
        }
        if why != Some(Refusal::Fragmented) {
            return;
        }
        if way == Way::None || way == Way::First && found.times > 0 {
            assert_eq!(searched(space, size), space.room_cost(size).map(|cost| (cost.units, cost.ranges)));
            return;
        }
        let (mut units, mut ranges) = (0, 0);
        let mut note = |moved: offset_allocator_proved::Move| (units, ranges) = (units + moved.size, ranges + 1);
        match way {
            Way::None => unreachable!(),
            Way::First | Way::Each => space.compact(&mut note),
            Way::Room => assert!(space.make_room(size, &mut note).is_some()),
            Way::Searched => {
                let (least, before, asked) = (searched(space, size), sizes(space), space.room_cost(size));
                assert_eq!(space.make_room(size, &mut note), asked);
                assert_eq!(least, asked.map(|cost| (cost.units, cost.ranges)));
                assert_eq!(least, Some((units, ranges)));
                assert_eq!(sizes(space), before);
            }
        }
        assert_eq!(space.refusal(size), None);
        found.times += 1;
        found.units += u64::from(units);
        found.most = found.most.max(u64::from(units));
    };
    let answers = play(size, trace, prepare);
    let requests = trace.steps.iter().zip(&answers).filter(|(step, _)| step.size > 0);
    found.refused = requests.filter(|(_, answer)| **answer == REFUSED).count() as u32;
    (answers, found)
}
