//! Random calls of heaps, and on one heap of many, with what they gave. `randomAt` of `offset-allocator-c/tests/recorded.cpp` makes the same.

use offset_allocator_guarded::Ticket;
use offset_allocator_heaps::{HeapsOf, Limits, Place};
use offset_allocator_proved::{Global, Progress, RoomCost, Tables};
use offset_allocator_recorded::RecordedHeaps;
use std::cell::RefCell;
use std::collections::BTreeMap;
use std::io::{self, Write};
use std::rc::Rc;

/// A writer that others can look at.
#[derive(Clone, Default)]
pub struct Seen(Rc<RefCell<Vec<u8>>>);

impl Seen {
    pub fn text(&self) -> String {
        String::from_utf8(self.0.borrow().clone()).unwrap()
    }

    pub fn lines(&self) -> usize {
        self.0.borrow().iter().filter(|byte| **byte == b'\n').count()
    }
}

impl Write for Seen {
    fn write(&mut self, bytes: &[u8]) -> io::Result<usize> {
        self.0.borrow_mut().extend_from_slice(bytes);
        Ok(bytes.len())
    }

    fn flush(&mut self) -> io::Result<()> {
        Ok(())
    }
}

pub struct Random(pub u64);

impl Random {
    pub fn below(&mut self, n: u32) -> u32 {
        self.0 = self.0.wrapping_mul(6_364_136_223_846_793_005).wrapping_add(1_442_695_040_888_963_407);
        ((self.0 >> 33) % u64::from(n)) as u32
    }

    pub fn one_of<I: Copy>(&mut self, list: &[I]) -> Option<I> {
        list.get(self.below(list.len() as u32 + 1) as usize).copied()
    }
}

#[derive(Clone, Copy, Debug)]
pub enum Call {
    Allocate(u32),
    Aligned(u32, u32),
    Tight(u32),
    TightAligned(u32, u32),
    At(u32, u32),
    Free,
    Shrink(u32),
    Grow(u32),
    Relocate,
    RelocateAligned(u32),
    RelocateUnaligned,
    Compact,
    CompactBy(u32),
    CompactUnaligned,
    Within(u32, u32, u32),
    WithinBy(u32, u32, u32, u32),
    Room(u32),
    RoomAligned(u32, u32),
    RoomBy(u32, u32, u32),
    RoomUnaligned(u32),
    Extend(u32),
    Retract(u32),
    RaiseStep(u32),
    Reset,
}

pub fn random_call(random: &mut Random, size: u32) -> Call {
    let most = size / 3 + 2;
    let n = random.below(most);
    let a = 1 + random.below(20);
    let s = [1, 2, 4, 16, 256][random.below(5) as usize];
    match random.below(100) {
        0..=17 => Call::Allocate(n),
        18..=25 => Call::Aligned(n, a),
        26..=29 => Call::Tight(n),
        30..=33 => Call::TightAligned(n, a),
        34..=38 => Call::At(random.below(size), n / 4),
        39..=58 => Call::Free,
        59..=62 => Call::Shrink(n / 4),
        63..=66 => Call::Grow(n),
        67..=69 => Call::Relocate,
        70..=71 => Call::RelocateAligned(a),
        72 => Call::RelocateUnaligned,
        73..=75 => Call::Compact,
        76..=77 => Call::CompactBy(s),
        78 => Call::CompactUnaligned,
        79..=81 => Call::Within(random.below(size), n, random.below(4)),
        82..=83 => Call::WithinBy(s, random.below(size), n, random.below(4)),
        84..=86 => Call::Room(n),
        87..=88 => Call::RoomAligned(n, a),
        89..=90 => Call::RoomBy(n, a, s),
        91..=92 => Call::RoomUnaligned(n),
        93..=95 => Call::Extend(random.below(60)),
        96 => Call::Retract(random.below(60)),
        97..=98 => Call::RaiseStep(s),
        _ => Call::Reset,
    }
}

pub fn of_grant(found: Option<Ticket>) -> Option<String> {
    Some(found.map_or("none".to_owned(), |ticket| format!("at {}", ticket.offset)))
}

pub fn of_resize(word: &str, done: Option<bool>) -> Option<String> {
    Some(done.map_or("gone", |done| if done { word } else { "none" }).to_owned())
}

pub fn of_done(word: &str, done: bool) -> Option<String> {
    Some(if done { word } else { "none" }.to_owned())
}

pub fn of_room(cost: Option<RoomCost>) -> Option<String> {
    Some(cost.map_or("none".to_owned(), |cost| format!("ranges {} units {}", cost.ranges, cost.units)))
}

pub fn of_progress(progress: Option<Progress>) -> Option<String> {
    Some(progress.map_or("none".to_owned(), |it| {
        let next = it.next.map_or("end".to_owned(), |next| format!("next {next}"));
        format!("ranges {} units {} {next}", it.ranges, it.units)
    }))
}

// Makes a call with a ticket, and says what it is answered where it writes a line; what it grants goes into a list. The calls of a
// recorded space, and of one heap of many, have the same names.
macro_rules! call {
    ($heap:expr, $call:expr, $ticket:expr, $granted:expr) => {{
        let (heap, ticket): (_, Ticket) = ($heap, $ticket);
        let has_step = heap.step().is_some();
        let is_live = heap.is_live(ticket);
        let mut grant = |found: Option<Ticket>| {
            $granted.extend(found);
            of_grant(found)
        };
        let (answer, by_step) = match $call {
            Call::Allocate(n) => (grant(heap.allocate(n)), false),
            Call::Aligned(n, a) => (grant(heap.allocate_aligned(n, a)), false),
            Call::Tight(n) => (grant(heap.allocate_tight(n)), false),
            Call::TightAligned(n, a) => (grant(heap.allocate_tight_aligned(n, a)), false),
            Call::At(o, n) => (grant(heap.allocate_at(o, n)), false),
            Call::Free => (Some(if heap.free(ticket) { "freed" } else { "gone" }.to_owned()), false),
            Call::Shrink(n) => (of_resize("shrunk", heap.shrink(ticket, n)), false),
            Call::Grow(n) => (of_resize("grown", heap.grow_in_place(ticket, n)), false),
            Call::Relocate => (grant(heap.relocate(ticket)), is_live),
            Call::RelocateAligned(a) => (grant(heap.relocate_aligned(ticket, a)), false),
            Call::RelocateUnaligned => (grant(heap.relocate_unaligned(ticket)), false),
            Call::Compact => (of_done("compacted", heap.compact(|_| ())), true),
            Call::CompactBy(s) => (of_done("compacted", heap.compact_by(s, |_| ())), false),
            Call::CompactUnaligned => {
                heap.compact_unaligned(|_| ());
                (Some("compacted".to_owned()), false)
            }
            Call::Within(o, u, r) => (of_progress(heap.compact_within(o, u, r, |_| ())), true),
            Call::WithinBy(s, o, u, r) => (of_progress(heap.compact_within_by(s, o, u, r, |_| ())), false),
            Call::Room(n) => (of_room(heap.make_room(n, |_| ())), true),
            Call::RoomAligned(n, a) => (of_room(heap.make_room_aligned(n, a, |_| ())), true),
            Call::RoomBy(n, a, s) => (of_room(heap.make_room_by(n, a, s, |_| ())), false),
            Call::RoomUnaligned(n) => (of_room(heap.make_room_unaligned(n, |_| ())), false),
            Call::Extend(n) => (of_done("extended", heap.extend(n)), false),
            // one that is not done has no line
            Call::Retract(n) => (heap.retract(n).then(|| "retracted".to_owned()), false),
            Call::RaiseStep(a) => {
                heap.raise_step(a);
                (None, false)
            }
            Call::Reset => {
                heap.reset();
                (Some("reset".to_owned()), false)
            }
        };
        let is_of_gone = !is_live && matches!($call, Call::Relocate | Call::RelocateAligned(_) | Call::RelocateUnaligned);
        match answer {
            Some(_) if by_step && !has_step => None,
            Some(_) if is_of_gone => Some("gone".to_owned()),
            answer => answer,
        }
    }};
}

/// Random calls of heaps, and on them: the recording; what they gave, by the line that each wrote; and the heaps.
pub fn random_heaps<T: Tables>(seed: u64) -> (String, BTreeMap<usize, String>, RecordedHeaps<T, Seen>) {
    let mut random = Random(seed);
    let max_allocs = 8 + random.below(40);
    let first_allocs = if seed % 4 == 0 { max_allocs } else { 8 };
    let size = 100 + random.below(1000);
    let limits = Limits { size, first_size: size, max_allocs, first_allocs, most: 1 + random.below(4), most_larger: random.below(3) };
    let seen = Seen::default();
    let mut heaps = RecordedHeaps::new(HeapsOf::<T>::with_realm(Global, limits, 3).unwrap(), seen.clone()).unwrap();
    let (mut given, mut places): (BTreeMap<usize, String>, Vec<Place>) = Default::default();
    for i in 0..250 {
        if let (0, Some(place)) = (random.below(9), random.one_of(&places)) {
            heaps.name_live(place, &format!("range {i}"));
        }
        let lines = seen.lines();
        let place = random.one_of(&places);
        if random.below(4) == 0 {
            heaps.name(&format!("call {i}"));
        }
        let answer = match (random.below(10), place) {
            (0..=1, _) => {
                let (n, a) = (1 + random.below(size / 2), 1 + random.below(9));
                let found = if random.below(3) == 0 { heaps.allocate_tight_aligned(n, a) } else { heaps.allocate_aligned(n, a) };
                Some(found.map_or("none".to_owned(), |granted| {
                    places.push(granted.place);
                    format!("heap {} at {}", granted.place.heap, granted.offset)
                }))
            }
            (2, Some(place)) => Some(if heaps.free(place) { format!("heap {} freed", place.heap) } else { "gone".to_owned() }),
            (3, Some(place)) => match random.below(6) {
                0 => heaps.shrink(place, random.below(20)).filter(|done| *done).map(|_| format!("heap {} shrunk", place.heap)),
                1 => heaps.grow_in_place(place, random.below(90)).filter(|done| *done).map(|_| format!("heap {} grown", place.heap)),
                2 => heaps.extend_heap(place.heap, random.below(40)).unwrap().then(|| format!("heap {} extended", place.heap)),
                3 => heaps.compact_heap(place.heap, |_| ()).then(|| format!("heap {} compacted", place.heap)),
                4 => heaps.make_room_aligned(place.heap, random.below(size), 1 + random.below(9), |_| ()).map(|cost| format!("heap {} ranges {} units {}", place.heap, cost.ranges, cost.units)),
                _ => {
                    let is_live = heaps.is_live(place);
                    let found = heaps.relocate_aligned(place, 1 + random.below(9));
                    places.extend(found.map(|second| second.place));
                    Some(found.map_or(if is_live { "none" } else { "gone" }.to_owned(), |second| format!("heap {} at {}", second.place.heap, second.offset)))
                }
            },
            (4, _) if random.below(20) == 0 => heaps.give_up(0).then(|| "heap 0 given up".to_owned()),
            _ => {
                let number = random.below(limits.most + limits.most_larger);
                let ticket = place.filter(|place| place.heap == number).map_or(Ticket::from_parts(0, 1 << 20, 0, 9).unwrap(), |place| place.ticket(0));
                let (mut granted, mut call): (Vec<Ticket>, Call) = (Vec::new(), random_call(&mut random, size));
                // a range of no units with no node left cannot begin anew: that is another test
                if let Call::Allocate(0) | Call::Aligned(0, _) | Call::Tight(0) | Call::TightAligned(0, _) | Call::At(_, 0) | Call::Shrink(0) = call {
                    call = Call::Compact;
                }
                heaps.heap_mut(number).and_then(|mut heap| {
                    let answer = call!(&mut heap, call, ticket, &mut granted);
                    places.extend(granted.iter().map(|ticket| heap.place(*ticket)));
                    answer.map(|answer| format!("heap {number} {answer}"))
                })
            }
        };
        let now = seen.lines();
        match answer {
            Some(answer) => assert!(now > lines && given.insert(now, answer).is_none(), "seed {seed}"),
            // nothing is written but a heap that begins anew for room that is then not made
            None => assert!(now == lines || seen.text().ends_with("#! begun\n"), "seed {seed}: {}", seen.text()),
        }
        assert!(heaps.failure().is_none(), "seed {seed}: {}", seen.text());
    }
    (seen.text(), given, heaps)
}
