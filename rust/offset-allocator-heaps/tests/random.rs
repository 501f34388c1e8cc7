//! Random calls against a plain list of the live ranges of each heap. After every call each range begins at a multiple of the
//! alignment that it was granted at, wherever it went, and the step of each heap is the least common multiple of its alignments.
//!
//! `cargo test` makes 300,000 with each index type and layout. Three million, with and without overflow checks:
//!
//!     cargo test --offline -p offset-allocator-heaps -- --ignored
//!     cargo test --offline --release -p offset-allocator-heaps -- --ignored

#[path = "../../random.rs"]
mod random;

use offset_allocator::{ByField, ByNode, Tables};
use offset_allocator_heaps::{Global, Granted, Heaps, HeapsOf, Limits, Place, Refusal};
use random::Xorshift as Numbers;
use std::cmp::Ordering;
use std::collections::{BTreeMap, HashMap};

const REALM: u32 = 7;

impl Numbers {
    fn below(&mut self, limit: u64) -> u64 {
        (self.next() >> 11) % limit
    }
}

// The largest size below which a block of this many units is filed: every size up to 15 is one, and above that each
// power of two has eight.
fn class_value(units: u32) -> u32 {
    let mut value = units.min(15);
    let mut step = 2;
    let mut start = 16;
    while start <= units {
        for k in 0..8 {
            if start + k * step <= units {
                value = start + k * step;
            }
        }
        start *= 2;
        step *= 2;
    }
    value
}

// The greatest common divisor, by halves and differences, of two numbers, one of which may be 0.
fn common_divisor(mut a: u32, mut b: u32) -> u32 {
    let mut twos = 0;
    while a != 0 && b != 0 {
        match (a % 2, b % 2) {
            (0, 0) => (a, b, twos) = (a / 2, b / 2, twos + 1),
            (0, _) => a /= 2,
            (_, 0) => b /= 2,
            _ if a > b => a -= b,
            _ => b -= a,
        }
    }
    (a + b) << twos
}

// The least common multiple, where it has 32 bits.
fn common_multiple(step: u32, align: u32) -> Option<u32> {
    let (step, align) = (u64::from(step), u64::from(align));
    (1..=align).map(|it| it * step).find(|it| it % align == 0).and_then(|it| it.try_into().ok())
}

// The alignments of requests; the last ones are any.
const FAMILIES: [&[u32]; 6] = [&[2, 16, 64, 256], &[12, 20, 32], &[3, 5, 8], &[48, 7], &[4, 96], &[]];

// What distinguishes places.
type Key = (u32, u32, u32, u64, u32);

fn key(p: Place) -> Key {
    (p.heap, p.realm, p.name(), p.serial(), p.heap_realm())
}

// Live ranges in space order, by offset, whether they have units, and name: of one offset those of no units come first.
type Ranges = BTreeMap<(u32, bool, u32), u32>;

// A heap: its units, its node limit, its live ranges, and its step, where it has one.
struct Heap {
    units: u32,
    limit: u32,
    ranges: Ranges,
    step: Option<u32>,
}

impl Heap {
    // A grant takes its alignment into the step.
    fn join(&mut self, align: u32) {
        self.step = self.step.and_then(|step| common_multiple(step, align));
    }
}

struct Run<T: Tables> {
    heaps: HeapsOf<T>,
    limits: Limits,
    model: Vec<Option<Heap>>,
    live: HashMap<Key, (u32, u32)>,
    // the alignment that each live range was granted at
    aligns: HashMap<Key, u32>,
    family: &'static [u32],
    places: HashMap<Key, Place>,
    // the last places that were given
    given: Vec<Place>,
    made: u32,
    counts: [u64; 19],
    numbers: Numbers,
}

impl<T: Tables> Run<T> {
    fn new(limits: Limits, state: u64) -> Self {
        let count = (limits.most + limits.most_larger) as usize;
        let nowhere = Place::from_parts(0, 0, 0, 0, 0).unwrap();
        Run {
            heaps: HeapsOf::with_realm(Global, limits, REALM).unwrap(),
            limits,
            model: (0..count).map(|_| None).collect(),
            live: HashMap::new(),
            aligns: HashMap::new(),
            family: FAMILIES[0],
            places: HashMap::new(),
            given: vec![nowhere; 64],
            made: 0,
            counts: [0; 19],
            numbers: Numbers(state),
        }
    }

    // The largest node limit of the heap of a number.
    fn most_nodes(&self, number: usize) -> u32 {
        if number < self.limits.most as usize { self.limits.max_allocs } else { 4 }
    }

    // The units of the usual heap of a number: twice those of the one before it, up to the size of the limits.
    fn usual_units(&self, number: usize) -> u32 {
        (0..number).fold(self.limits.first_size, |units, _| units.saturating_mul(2).min(self.limits.size))
    }

    // What a heap's own statistics say of a request: its node limit does not count, but the largest that it may have.
    fn fits(&self, number: usize, units: u64, align: u32) -> bool {
        let Some(heap) = self.heaps.heap(number as u32) else { return false };
        let space = heap.allocator();
        let blocks = align.min(2);
        space.block_count() + blocks < self.most_nodes(number) && units <= space.statistics().largest_free_region as u64
    }

    // Whether a heap has too few nodes for so many blocks more, and may have more.
    fn must_raise(&self, number: usize, blocks: u32) -> bool {
        let (Some(heap), Some(known)) = (self.heaps.heap(number as u32), &self.model[number]) else { return false };
        known.limit < self.most_nodes(number) && heap.allocator().block_count() + blocks >= known.limit
    }

    // Whether a heap has nodes for a request, and free units for it in a row, from a multiple of the alignment on.
    fn holds(&self, number: usize, size: u32, align: u32) -> bool {
        let (Some(heap), Some(space)) = (&self.model[number], self.heaps.heap(number as u32)) else { return false };
        let ends = heap.ranges.iter().map(|(&(at, ..), &units)| (at + units) as u64);
        let starts = heap.ranges.keys().map(|&(at, ..)| at as u64).chain([heap.units as u64]);
        let fits = std::iter::once(0).chain(ends).zip(starts).any(|(from, to)| from.next_multiple_of(align as u64) + size as u64 <= to);
        fits && space.allocator().block_count() + align.min(2) < self.most_nodes(number)
    }

    fn expected(&self, size: u32, align: u32, tight: bool) -> Result<(usize, bool), Refusal> {
        if size == 0 {
            return Err(Refusal::Empty);
        }
        let units = size as u64 + align as u64 - 1;
        let grants = |n| if tight { self.holds(n, size, align) } else { self.fits(n, units, align) };
        if let Some(number) = (0..self.model.len()).find(|&n| grants(n)) {
            return Ok((number, false));
        }
        let most = self.limits.most as usize;
        // a fresh heap begins at 0, a multiple of every alignment
        let holds = |number: usize| size <= class_value(self.usual_units(number));
        if (0..most).any(holds) {
            return (0..most).find(|&n| self.model[n].is_none() && holds(n)).map(|n| (n, true)).ok_or(Refusal::Full);
        }
        if self.limits.most_larger == 0 {
            return Err(Refusal::TooLarge);
        }
        self.model[most..].iter().position(|h| h.is_none()).map(|n| (n + most, true)).ok_or(Refusal::Full)
    }

    fn allocate(&mut self, size: u32, align: u32, tight: bool) {
        let expected = self.expected(size, align, tight);
        let foretold = match (tight, align) {
            (false, 1) => self.heaps.refusal(size),
            (false, _) => self.heaps.refusal_aligned(size, align),
            (true, 1) => self.heaps.refusal_tight(size),
            (true, _) => self.heaps.refusal_tight_aligned(size, align),
        };
        assert_eq!(foretold, expected.err());
        let raises = expected.is_ok_and(|(number, is_new)| !is_new && self.must_raise(number, align.min(2)));
        self.counts[11] += (tight && expected.is_ok_and(|(n, is_new)| !is_new && !self.fits(n, size as u64 + align as u64 - 1, align))) as u64;
        let result = match (tight, align) {
            (false, 1) => self.heaps.allocate(size),
            (false, _) => self.heaps.allocate_aligned(size, align),
            (true, 1) => self.heaps.allocate_tight(size),
            (true, _) => self.heaps.allocate_tight_aligned(size, align),
        };
        match (expected, result) {
            (Err(why), Err(said)) => {
                assert_eq!(why, said);
                self.counts[0] += 1;
            }
            (Ok((number, is_new)), Ok(Granted { place, offset, is_new: said })) => {
                assert_eq!((number, is_new), (place.heap as usize, said));
                assert_eq!(place.realm, REALM);
                if is_new {
                    self.made += 1;
                    let usual = number < self.limits.most as usize;
                    let units = if usual { self.usual_units(number) } else { size };
                    self.counts[14] += u64::from(usual && self.model[..number].iter().any(|h| h.is_none()));
                    let limit = if usual { self.limits.first_allocs } else { 4 };
                    self.model[number] = Some(Heap { units, limit, ranges: BTreeMap::new(), step: Some(1) });
                    assert_eq!(place.heap_realm(), self.made);
                    self.counts[1 + !usual as usize] += 1;
                }
                if raises {
                    let most = self.most_nodes(number);
                    let heap = self.model[number].as_mut().unwrap();
                    heap.limit = most.min(2 * heap.limit);
                    self.counts[10] += 1;
                }
                self.grant(place, offset, size, align);
                self.counts[3] += 1;
            }
            (expected, result) => panic!("{expected:?} expected of {size} at {align}: {result:?}"),
        }
    }

    // A range that was granted in a heap that is there.
    fn grant(&mut self, place: Place, offset: u32, size: u32, align: u32) {
        let heap = self.model[place.heap as usize].as_mut().unwrap();
        assert_eq!(self.heaps.heap(place.heap).unwrap().allocator().max_allocs(), heap.limit);
        assert!(offset as u64 + size as u64 <= heap.units as u64);
        assert_eq!(offset % align, 0);
        let own = (offset, size > 0, place.name());
        if let Some((&(from, ..), &units)) = heap.ranges.range(..own).next_back() {
            assert!(from + units <= offset);
        }
        if let Some((&(from, ..), _)) = heap.ranges.range(own..).next() {
            assert!(offset + size <= from);
        }
        assert_eq!(heap.ranges.insert(own, size), None);
        heap.join(align);
        assert!(self.live.insert(key(place), (offset, size)).is_none());
        self.aligns.insert(key(place), align);
        self.places.insert(key(place), place);
        let at = self.numbers.below(64) as usize;
        self.given[at] = place;
    }

    fn live_units(&self, number: usize) -> u64 {
        self.model[number].iter().flat_map(|h| h.ranges.values()).map(|&n| n as u64).sum()
    }

    // The first other heap that has room, and whose limit need not be raised for it, and has at least as many live units; for a
    // range of no units it has room for one, and more live units or a lower number. With no alignment it is what the offset
    // and the step of its heap have in common.
    fn relocate(&mut self, place: Place, wanted: Option<u32>) -> Option<Place> {
        let live = self.live.get(&key(place)).copied();
        let own = place.heap as usize;
        let step = live.and_then(|_| self.model[own].as_ref().unwrap().step);
        let common = step.map(|step| common_divisor(live.unwrap().0, step));
        let align = wanted.or(common).unwrap_or(1);
        let fuller = |n: usize, size: u32| match self.live_units(n).cmp(&self.live_units(own)) {
            Ordering::Less => false,
            Ordering::Equal => size > 0 || n < own,
            Ordering::Greater => true,
        };
        let fits = |n: usize, size: u32| self.fits(n, (size as u64 + align as u64 - 1).max(1), align);
        let takes = |n: usize, size: u32| n != own && !self.must_raise(n, align.min(2)) && fits(n, size) && fuller(n, size);
        let goes = live.filter(|_| wanted.is_some() || step.is_some());
        let expected = goes.and_then(|(_, size)| (0..self.model.len()).find(|&n| takes(n, size)));
        let second = match wanted {
            None => self.heaps.relocate(place),
            Some(align) => self.heaps.relocate_aligned(place, align),
        };
        self.counts[16] += u64::from(live.is_some() && wanted.is_none() && step.is_none());
        assert_eq!(second.map(|granted| (granted.place.heap as usize, granted.is_new)), expected.map(|number| (number, false)));
        if let (Some(second), Some((_, size))) = (second, live) {
            assert_eq!((second.place.realm, second.place.heap_realm() <= self.made), (REALM, true));
            self.grant(second.place, second.offset, size, align);
            if wanted.is_none() {
                // it has the alignment of the first one, which divides that
                self.counts[17] += u64::from(align > 1);
                self.aligns.insert(key(second.place), self.aligns[&key(place)]);
            }
            self.counts[8] += 1;
            self.counts[15] += u64::from(size == 0);
        }
        self.ask(place);
        second.map(|granted| granted.place)
    }

    // The places of a heap from its end on.
    fn walk(&self, number: u32) -> Vec<Place> {
        let mut found = vec![];
        let mut next = self.heaps.last_live(number);
        while let Some(place) = next {
            found.push(place);
            next = self.heaps.live_before(place);
        }
        let ranges: Vec<(u32, u32)> = found.iter().map(|&p| self.live[&key(p)]).collect();
        let heap = self.model.get(number as usize).and_then(|h| h.as_ref());
        let expected: Vec<(u32, u32)> = heap.iter().flat_map(|h| h.ranges.iter().rev()).map(|(&(at, ..), &n)| (at, n)).collect();
        assert_eq!(ranges, expected);
        assert!(found.iter().all(|p| p.heap == number && p.realm == REALM && self.heaps.offset_of(*p) == Some(self.live[&key(*p)].0)));
        found
    }

    // Empties the heap with the fewest live units into others, as far as these have room.
    fn pass(&mut self) {
        let used = (0..self.model.len()).filter(|&n| self.model[n].as_ref().is_some_and(|h| !h.ranges.is_empty()));
        let emptiest = used.min_by_key(|&n| (self.live_units(n), usize::MAX - n));
        assert_eq!(self.heaps.emptiest(), emptiest.map(|n| n as u32));
        let Some(number) = emptiest else { return };
        let places = self.walk(number as u32);
        let moved: Vec<bool> = places.iter().map(|&place| self.relocate(place, None).is_some()).collect();
        places.iter().zip(&moved).filter(|(_, &moved)| moved).for_each(|(&place, _)| self.free_place(place));
        let empty = moved.iter().all(|&moved| moved);
        assert_eq!(self.heaps.drop_heap(number as u32), empty);
        if empty {
            self.forget(number);
            self.counts[9] += 1;
        }
    }

    // A place that was given, at times with a part changed.
    fn place(&mut self) -> Place {
        let at = self.numbers.below(64) as usize;
        let (mut heap, mut realm, mut name, mut serial, mut heap_realm) = self.given[at].to_parts();
        match self.numbers.below(24) {
            0 => heap = self.numbers.below(self.model.len() as u64 + 2) as u32,
            1 => realm = self.numbers.below(9) as u32,
            2 => name = self.numbers.below(14) as u32,
            3 => serial = self.numbers.below(40),
            4 => heap_realm = self.numbers.below(self.made as u64 + 2) as u32,
            5 => heap = u32::MAX,
            _ => {}
        }
        Place::from_parts(heap, realm, name, serial, heap_realm).unwrap()
    }

    // A range becomes smaller or larger in place, where the free units behind it, or the nodes, allow it.
    fn resize(&mut self) {
        let place = self.place();
        let size = self.live.get(&key(place)).map_or(1, |range| range.1);
        let wanted = (size / 2).saturating_add(self.numbers.below(size as u64 + 2) as u32);
        let less = self.numbers.below(2) == 0;
        self.resize_to(place, wanted, less);
    }

    fn resize_to(&mut self, place: Place, wanted: u32, less: bool) {
        let live = self.live.get(&key(place)).copied();
        let (at, size) = live.unwrap_or((0, 1));
        // the units of the free block behind it, which may have none
        let behind = live.map(|_| {
            let mut blocks = self.heaps.heap(place.heap).unwrap().allocator().blocks();
            let mut after = None;
            loop {
                let block = blocks.next().unwrap();
                if block.allocation.is_some_and(|it| it.name() == place.name()) {
                    assert_eq!((block.offset, block.size), (at, size));
                    break after;
                }
                after = block.allocation.is_none().then_some(block.size);
            }
        });
        let space = |heaps: &HeapsOf<T>| heaps.heap(place.heap).map(|heap| (heap.allocator().block_count(), heap.allocator().max_allocs()));
        let nodes = space(&self.heaps).is_some_and(|(blocks, limit)| blocks + 1 < limit);
        let shrinks = behind.map(|free| wanted == size || (wanted < size && (free.is_some() || nodes)));
        let grows = behind.map(|free| (size..=size + free.unwrap_or(0)).contains(&wanted));
        let (expected, found) = if less {
            (shrinks, self.heaps.shrink(place, wanted))
        } else {
            (grows, self.heaps.grow_in_place(place, wanted))
        };
        assert_eq!(found, expected);
        if found == Some(true) {
            let ranges = &mut self.model[place.heap as usize].as_mut().unwrap().ranges;
            assert_eq!(ranges.remove(&(at, size > 0, place.name())), Some(size));
            ranges.insert((at, wanted > 0, place.name()), wanted);
            self.live.insert(key(place), (at, wanted));
        }
        self.ask(place);
    }

    // What a heap is compacted to by its step, and whether that is done: where a range goes over a whole step, a block more is
    // needed, of an unused node or of a free block that vanishes, which may have no units.
    fn compacted(&self, number: usize) -> (bool, Vec<(u32, u32, u32, u32)>) {
        let Some(heap) = &self.model[number] else { return (true, vec![]) };
        let Some(step) = heap.step else { return (false, vec![]) };
        let (mut moves, mut end, mut to, mut first) = (vec![], 0, 0, 0);
        for (&(from, ..), &size) in &heap.ranges {
            to += (from - end) % step;
            if to < from {
                first = if moves.is_empty() { end } else { first };
                moves.push((number as u32, from, to, size));
            }
            (end, to) = (from + size, to + size);
        }
        if moves.is_empty() {
            return (true, moves);
        }
        let space = self.heaps.heap(number as u32).unwrap().allocator();
        let behind = space.blocks().take_while(|block| block.offset >= first).filter(|block| block.allocation.is_none());
        let vanishes = space.blocks().next().unwrap().allocation.is_none() || behind.filter(|block| block.size % step == 0).count() > 0;
        let done = vanishes || space.block_count() + 1 < heap.limit;
        (done, if done { moves } else { vec![] })
    }

    // The ranges of a heap slide together, all or as few units as make room.
    fn slide(&mut self) {
        let number = self.numbers.below(self.model.len() as u64 + 2) as u32;
        let there = self.model.get(number as usize).is_some_and(|h| h.is_some());
        let mut moves = vec![];
        let mut note = |it: offset_allocator::Move<T::Index>| moves.push((it.from, it.to, it.size));
        if self.numbers.below(2) == 0 {
            let (done, expected) = if there { self.compacted(number as usize) } else { (false, vec![]) };
            assert_eq!(self.heaps.compact_heap(number, &mut note), done);
            assert_eq!(moves, expected.into_iter().map(|(_, from, to, size)| (from, to, size)).collect::<Vec<_>>());
            self.counts[18] += u64::from(there && !done);
        } else {
            let size = 1 + self.numbers.below(self.limits.size as u64) as u32;
            let align = self.align(2, 8);
            let cost = self.heaps.heap(number).and_then(|heap| heap.room_cost_aligned(size, align));
            let short = self.heaps.heap(number).is_some_and(|h| h.allocator().block_count() + align.min(2) + 2 > h.allocator().max_allocs());
            let made = if align == 1 { self.heaps.make_room(number, size, &mut note) } else { self.heaps.make_room_aligned(number, size, align, &mut note) };
            assert_eq!(made, cost);
            assert!(cost.is_none() || self.fits(number as usize, size as u64 + align as u64 - 1, align));
            let (ranges, units) = (moves.len() as u64, moves.iter().map(|m| m.2 as u64).sum::<u64>());
            let (most_ranges, most_units) = cost.map_or((0, 0), |c| (c.ranges as u64, c.units as u64));
            // where nodes are lacking, a free block of no units may give its own, and what is before it stays
            assert!((ranges, units) == (most_ranges, most_units) || (short && ranges <= most_ranges && units <= most_units));
            let step = self.model.get(number as usize).and_then(|h| h.as_ref()?.step);
            assert!(moves.iter().all(|(from, to, _)| (from - to) % step.unwrap() == 0));
        }
        let moves: Vec<_> = moves.into_iter().map(|(from, to, size)| (number, from, to, size)).collect();
        self.moved(&moves);
        self.walk(number);
    }

    // A heap gets more units at its end, if they have 32 bits; where a range is at its end it needs a node, and more nodes where
    // it has none for it.
    fn extend(&mut self) {
        let number = self.numbers.below(self.model.len() as u64 + 2) as usize;
        let more = match self.numbers.below(4) {
            0 => 0,
            1 => self.numbers.next() as u32,
            _ => 1 + self.numbers.below(self.limits.size as u64 / 8) as u32,
        };
        // of a heap with so many units later requests would be for no more than a few
        let more = if more < 1 << 20 || self.numbers.below(2) == 0 { more.min(self.limits.size) } else { u32::MAX };
        let known = self.model.get(number).and_then(|h| h.as_ref()).filter(|h| h.units as u64 + more as u64 <= u32::MAX as u64);
        let last = |number| self.heaps.heap(number).unwrap().allocator().blocks().next().unwrap();
        let full = known.is_some() && last(number as u32).allocation.is_some();
        let nodes = known.is_some() && self.heaps.heap(number as u32).unwrap().allocator().block_count() + 1 < self.most_nodes(number);
        let expected = known.is_some() && (more == 0 || !full || nodes);
        let raises = more > 0 && full && self.must_raise(number, 1);
        assert_eq!(self.heaps.extend_heap(number as u32, more), Ok(expected));
        if !expected {
            return;
        }
        let most = self.most_nodes(number);
        let heap = self.model[number].as_mut().unwrap();
        heap.units += more;
        if raises {
            heap.limit = most.min(2 * heap.limit);
        }
        assert_eq!(self.heaps.units_of_heap(number as u32), Some(heap.units));
        assert_eq!(self.heaps.heap(number as u32).unwrap().allocator().max_allocs(), heap.limit);
        self.counts[12] += 1;
    }

    // The ranges of all heaps slide to the front.
    fn compact(&mut self) {
        let mut moves = vec![];
        let expected: Vec<_> = (0..self.model.len()).map(|number| self.compacted(number)).collect();
        let all = expected.iter().all(|(done, _)| *done);
        assert_eq!(self.heaps.compact(|number, it| moves.push((number, it.from, it.to, it.size))), all);
        assert_eq!(moves, expected.into_iter().flat_map(|(_, moves)| moves).collect::<Vec<_>>());
        self.moved(&moves);
        self.counts[13] += moves.len() as u64;
        self.walk_all();
    }

    // Ranges have moved within their heaps.
    fn moved(&mut self, moves: &[(u32, u32, u32, u32)]) {
        for &(number, from, to, size) in moves {
            let here = |key: &Key| key.0 == number && self.heaps.offset_of(self.places[key]) == Some(to);
            let moved = *self.live.iter().find(|&(key, range)| *range == (from, size) && here(key)).unwrap().0;
            let heap = self.model[number as usize].as_mut().unwrap();
            assert!(to < from && heap.ranges.remove(&(from, size > 0, moved.2)) == Some(size));
            assert!(heap.ranges.range(..(from, false, 0)).next_back().is_none_or(|(&(at, ..), &units)| at + units <= to));
            heap.ranges.insert((to, size > 0, moved.2), size);
            self.live.insert(moved, (to, size));
        }
    }

    // All heaps, and all live ranges.
    fn walk_all(&self) {
        let (mut heaps, mut next) = (vec![], self.heaps.first_heap());
        while let Some(number) = next {
            heaps.push((number as usize, self.heaps.units_of_heap(number).unwrap()));
            next = self.heaps.heap_after(number);
        }
        let there = |(n, h): (usize, &Option<Heap>)| h.as_ref().map(|h| (n, h.units));
        assert_eq!(heaps, self.model.iter().enumerate().filter_map(there).collect::<Vec<_>>());
        let (mut found, mut next) = (vec![], self.heaps.first_place());
        while let Some(place) = next {
            let offset = self.heaps.offset_of(place).unwrap();
            assert_eq!((offset, self.places[&key(place)]), (self.live[&key(place)].0, place));
            found.push((place.heap as usize, offset));
            next = self.heaps.place_after(place);
        }
        let ranges = |(n, h): (usize, &Option<Heap>)| h.iter().flat_map(|h| h.ranges.keys()).map(|&(at, ..)| (n, at)).collect::<Vec<_>>();
        assert_eq!(found, self.model.iter().enumerate().flat_map(ranges).collect::<Vec<_>>());
    }

    // Frees all ranges of a heap.
    fn empty(&mut self) {
        let number = self.numbers.below(self.model.len() as u64) as u32;
        let mut places: Vec<Place> = self.live.keys().filter(|k| k.0 == number).map(|k| self.places[k]).collect();
        places.sort_by_key(|p| p.serial());
        places.into_iter().for_each(|place| self.free_place(place));
    }

    fn free(&mut self) {
        let place = self.place();
        self.free_place(place);
    }

    fn free_place(&mut self, place: Place) {
        self.ask(place);
        let live = self.live.remove(&key(place));
        assert_eq!(self.heaps.free(place), live.is_some());
        if let Some((offset, size)) = live {
            let heap = self.model[place.heap as usize].as_mut().unwrap();
            assert_eq!(heap.ranges.remove(&(offset, size > 0, place.name())), Some(size));
            self.counts[4] += 1;
        }
        self.ask(place);
    }

    // Each range begins at a multiple of its alignment, and the step of each heap is what is worked out here.
    fn aligned(&self) {
        for key in self.live.keys() {
            let (align, offset) = (self.aligns[key], self.heaps.offset_of(self.places[key]).unwrap());
            assert_eq!(offset % align, 0);
            assert!(self.model[key.0 as usize].as_ref().unwrap().step.is_none_or(|step| step % align == 0));
        }
        for (number, heap) in self.model.iter().enumerate() {
            assert_eq!(self.heaps.heap(number as u32).map(|h| h.step()), heap.as_ref().map(|h| h.step));
        }
    }

    fn ask(&self, place: Place) {
        let live = self.live.get(&key(place));
        assert_eq!(self.heaps.is_live(place), live.is_some());
        assert_eq!(self.heaps.offset_of(place), live.map(|r| r.0));
        assert_eq!(self.heaps.size_of(place), live.map(|r| r.1));
    }

    fn forget(&mut self, number: usize) {
        self.model[number] = None;
        self.live.retain(|key, _| key.0 as usize != number);
    }

    fn drop_empty(&mut self) {
        let keep = self.numbers.below(3) as usize;
        let empty: Vec<usize> = (0..self.model.len()).filter(|&n| self.model[n].as_ref().is_some_and(|h| h.ranges.is_empty())).collect();
        let expected = if empty.len() > keep { empty.last().copied() } else { None };
        assert_eq!(self.heaps.drop_empty(keep as u32), expected.map(|n| n as u32));
        if let Some(number) = expected {
            self.forget(number);
            self.counts[5] += 1;
        }
    }

    fn drop_heap(&mut self) {
        let number = self.numbers.below(self.model.len() as u64 + 2) as usize;
        let empty = self.model.get(number).and_then(|h| h.as_ref()).is_some_and(|h| h.ranges.is_empty());
        assert_eq!(self.heaps.drop_heap(number as u32), empty);
        if empty {
            self.forget(number);
        }
    }

    fn give_up(&mut self) {
        let number = self.numbers.below(self.model.len() as u64 + 2) as usize;
        let there = number < self.model.len() && self.model[number].is_some();
        assert_eq!(self.heaps.give_up(number as u32), there);
        if there {
            self.forget(number);
            self.counts[6] += 1;
        }
    }

    fn totals(&self) {
        let totals = self.heaps.totals();
        let heaps = || self.model.iter().flatten();
        let live: u64 = self.live.values().map(|r| r.1 as u64).sum();
        let units: u64 = heaps().map(|h| h.units as u64).sum();
        assert_eq!(totals.heaps as usize, heaps().count());
        assert_eq!((totals.units, totals.live_units, totals.free_units), (units, live, units - live));
        let rooms = (0..self.model.len()).filter(|&n| self.fits(n, 1, 1)).map(|n| self.heaps.heap(n as u32).unwrap());
        let largest = rooms.map(|h| h.allocator().statistics().largest_free_region).max();
        assert_eq!(totals.largest_free_region, largest.unwrap_or(0));
        for (number, heap) in self.model.iter().enumerate() {
            let there = self.heaps.heap(number as u32).map(|h| h.allocator().live_units() as u64);
            assert_eq!(there, heap.as_ref().map(|h| h.ranges.values().map(|&n| n as u64).sum()));
        }
    }

    // An alignment: in one of so many calls one of the family, a power of two, or any number, else 1.
    fn align(&mut self, calls: u64, bits: u64) -> u32 {
        if self.numbers.below(calls) > 0 {
            1
        } else if let [_, ..] = self.family {
            self.family[self.numbers.below(self.family.len() as u64) as usize]
        } else if self.numbers.below(2) == 0 {
            1 << self.numbers.below(bits)
        } else {
            1 + self.numbers.below(1 << bits) as u32
        }
    }

    fn run(&mut self, calls: u64) {
        for call in 0..calls {
            if call % 512 == 0 {
                self.family = FAMILIES[self.numbers.below(FAMILIES.len() as u64) as usize];
            }
            match self.numbers.below(100) {
                0..=39 => {
                    let size = match self.numbers.below(40) {
                        0 => 0,
                        1 => self.numbers.next() as u32,
                        2..=4 => self.limits.size / 2 + self.numbers.below(self.limits.size as u64) as u32,
                        _ => 1 + self.numbers.below(self.limits.size as u64 / 4) as u32,
                    };
                    let align = self.align(3, 8);
                    let tight = self.numbers.below(4) == 0;
                    self.allocate(size, align, tight);
                }
                40..=89 => self.free(),
                90..=92 => self.drop_empty(),
                93 | 94 => self.drop_heap(),
                95 => self.give_up(),
                96 => self.empty(),
                98 if self.numbers.below(4) == 0 => self.pass(),
                98 | 99 => {
                    let place = self.place();
                    let align = (self.numbers.below(2) == 0).then(|| self.align(2, 6));
                    if self.numbers.below(2) == 0 {
                        self.resize_to(place, 0, true);
                    }
                    self.relocate(place, align);
                    let number = self.numbers.below(self.model.len() as u64 + 2) as u32;
                    self.walk(number);
                    let before = self.place();
                    assert!(self.heaps.is_live(before) || self.heaps.live_before(before).is_none());
                }
                97 if self.numbers.below(50) == 0 => {
                    self.heaps.reset();
                    self.live.clear();
                    self.model.iter_mut().flatten().for_each(|h| (h.ranges.clear(), h.step = Some(1)).0);
                    self.counts[7] += 1;
                }
                _ => {
                    self.totals();
                    self.resize();
                    self.slide();
                    self.walk_all();
                    match self.numbers.below(6) {
                        0 => self.extend(),
                        1 => self.compact(),
                        _ => {}
                    }
                }
            }
            self.aligned();
            if call % 64 == 0 {
                for place in self.given.clone() {
                    self.ask(place);
                }
            }
        }
    }
}

fn runs<T: Tables>(calls: u64) {
    let limits = |size, max_allocs, most, most_larger| Limits { size, first_size: size, max_allocs, first_allocs: max_allocs, most, most_larger };
    let few = |limits, first_allocs| Limits { first_allocs, ..limits };
    // few nodes, so that heaps are full with one and with two blocks left; many heaps; no larger ones; none at all; heaps that
    // are raised, at last to a limit that is no double; heaps that double, to a size that is no double, to one that no number
    // reaches, and from a unit on
    let all = [limits(1_000, 8, 5, 3), limits(64, 4, 37, 11), limits(4_096, 60, 3, 0), limits(500, 20, 0, 4)];
    let raised = [few(limits(1_000, 100, 4, 2), 8), few(limits(600, 21, 5, 1), 9)];
    let small = |limits, first_size| Limits { first_size, ..limits };
    let doubling = [small(limits(1_000, 8, 6, 3), 130), small(few(limits(4_000, 40, 4, 2), 8), 70), small(limits(800, 6, 40, 2), 1)];
    let mut steps = [0; 3];
    for (limits, state) in all.into_iter().chain(raised).chain(doubling).zip(1..) {
        let mut run = Run::<T>::new(limits, 0x9E37_79B9_7F4A_7C15 + state);
        run.run(calls / 6);
        println!("{limits:?}: {:?} refused, new, larger, granted, freed, dropped, given up, reset, relocated, emptied, raised, filled, extended, moved, passed over, relocated without units, without a step, at an alignment, refused", run.counts);
        assert!(run.counts[0] > 0 && run.counts[3] > 0 && run.counts[4] > 0 && run.counts[6] > 0 && run.counts[7] > 0);
        assert!(run.counts[5] > 0, "an empty heap is dropped");
        assert!(run.counts[8] > 0 && run.counts[9] > 0, "a heap is emptied into others");
        assert!(run.counts[15] > 0, "a range of no units goes to another heap");
        (0..3).for_each(|it| steps[it] += run.counts[16 + it]);
        assert!(run.counts[11] > 0 || limits.most == 0, "a tight request is granted where no other is");
        assert!(run.counts[12] > 0 && run.counts[13] > 0, "a heap gets units, and all are compacted");
        assert_eq!(run.counts[10] > 0, limits.first_allocs < limits.max_allocs);
        assert_eq!(run.counts[14] > 0, limits.first_size < limits.size, "a number whose heap is too small is passed over");
        assert_eq!(run.counts[1] > 0, limits.most > 0);
        assert_eq!(run.counts[2] > 0, limits.most_larger > 0);
    }
    assert!(steps[0] > 0 && steps[1] > 0, "a range goes at its alignment, and one in a heap without a step stays: {steps:?}");
    assert!(steps[2] > 0, "a heap is not compacted");
}

#[test]
fn random_calls() {
    runs::<ByNode<u32>>(200_000);
    runs::<ByNode<u16>>(200_000);
    runs::<ByField<u32>>(200_000);
}

#[test]
#[ignore = "takes longer"]
fn two_million_random_calls() {
    runs::<ByNode<u32>>(2_000_000);
    runs::<ByNode<u16>>(2_000_000);
}

// No heap may be made.
#[test]
fn no_heap() {
    let limits = Limits { size: 100, first_size: 100, max_allocs: 4, first_allocs: 4, most: 0, most_larger: 0 };
    let mut heaps = Heaps::<u32>::with_realm(Global, limits, 0).unwrap();
    assert_eq!(heaps.allocate(1), Err(Refusal::TooLarge));
    assert_eq!(heaps.allocate(101), Err(Refusal::TooLarge));
    assert_eq!(heaps.allocate(0), Err(Refusal::Empty));
    assert_eq!(heaps.drop_empty(0), None);
    assert!(!heaps.give_up(0));
    heaps.reset();
    assert_eq!(heaps.totals().units, 0);
}

// A larger heap is exactly as large as its request, and all of it is granted.
#[test]
fn larger_heaps() {
    let limits = Limits { size: 1_000, first_size: 1_000, max_allocs: 4, first_allocs: 4, most: 1, most_larger: 2 };
    let mut heaps = Heaps::<u32>::with_realm(Global, limits, 3).unwrap();
    // 960 is the largest size of a class below 1,000
    let page = heaps.allocate(960).unwrap();
    assert_eq!((page.place.heap, page.is_new), (0, true));
    let large = heaps.allocate(961).unwrap();
    assert_eq!((large.place.heap, large.is_new, large.offset), (1, true, 0));
    let all = heaps.allocate_aligned(u32::MAX, 1 << 31).unwrap();
    assert_eq!((all.place.heap, all.is_new, all.offset), (2, true, 0));
    assert_eq!(heaps.allocate(2_000), Err(Refusal::Full));
    assert_eq!(heaps.totals().free_units, 40);
    assert!(heaps.free(large.place));
    assert_eq!(heaps.drop_empty(0), Some(1));
    // its number is used again, and the old place is not live
    let next = heaps.allocate(2_000).unwrap();
    assert_eq!((next.place.heap, next.place.heap_realm()), (1, 4));
    assert!(!heaps.is_live(large.place));
    assert!(!heaps.free(large.place));
    assert!(heaps.is_live(next.place));
}

// The usual heaps of numbers 0, 1, 2 and 3 have 256, 512, 1024 and 1024 units. One is made at the first number that has none and
// whose heap has room for the request; a dropped one is made again with its size.
#[test]
fn doubling_heaps() {
    let limits = Limits { size: 1_024, first_size: 256, max_allocs: 8, first_allocs: 8, most: 4, most_larger: 1 };
    let mut heaps = Heaps::<u32>::with_realm(Global, limits, 3).unwrap();
    let made: Vec<Place> = [256, 512, 1_024, 1_024].map(|units| heaps.allocate(units).unwrap().place).to_vec();
    assert_eq!([0, 1, 2, 3].map(|at| made[at].heap), [0, 1, 2, 3]);
    assert_eq!([0, 1, 2, 3, 4].map(|number| heaps.units_of_heap(number)), [Some(256), Some(512), Some(1_024), Some(1_024), None]);
    assert_eq!(heaps.refusal(1), Some(Refusal::Full));
    // number 0 has too few units for 300: without number 1 another is made there
    assert!(heaps.free(made[0]) && heaps.drop_heap(0) && heaps.free(made[1]) && heaps.drop_heap(1));
    assert_eq!(heaps.refusal(513), Some(Refusal::Full));
    let granted = heaps.allocate_aligned(300, 256).unwrap();
    assert_eq!((granted.place.heap, granted.is_new, heaps.units_of_heap(1)), (1, true, Some(512)));
    // what the 212 units behind it do not hold, makes number 0 again
    let granted = heaps.allocate(250).unwrap();
    assert_eq!((granted.place.heap, granted.is_new, heaps.units_of_heap(0)), (0, true, Some(256)));
    // more than any usual heap holds
    let large = heaps.allocate(1_025).unwrap();
    assert_eq!((large.place.heap, large.is_new, heaps.units_of_heap(4)), (4, true, Some(1_025)));
    let same = Heaps::<u32>::read_state(Global, &heaps.write_state(Global).unwrap(), 5, 8).unwrap();
    assert_eq!((same.limits(), same.totals()), (limits, heaps.totals()));
}

// Where no number is so high that its heap has the largest size, a request that only that would hold is for a larger heap.
#[test]
fn a_size_that_no_number_reaches() {
    let limits = Limits { size: 1_024, first_size: 256, max_allocs: 8, first_allocs: 8, most: 2, most_larger: 1 };
    let mut heaps = Heaps::<u32>::with_realm(Global, limits, 3).unwrap();
    let large = heaps.allocate(513).unwrap();
    assert_eq!((large.place.heap, large.is_new, heaps.units_of_heap(2)), (2, true, Some(513)));
    assert_eq!(heaps.refusal(1_024), Some(Refusal::Full));
    let mut none_larger = Heaps::<u32>::with_realm(Global, Limits { most_larger: 0, ..limits }, 3).unwrap();
    assert_eq!((none_larger.refusal(513), none_larger.refusal(512)), (Some(Refusal::TooLarge), None));
    assert_eq!(none_larger.allocate(512).unwrap().place.heap, 1);
}

// A range may come back to a heap, where others have gone; the sum of the squares of the heaps' live units grows by
// 2 u (b - a) + 2 u u at each, where u units go from a heap of a live units to one of b.
#[test]
fn a_range_comes_back() {
    let limits = Limits { size: 16, first_size: 16, max_allocs: 8, first_allocs: 8, most: 3, most_larger: 0 };
    let mut heaps = Heaps::<u32>::with_realm(Global, limits, 3).unwrap();
    let [r, a, gone, b, also, c] = [1, 4, 11, 5, 11, 10].map(|size| heaps.allocate(size).unwrap().place);
    assert_eq!([r, a, gone, b, also, c].map(|place| place.heap), [0, 0, 0, 1, 1, 2]);
    assert!(heaps.free(gone) && heaps.free(also));
    let squares = |heaps: &Heaps<u32>| (0..3).map(|n| heaps.heap(n).unwrap().allocator().live_units().pow(2)).sum::<u32>();
    let mut go = |place: Place| {
        let second = heaps.relocate(place).unwrap().place;
        assert!(heaps.free(place));
        (second, second.heap, squares(&heaps))
    };
    // 5, 5 and 10 live units, then 4, 6 and 10, then 4, 1 and 15, then 5, 0 and 15
    let (r, heap, sum) = go(r);
    assert_eq!((heap, sum), (1, 25 + 25 + 100 + 2));
    let (_, heap, sum) = go(b);
    assert_eq!((heap, sum), (2, 152 + 2 * 5 * (10 - 6) + 2 * 5 * 5));
    let (_, heap, sum) = go(r);
    assert_eq!((heap, sum), (0, 242 + 2 * (4 - 1) + 2));
}

// The first range of a heap begins at 0, a multiple of every alignment: a page at an alignment fits a page.
#[test]
fn aligned_pages() {
    let limits = Limits { size: 1_024, first_size: 1_024, max_allocs: 4, first_allocs: 4, most: 2, most_larger: 0 };
    let mut heaps = Heaps::<u32>::with_realm(Global, limits, 3).unwrap();
    let first = heaps.allocate_aligned(1_024, 256).unwrap();
    assert_eq!((first.place.heap, first.is_new, first.offset), (0, true, 0));
    let second = heaps.allocate_aligned(1_024, 1 << 31).unwrap();
    assert_eq!((second.place.heap, second.is_new, second.offset), (1, true, 0));
    assert_eq!(heaps.allocate_aligned(1_024, 256), Err(Refusal::Full));
    assert_eq!(heaps.allocate_aligned(1_025, 256), Err(Refusal::TooLarge));
}

#[test]
#[should_panic(expected = "max_allocs must be at least 4")]
fn too_few_nodes() {
    let _ = Heaps::<u32>::with_realm(Global, Limits { size: 1, first_size: 1, max_allocs: 3, first_allocs: 3, most: 1, most_larger: 0 }, 0);
}

#[test]
#[should_panic(expected = "first_size must be at least 1, or size")]
fn no_first_units() {
    let _ = Heaps::<u32>::with_realm(Global, Limits { size: 1, first_size: 0, max_allocs: 4, first_allocs: 4, most: 1, most_larger: 0 }, 0);
}

#[test]
#[should_panic(expected = "first_size must be at most size")]
fn too_many_first_units() {
    let _ = Heaps::<u32>::with_realm(Global, Limits { size: 9, first_size: 10, max_allocs: 4, first_allocs: 4, most: 1, most_larger: 0 }, 0);
}

// Without units no usual heap has room: each request has a heap of its own.
#[test]
fn no_usual_units() {
    let limits = Limits { size: 0, first_size: 0, max_allocs: 4, first_allocs: 4, most: 3, most_larger: 2 };
    let mut heaps = Heaps::<u32>::with_realm(Global, limits, 0).unwrap();
    assert_eq!((heaps.allocate(1).unwrap().place.heap, heaps.allocate(7).unwrap().place.heap), (3, 4));
    assert_eq!(heaps.refusal(1), Some(Refusal::Full));
}

#[test]
#[should_panic(expected = "first_allocs must be at least 8, or max_allocs")]
fn too_few_first_nodes() {
    let _ = Heaps::<u32>::with_realm(Global, Limits { size: 1, first_size: 1, max_allocs: 100, first_allocs: 7, most: 1, most_larger: 0 }, 0);
}

#[test]
#[should_panic(expected = "first_allocs must be at most max_allocs")]
fn too_many_first_nodes() {
    let _ = Heaps::<u32>::with_realm(Global, Limits { size: 1, first_size: 1, max_allocs: 9, first_allocs: 10, most: 1, most_larger: 0 }, 0);
}

#[test]
#[should_panic(expected = "there may be at most 4294967295 heaps")]
fn too_many_heaps() {
    let _ = Heaps::<u32>::with_realm(Global, Limits { size: 1, first_size: 1, max_allocs: 4, first_allocs: 4, most: u32::MAX, most_larger: 1 }, 0);
}
