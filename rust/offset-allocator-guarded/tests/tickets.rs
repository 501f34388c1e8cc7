//! Random tickets, between real calls, against a plain list of the live ranges.
//!
//! `cargo test` tries 300,000 with each index type. A hundred million, with and without overflow checks:
//!
//!     cargo test --offline -p offset-allocator-guarded -- --ignored
//!     cargo test --offline --release -p offset-allocator-guarded -- --ignored

#[path = "../../random.rs"]
mod random;

use offset_allocator::NodeIndex;
use offset_allocator_guarded::{Global, Guarded, Refusal, Ticket};
use random::Xorshift as Numbers;
use std::collections::HashMap;

const REALM: u32 = 1;

// The limit of the nodes, and the units of the space.
const NODES: u32 = 70;
const SIZE: u32 = 1_000;

// What distinguishes tickets: their offsets do not.
type Key = (u32, u64, u32);

#[derive(Clone, Copy, PartialEq, Debug)]
struct Range {
    offset: u32,
    size: u32,
}

impl Numbers {
    fn below(&mut self, limit: u64) -> u64 {
        (self.next() >> 11) % limit
    }
}

struct Run<NI: NodeIndex> {
    space: Guarded<NI>,
    live: HashMap<Key, Range>,
    // the last tickets that were given
    given: Vec<Ticket>,
    serials: u64,
    numbers: Numbers,
}

fn key(ticket: Ticket) -> Key {
    (ticket.name(), ticket.serial(), ticket.realm())
}

impl<NI: NodeIndex> Run<NI> {
    fn new(state: u64) -> Self {
        Run {
            space: Guarded::with_realm(Global, SIZE, NODES, REALM).unwrap(),
            live: HashMap::new(),
            given: vec![Ticket::from_parts(0, 0, 0, 0).unwrap(); 64],
            serials: 0,
            numbers: Numbers(state),
        }
    }

    // One of the last tickets, as it is or altered, or any numbers.
    fn any_ticket(&mut self) -> Ticket {
        let numbers = &mut self.numbers;
        let (mut offset, mut name, mut serial, mut realm) = self.given[numbers.below(64) as usize].to_parts();
        match numbers.below(16) {
            0 => name = numbers.below(u64::from(NODES) + 2) as u32,
            1 => name = numbers.next() as u32,
            2 => serial = numbers.below(self.serials + 2),
            3 => serial = numbers.next(),
            4 => realm = numbers.below(3) as u32,
            5 => offset = numbers.next() as u32,
            6 => serial = serial.wrapping_add(numbers.below(8)).wrapping_sub(4),
            7 => {
                (offset, realm) = (0, REALM);
                name = numbers.below(u64::from(NODES)) as u32;
                serial = self.serials.saturating_sub(numbers.below(64));
            }
            8 => {
                (name, serial) = (numbers.next() as u32, numbers.next());
                (offset, realm) = (name, serial as u32);
            }
            // the other half of a serial
            9 => serial = serial.wrapping_add(1 << 32),
            _ => {}
        }
        Ticket::from_parts(offset, name, serial, realm).unwrap_or(self.given[0])
    }

    fn keep(&mut self, ticket: Ticket, size: u32) {
        self.serials += 1;
        assert_eq!((ticket.serial(), ticket.realm()), (self.serials, REALM));
        let range = Range { offset: ticket.offset, size };
        for other in self.live.values() {
            let apart = other.offset + other.size <= range.offset || range.offset + size <= other.offset;
            assert!(apart, "{other:?} and {range:?}");
        }
        assert_eq!(self.live.insert(key(ticket), range), None);
        let place = self.numbers.below(64) as usize;
        self.given[place] = ticket;
    }

    // A call with a ticket: it does something exactly where the list has the ticket.
    fn pass(&mut self, ticket: Ticket) {
        let known = self.live.get(&key(ticket)).copied();
        let size = self.numbers.below(40) as u32 + 1;
        match self.numbers.below(8) {
            0..=2 => {
                assert_eq!(self.space.free(ticket), known.is_some(), "{ticket:?}");
                self.live.remove(&key(ticket));
            }
            3 => self.resize(ticket, known, size, true),
            4 => self.resize(ticket, known, size, false),
            5 => assert_eq!(self.space.is_live(ticket), known.is_some(), "{ticket:?}"),
            6 => assert_eq!(self.space.size_of(ticket), known.map(|range| range.size), "{ticket:?}"),
            _ => assert_eq!(self.space.offset_of(ticket), known.map(|range| range.offset), "{ticket:?}"),
        }
    }

    fn resize(&mut self, ticket: Ticket, known: Option<Range>, size: u32, smaller: bool) {
        let done = if smaller { self.space.shrink(ticket, size) } else { self.space.grow_in_place(ticket, size) };
        assert_eq!(done.is_some(), known.is_some(), "{ticket:?}");
        if done == Some(true) {
            self.live.get_mut(&key(ticket)).unwrap().size = size;
        }
    }

    // A call with no ticket.
    fn call(&mut self) {
        let size = self.numbers.below(40) as u32 + 1;
        match self.numbers.below(64) {
            0 => {
                let live = &mut self.live;
                self.space.compact_unaligned(|moved| {
                    for range in live.values_mut().filter(|range| range.offset == moved.from) {
                        range.offset = moved.to;
                    }
                });
            }
            1 if self.numbers.below(16) == 0 => {
                self.space.reset();
                self.live.clear();
            }
            2 => {
                let _ = self.space.extend(size % 4);
            }
            3..=15 => {
                if let Some(ticket) = self.space.allocate_aligned(size, 8) {
                    assert_eq!(ticket.offset % 8, 0);
                    self.keep(ticket, size);
                }
            }
            _ => {
                if let Some(ticket) = self.space.allocate(size) {
                    self.keep(ticket, size);
                }
            }
        }
    }

    // Every live range is where the list has it, and there is no other.
    fn expect_same(&self) {
        for (&(name, serial, realm), range) in &self.live {
            let ticket = Ticket::from_parts(0, name, serial, realm).unwrap();
            assert_eq!(self.space.offset_of(ticket), Some(range.offset));
            assert_eq!(self.space.size_of(ticket), Some(range.size));
        }
        let used = self.space.allocator().blocks().filter(|block| block.allocation.is_some()).count();
        assert_eq!(used, self.live.len());
    }
}

fn try_tickets<NI: NodeIndex>(count: u64, state: u64) {
    let mut run = Run::<NI>::new(state);
    for i in 0..count {
        if i % 4 == 0 {
            run.call();
        }
        let ticket = run.any_ticket();
        run.pass(ticket);
        if i % 64 == 0 {
            run.expect_same();
        }
        if run.space.allocator().size() > 2 * SIZE {
            run = Run::new(run.numbers.next() | 1);
        }
    }
    run.expect_same();
}

#[test]
fn random_tickets_touch_no_live_range() {
    try_tickets::<u32>(300_000, 1);
    try_tickets::<u16>(300_000, 2);
}

#[test]
#[ignore = "some minutes"]
fn a_hundred_million_random_tickets_touch_no_live_range() {
    try_tickets::<u32>(50_000_000, 3);
    try_tickets::<u16>(50_000_000, 4);
}

#[test]
fn reasons_are_errors_and_spaces_have_a_text() {
    let mut space = Guarded::<u32>::with_realm(Global, 17, 4, 7).unwrap();
    space.allocate(5).unwrap();
    assert_eq!(
        format!("{space:?}"),
        "Guarded { realm: 7, given: 1, allocator: Allocator { size: 17, max_allocs: 4, statistics: Statistics { live_ranges: 1, \
         live_units: 5, free_blocks: 1, free_units: 12, largest_free_block: 12, largest_free_region: 12, unused_nodes: 2 } } }"
    );
    let why = space.refusal(13).unwrap();
    assert_eq!(why, Refusal::Space);
    assert_eq!(why, Refusal::from(space.allocator().refusal(13).unwrap()));
    let errors: [Box<dyn std::error::Error>; 2] = [why.into(), Refusal::Serials.into()];
    assert_eq!(errors.map(|error| error.to_string()), ["too few units are free", "all serials are given"]);
    let kinds: std::collections::HashSet<_> = [why, Refusal::Serials, why].into();
    assert_eq!(kinds.len(), 2);
    assert!(!space.allocator().is_empty());
}
