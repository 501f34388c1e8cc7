//! Makes calls of the libraries, fails each memory request in turn, and checks the result each time.
mod calls;
mod memory;

use calls::*;
use memory::{Memory, Programs};
use std::ops::RangeInclusive;
use std::sync::atomic::{AtomicUsize, Ordering};
use std::sync::Mutex;
use std::thread;

const COMMANDS: &str = "alloc 10\nalloc 10\nfree 1\nalloc 10\nreport\nfull\n";

/// Each command as its place in the enum, and then its numbers.
const SCRIPT: &[u64] = &[0, 10, 0, 10, 1, 1, 0, 10, 3, 4];

/// Each answer as its place in the enum, and then its numbers.
const ANSWERS: &[u64] = &[0, 1, 0, 0, 2, 10, 2, 1, 5, 0, 0, 6, 2, 10, 10, 1, 34, 80, 1];

const WRITTEN: &str = "grant 1 at 0\ngrant 2 at 10\nfreed\nnone\nfree 0 largest 0\n\
    full 2\nclass 10 size 10 count 1\nclass 34 size 80 count 1\n";

/// The last number has a digit too many: fault 3, a bad command, on line 5.
const BAD: &str = "# c\n\nspace 010 nodes 4 index 32\nalloc 0000000001\nalloc 00000000001\n";
const FAULT: &[u64] = &[3, 5];

/// The replies to the short list of calls, each as its place in the enum, and then its numbers. Range 2 moves
/// from 10 to 0; in the end 92 units are free, of class 35, whose value is 88.
const REPLIES: &[u64] = &[
    0, 0, 1, 0, 0, 0, 2, 10, 0, 2, 2, 1, 2, 10, 0, 20, 3, 0, 1, 0, 6, 1, 35, 88, 1,
];

/// The serials of its two grants.
const SERIALS: &[u64] = &[1, 2];

/// From so many bytes on a constructor first requests those of all tables in one piece, and frees it.
const ALL_FIRST: usize = 1 << 24;

/// The bytes of each request that a constructor makes. An index has `bits` bits.
fn table_requests(layout: Layout, nodes: usize, bits: usize) -> Vec<usize> {
    let tables = (layout.tables)(nodes, bits / 8);
    // one table is one request, of all bytes
    let all = Some(tables.iter().sum()).filter(|all: &usize| tables.len() > 1 && *all >= ALL_FIRST);
    all.into_iter().chain(tables).collect()
}

/// The same with tickets: a serial for each node first.
fn guarded_requests(layout: Layout, nodes: usize, bits: usize) -> Vec<usize> {
    [vec![8 * nodes], table_requests(layout, nodes, bits)].concat()
}

/// A limit that is larger by one, or the largest that an index of `bits` bits admits.
fn limit_above(nodes: usize, bits: usize) -> usize {
    (nodes + 1).min((1 << bits) - 3)
}

/// What is left of requests without these, each as often as it is there; `None` where one is missing.
fn without(requested: &[usize], some: &[usize]) -> Option<Vec<usize>> {
    let mut left = requested.to_vec();
    for size in some {
        let at = left.iter().position(|it| it == size)?;
        left.remove(at);
    }
    Some(left)
}

/// No request fails.
const NONE: RangeInclusive<u64> = 0..=0;

/// What a part of the check found.
struct Check<'a> {
    programs: &'a Programs,
    runs: u64,
    wrong: u64,
    lines: Vec<String>,
}

impl Check<'_> {
    fn must(&mut self, holds: bool, call: Call, text: &str, what: String) {
        if !holds {
            self.wrong += 1;
            self.lines
                .push(format!("WRONG: {}: {what:.300}", call.title(text)));
        }
    }

    fn run(
        &mut self,
        call: Call,
        text: &str,
        failing: RangeInclusive<u64>,
    ) -> Option<(Outcome, Memory)> {
        self.runs += 1;
        let found = self.programs.run(call, text, failing.clone());
        let what = || format!("requests {failing:?} refused: the program ended otherwise");
        self.must(found.is_some(), call, text, what());
        found
    }

    /// Fails each request of a call in turn, after the `first` ones of the parse before it: that request
    /// alone, and that one with all after it. It ends where a run makes no such request, returns the number of
    /// requests, and writes it down with the bytes that they were for.
    fn fail_each(&mut self, call: Call, text: &str, first: u64, wanted: &Outcome) -> u64 {
        let out_of_memory = Outcome::new(REFUSED, &[]);
        let mut hints = 0;
        for place in first + 1.. {
            let mut is_met = false;
            let mut requested = Vec::new();
            for end in [place, u64::MAX] {
                let Some((found, memory)) = self.run(call, text, place..=end) else {
                    return 0;
                };
                is_met = memory.failed > 0;
                requested = memory.requested;
                // a fault may be found before the request
                let may_be_wanted = !is_met || wanted.result == FAULTY || call.has_hints;
                let is_right =
                    is_met && found == out_of_memory || may_be_wanted && found == *wanted;
                let (left, strange) = (memory.left, memory.strange);
                let what = format!(
                    "request {place} refused: {is_met}, {found:?}, left {left}, strange {strange}"
                );
                hints += u64::from(is_met && call.has_hints && end == place && found == *wanted);
                self.must(is_right && left == 0 && strange == 0, call, text, what);
            }
            if !is_met {
                let requests = place - 1 - first;
                let which = if hints > 0 {
                    format!(", {hints} of them hints")
                } else {
                    String::new()
                };
                let bytes: usize = requested.iter().skip(first as usize).sum();
                let title = call.title(text);
                self.lines
                    .push(format!("{title}: {requests} requests{which}, {bytes} bytes"));
                return requests;
            }
        }
        unreachable!("a run ends")
    }

    /// The result of a call with ample memory, which must not be a failure, and its requests.
    fn with_ample_memory(&mut self, call: Call, text: &str) -> (Outcome, Vec<usize>) {
        let Some((found, memory)) = self.run(call, text, NONE) else {
            return (Outcome::new(REFUSED, &[]), Vec::new());
        };
        self.must(found.result == ANSWERED, call, text, format!("{found:?}"));
        (found, memory.requested)
    }

    /// The number of requests of the parse of a text.
    fn parse_requests(&mut self, text: &str) -> u64 {
        self.with_ample_memory(PARSE, text).1.len() as u64
    }

    /// With ample memory a call makes exactly these requests, those included whose failure it would ignore.
    fn expect_requests(&mut self, call: Call, text: &str, wanted: &[usize]) {
        let (_, requested) = self.with_ample_memory(call, text);
        let what = format!("{requested:?}, not {wanted:?}");
        self.must(requested == wanted, call, text, what);
    }

    /// A call whose result is that of the call by node with ample memory. It returns the number of its
    /// requests.
    fn fail_each_as_by_node(&mut self, call: Call, layout: Layout, text: &str, first: u64) -> u64 {
        let (wanted, _) = self.with_ample_memory(call.on(BY_NODE), text);
        self.fail_each(call.on(layout), text, first, &wanted)
    }

    /// An allocator for a script that has no commands, 1,000 calls on it, and the script itself.
    fn allocator(&mut self, layout: Layout, nodes: usize, bits: usize, size: u64, report: &[u64]) {
        let header = &format!("space {size} nodes {nodes} index {bits}");
        let tables = table_requests(layout, nodes, bits);
        for call in [LIMITED, CALLS, PLAY] {
            self.expect_requests(call.on(layout), header, &tables);
        }
        let report = Outcome::new(ANSWERED, report);
        self.fail_each(LIMITED.on(layout), header, 0, &report);
        self.fail_each_as_by_node(CALLS, layout, header, 0);
        // a copy requests as much again, and one under a larger limit for that; then a space of 1,002 nodes, and values of 40
        // bytes with their tickets, four at first, and then as many as names up to the last of 1,000 grants
        let guarded = guarded_requests(layout, nodes, bits);
        let raised = guarded_requests(layout, limit_above(nodes, bits), bits);
        let named = guarded_requests(BY_NODE, 1002, 32);
        let all = [guarded.clone(), guarded, raised, named, vec![4 * 40, 1000 * 40]].concat();
        self.expect_requests(GUARDED.on(layout), header, &all);
        self.fail_each_as_by_node(GUARDED, layout, header, 0);
        self.stored(layout, header, &tables, (nodes, bits));
        self.guarded_stored(layout, header, &guarded_requests(layout, nodes, bits));
        let nothing = Outcome::new(ANSWERED, &[]);
        self.fail_each(PLAY.on(layout), header, 0, &nothing);
    }

    /// An allocator that is copied, also under a larger limit, written and read: its tables and those of the
    /// copies first, those of what is read last, and between them rows that double as they grow, of which none
    /// is longer than twice the bytes of the state. The numbers are a checksum, the report of the copy, the
    /// larger limit, these bytes, and the report of what is read.
    fn stored(
        &mut self,
        layout: Layout,
        header: &str,
        tables: &[usize],
        (nodes, bits): (usize, usize),
    ) {
        let call = STORE.on(layout);
        let (found, requested) = self.with_ample_memory(call, header);
        let above = limit_above(nodes, bits);
        let all = [tables, tables, &table_requests(layout, above, bits)].concat();
        let is_right = match found.numbers[..] {
            [_, free, largest, limit, bytes, free_again, largest_again] => {
                let rows = requested.strip_prefix(&all[..]);
                let rows = rows.and_then(|rest| rest.strip_suffix(tables));
                let are_short = |rows: &[usize]| rows.iter().all(|row| *row as u64 <= 2 * bytes);
                let reports = [free, largest] == [free_again, largest_again];
                reports && limit == above as u64 && rows.is_some_and(are_short)
            }
            _ => false,
        };
        self.must(is_right, call, header, format!("{found:?}, {requested:?}"));
        self.fail_each_as_by_node(STORE, layout, header, 0);
    }

    /// The same with tickets: a guarded allocator that is written and read. The numbers are a checksum, the
    /// bytes, and a checksum of further calls on what is read and on what was written.
    fn guarded_stored(&mut self, layout: Layout, header: &str, guarded: &[usize]) {
        let call = GUARDED_STORE.on(layout);
        let (found, requested) = self.with_ample_memory(call, header);
        let is_right = match found.numbers[..] {
            [_, bytes, one, other] => {
                let left = without(&requested, &[guarded, guarded].concat());
                let are_short = |rows: Vec<usize>| rows.iter().all(|row| *row as u64 <= 2 * bytes);
                one == other && requested.starts_with(guarded) && left.is_some_and(are_short)
            }
            _ => false,
        };
        self.must(is_right, call, header, format!("{found:?}, {requested:?}"));
        self.fail_each_as_by_node(GUARDED_STORE, layout, header, 0);
    }

    /// An allocator for a script that has no commands, filled and reset twice: no reset makes a request.
    fn filled(&mut self, layout: Layout, nodes: usize, bits: usize, wanted: &[u64]) {
        let header = &format!("space 5000 nodes {nodes} index {bits}");
        let tables = table_requests(layout, nodes, bits);
        self.expect_requests(FILL.on(layout), header, &tables);
        let report = Outcome::new(ANSWERED, &[5000, 4608]);
        self.fail_each(LIMITED.on(layout), header, 0, &report);
        let wanted = Outcome::new(ANSWERED, wanted);
        self.fail_each(FILL.on(layout), header, 0, &wanted);
    }

    /// A constructor whose tables take this many nodes of 28 bytes.
    fn large(&mut self, layout: Layout, nodes: usize) {
        let header = &format!("space 100 nodes {nodes} index 32");
        let call = LIMITED.on(layout);
        self.expect_requests(call, header, &table_requests(layout, nodes, 32));
        self.fail_each(call, header, 0, &Outcome::new(ANSWERED, &[100, 96]));
    }

    /// The constructor `new`, whose node limit is `most`.
    fn default(&mut self, layout: Layout, most: usize, bits: usize) {
        let header = format!("space 100 nodes 4 index {bits}");
        let call = NEW.on(layout);
        self.expect_requests(call, &header, &table_requests(layout, most, bits));
        self.fail_each(call, &header, 0, &Outcome::new(ANSWERED, &[100, 96]));
    }

    /// Room for seven heaps, and 1,000 calls: the slots, four trees of 16 numbers, and then, for each heap
    /// that is made, what a guarded allocator requests. A larger heap has the node limit 4.
    fn heaps(&mut self, layout: Layout, nodes: usize, bits: usize, size: u64) {
        let header = &format!("space {size} nodes {nodes} index {bits}");
        let (_, room) = self.with_ample_memory(HEAPS.on(layout), header);
        let is_right = room.len() == 5 && room[0] % 7 == 0 && room[1..] == [64; 4];
        self.must(is_right, HEAPS.on(layout), header, format!("{room:?}"));
        self.fail_each(HEAPS.on(layout), header, 0, &Outcome::new(ANSWERED, &[0]));
        let call = HEAPS_CALLS.on(layout);
        let (found, mut requested) = self.with_ample_memory(call, header);
        let made = |place: usize| found.numbers.get(place).map_or(0, |it| *it as usize);
        let mut wanted = [
            room,
            guarded_requests(layout, nodes, bits).repeat(made(0)),
            guarded_requests(layout, 4, bits).repeat(made(1)),
        ]
        .concat();
        requested.sort();
        wanted.sort();
        let is_right = made(0) > 4 && made(1) > 3 && requested == wanted;
        let what = format!("{found:?}, {requested:?}, not {wanted:?}");
        self.must(is_right, call, header, what);
        self.fail_each_as_by_node(HEAPS_CALLS, layout, header, 0);
        self.heaps_grown(HEAPS_GROW.on(layout), layout, header, nodes, bits, 0);
        self.heaps_grown(HEAPS_EXTEND.on(layout), layout, header, nodes, bits, size);
        self.heaps_stored(layout, header, nodes, bits);
        self.heaps_dumped(layout, header);
        self.many_numbers(layout, header);
    }

    /// A heap that begins with 8 nodes, under doubled limits up to its largest, for grants or for a unit more before
    /// each: room for seven heaps, and then what a guarded allocator requests under each limit. The numbers are its
    /// limit and its live units: those of a range that fills it first, and one for each grant of one unit.
    fn heaps_grown(&mut self, call: Call, layout: Layout, header: &str, nodes: usize, bits: usize, filled: u64) {
        let (_, room) = self.with_ample_memory(HEAPS.on(layout), header);
        let doubled = std::iter::successors(Some(8), |it| (*it < nodes).then(|| nodes.min(2 * it)));
        let grown = doubled.flat_map(|limit| guarded_requests(layout, limit, bits));
        let wanted: Vec<usize> = room.into_iter().chain(grown).collect();
        self.expect_requests(call, header, &wanted);
        let numbers = [nodes as u64, filled + nodes as u64 - 4];
        self.fail_each(call, header, 0, &Outcome::new(ANSWERED, &numbers));
    }

    /// Heaps that are copied, written and read: what the calls request first, then for the copy and for what
    /// is read the room for seven heaps and what each heap requests, and rows, of which none is longer than
    /// twice the bytes. The numbers are that of the usual heaps, the totals of the copy (heaps,
    /// units, live ones, the largest region), the bytes, and the totals of what is read.
    fn heaps_stored(&mut self, layout: Layout, header: &str, nodes: usize, bits: usize) {
        let call = HEAPS_STORE.on(layout);
        let (_, room) = self.with_ample_memory(HEAPS.on(layout), header);
        let (_, first) = self.with_ample_memory(HEAPS_CALLS.on(layout), header);
        let (found, requested) = self.with_ample_memory(call, header);
        let is_right = match found.numbers[..] {
            [usual, heaps, units, live, largest, bytes, ref again @ ..] if heaps >= usual => {
                let copy = [
                    room,
                    guarded_requests(layout, nodes, bits).repeat(usual as usize),
                    guarded_requests(layout, 4, bits).repeat((heaps - usual) as usize),
                ]
                .concat();
                let rest = requested.strip_prefix(&first[..]);
                let left = rest.and_then(|rest| without(rest, &[&copy[..], &copy[..]].concat()));
                let are_short = |rows: Vec<usize>| rows.iter().all(|row| *row as u64 <= 2 * bytes);
                heaps > 1 && *again == [heaps, units, live, largest] && left.is_some_and(are_short)
            }
            _ => false,
        };
        self.must(is_right, call, header, format!("{found:?}, {requested:?}"));
        self.fail_each_as_by_node(HEAPS_STORE, layout, header, 0);
    }

    /// Heaps as a text: what the calls request first, and then one row that grows, of which no part is longer than twice the
    /// text.
    fn heaps_dumped(&mut self, layout: Layout, header: &str) {
        let call = HEAPS_DUMP.on(layout);
        let (_, first) = self.with_ample_memory(HEAPS_CALLS.on(layout), header);
        let (found, requested) = self.with_ample_memory(call, header);
        let is_right = match (&found.numbers[..], requested.strip_prefix(&first[..])) {
            ([bytes], Some(rows)) => !rows.is_empty() && rows.iter().all(|row| *row as u64 <= 2 * bytes),
            _ => false,
        };
        self.must(is_right, call, header, format!("{found:?}, {requested:?}"));
        self.fail_each_as_by_node(HEAPS_DUMP, layout, header, 0);
    }

    /// Room for 300 heaps: a slot each, as large as those for seven, and four trees of 512 numbers.
    fn many_numbers(&mut self, layout: Layout, header: &str) {
        let (_, room) = self.with_ample_memory(HEAPS.on(layout), header);
        let many = [room[0] / 7 * 300, 4096, 4096, 4096, 4096];
        self.expect_requests(HEAPS_MANY.on(layout), header, &many);
        self.fail_each(HEAPS_MANY.on(layout), header, 0, &Outcome::new(ANSWERED, &[0]));
    }

    /// A list of calls for a script; it takes one request, and with tickets two, which are no call's.
    fn lists(&mut self, layout: Layout, text: &str, replies: &Outcome, with_tickets: &Outcome) {
        let first = self.parse_requests(text);
        self.fail_each(LIST.on(layout), text, first + 1, replies);
        self.fail_each(TICKETS.on(layout), text, first + 2, with_tickets);
    }
}

/// A part of the check.
type Part = Box<dyn Fn(&mut Check) + Send + Sync>;

fn part(run: impl Fn(&mut Check) + Send + Sync + 'static) -> Part {
    Box::new(run)
}

/// The parts for an index of `bits` bits, of which `most` is the largest node limit that is tried.
fn parts(bits: usize, most: usize) -> Vec<Part> {
    let mut all = Vec::new();
    for layout in [BY_NODE, BY_FIELD] {
        all.push(part(move |it| it.default(layout, most, bits)));
        all.push(part(move |it| {
            it.allocator(layout, 4, bits, 100, &[100, 96])
        }));
        all.push(part(move |it| it.allocator(layout, 2, bits, 100, &[0, 0])));
        all.push(part(move |it| {
            it.allocator(layout, 100, bits, 1000, &[1000, 960])
        }));
        all.push(part(move |it| {
            it.allocator(layout, most, bits, 100, &[100, 96])
        }));
        // at most 2,998 ranges are live under a limit of 3,000
        all.push(part(move |it| {
            it.filled(layout, 3000, bits, &[2998, 2998, 5000, 4608])
        }));
        all.push(part(move |it| {
            it.filled(layout, most, bits, &[3000, 3000, 5000, 4608])
        }));
        all.push(part(move |it| it.heaps(layout, 100, bits, 300)));
        // beyond the first growth of each table
        all.push(part(move |it| {
            let header = format!("space 2000 nodes 1000 index {bits}");
            it.heaps_grown(HEAPS_GROW.on(layout), layout, &header, 1000, bits, 0)
        }));
    }
    let header = format!("space 100 nodes 4 index {bits}");
    let short = format!("{header}\n{COMMANDS}");
    let script = Outcome::new(ANSWERED, &[&[100, 4, bits as u64], SCRIPT].concat());
    let written: Vec<u64> = WRITTEN.bytes().map(u64::from).collect();
    let text = short.clone();
    all.push(part(move |it| {
        let first = it.fail_each(PARSE, &text, 0, &script);
        for layout in [BY_NODE, BY_FIELD] {
            let answers = Outcome::new(ANSWERED, ANSWERS);
            it.fail_each(PLAY.on(layout), &text, first, &answers);
        }
        for call in [RUN, RUN_PROGRAM] {
            it.fail_each(call, &text, 0, &Outcome::new(ANSWERED, &written));
        }
    }));
    let long = mixed(bits);
    let text = long.clone();
    all.push(part(move |it| {
        let (script, _) = it.with_ample_memory(PARSE, &text);
        let first = it.fail_each(PARSE, &text, 0, &script);
        for layout in [BY_NODE, BY_FIELD] {
            it.fail_each_as_by_node(PLAY, layout, &text, first);
        }
        for call in [RUN, RUN_PROGRAM] {
            let (written, _) = it.with_ample_memory(RUN, &text);
            it.fail_each(call, &text, 0, &written);
        }
    }));
    for text in [short, long] {
        let drawn = text.clone();
        all.push(part(move |it| {
            let first = it.parse_requests(&drawn);
            for call in [LIVES, PICTURE] {
                let (wanted, _) = it.with_ample_memory(call, &drawn);
                it.fail_each(call, &drawn, first, &wanted);
            }
            let (wanted, _) = it.with_ample_memory(PICTURE, &drawn);
            it.fail_each(DRAW_PROGRAM, &drawn, 0, &wanted);
        }));
        for layout in [BY_NODE, BY_FIELD] {
            let text = text.clone();
            all.push(part(move |it| {
                let [replies, with_tickets] =
                    [LIST, TICKETS].map(|call| it.with_ample_memory(call.on(BY_NODE), &text).0);
                it.lists(layout, &text, &replies, &with_tickets);
            }));
        }
    }
    // a compaction after 140 grants and some releases moves more than 64 ranges, which a reply grows for
    let grants = "alloc 5\n".repeat(140);
    let frees: String = (1..20).map(|number| format!("free {number}\n")).collect();
    let moving = format!("space 1000 nodes 200 index {bits}\n{grants}{frees}");
    for layout in [BY_NODE, BY_FIELD] {
        let text = moving.clone();
        all.push(part(move |it| {
            let [replies, with_tickets] = [LIST, TICKETS].map(|call| it.with_ample_memory(call.on(BY_NODE), &text).0);
            it.lists(layout, &text, &replies, &with_tickets);
        }));
    }
    for layout in [BY_NODE, BY_FIELD] {
        all.push(part(move |it| {
            let eight = format!("space 100 nodes 8 index {bits}");
            let replies = Outcome::new(ANSWERED, REPLIES);
            let with_tickets = Outcome::new(ANSWERED, &[REPLIES, SERIALS].concat());
            it.lists(layout, &eight, &replies, &with_tickets);
        }));
    }
    all
}

fn main() {
    let mut words = std::env::args_os().skip(1);
    let (Some(file), Some(of_heaps), Some(memory)) = (words.next(), words.next(), words.next())
    else {
        panic!("refusals PROGRAM PROGRAM_OF_HEAPS MEMORY");
    };
    let programs = Programs {
        file,
        of_heaps,
        memory,
    };
    let mut all = parts(16, 65_533);
    all.extend(parts(32, 131_072));
    // 8 bytes fewer than 16 MiB, and 20 more
    for nodes in [599_186, 599_187] {
        all.push(part(move |it| it.large(BY_NODE, nodes)));
        all.push(part(move |it| it.large(BY_FIELD, nodes)));
    }
    for call in [PARSE, RUN] {
        all.push(part(move |it| {
            it.fail_each(call, BAD, 0, &Outcome::new(FAULTY, FAULT));
            let long = "\n".repeat(1_048_577);
            it.fail_each(call, &long, 0, &Outcome::new(FAULTY, &[0]));
        }));
    }
    let next = AtomicUsize::new(0);
    let done = Mutex::new(Vec::new());
    thread::scope(|scope| {
        for _ in 0..thread::available_parallelism().map_or(1, usize::from) {
            scope.spawn(|| loop {
                let at = next.fetch_add(1, Ordering::Relaxed);
                let Some(run) = all.get(at) else { break };
                let mut check = Check {
                    programs: &programs,
                    runs: 0,
                    wrong: 0,
                    lines: Vec::new(),
                };
                run(&mut check);
                done.lock().unwrap().push((at, check));
            });
        }
    });
    let mut done = done.into_inner().unwrap();
    done.sort_by_key(|(at, _)| *at);
    let (mut runs, mut wrong) = (0, 0);
    for (_, check) in &done {
        check.lines.iter().for_each(|line| println!("{line}"));
        runs += check.runs;
        wrong += check.wrong;
    }
    println!("{runs} runs, {wrong} wrong");
    std::process::exit(i32::from(wrong > 0));
}
