//! What the page calls: a recording is read and played in pieces.
//!
//! A call takes and returns numbers. Texts and lists pass through one list of bytes and one of numbers, whose places
//! the page asks for. No pointer is followed here: the page reads and writes the module's memory.

use offset_allocator::{AllocatorOf, ByNode, NodeIndex, Refusal};
use offset_allocator_recorded::{put_reply, Call, CallPlayer, Command, Global, Header, HeapLine, IndexWidth, Line, NoHeap, Reader, Reply, RunFault};
use std::sync::Mutex;

type Text = offset_script::memory::Vec<u8>;

// The numbers of a call that was played: the kind of its answer, the number of the grant or of moved ranges, an offset and
// units, the free units and the largest request of the report, the number of blocks, and why it was refused.
type Row = [u32; 8];

// A call: its kind, and its numbers.
const WIDE: usize = 5;
// In place of the kind of a call: a space begins, of one heap of many too; a heap is dropped, or given up; a request that no heap
// granted, a range that no other heap took, and a call on a place that is not live; a mark.
const HEADER: u32 = 255;
const HEAP: u32 = 254;
const DROP: u32 = 253;
const GIVE_UP: u32 = 252;
const REFUSED: u32 = 251;
const KEPT: u32 = 250;
const GONE: u32 = 249;
const MARK: u32 = 248;

/// A space; the number of the grant that had a node last, by the node; and of each range that the last call moved its
/// grant's number, and where it begins now.
struct Space<NI: NodeIndex> {
    player: CallPlayer<NI>,
    grants: Vec<u32>,
    moved: Vec<u32>,
}

enum Held {
    None,
    Narrow(Space<u16>),
    Wide(Space<u32>),
}

struct State {
    bytes: Vec<u8>,
    words: Vec<u32>,
    reader: Reader,
    held: Held,
}

static STATE: Mutex<Option<State>> = Mutex::new(None);

fn with<T>(f: impl FnOnce(&mut State) -> T) -> T {
    let mut state = match STATE.lock() {
        Ok(state) => state,
        Err(broken) => broken.into_inner(),
    };
    f(state.get_or_insert_with(|| State {
        bytes: Vec::new(),
        words: Vec::new(),
        reader: Reader::new(),
        held: Held::None,
    }))
}

/// Makes room for `len` bytes, and returns where they are.
#[unsafe(no_mangle)]
pub extern "C" fn room(len: usize) -> usize {
    with(|s| {
        s.bytes.clear();
        s.bytes.resize(len, 0);
        s.bytes.as_ptr() as usize
    })
}

/// Where the bytes are.
#[unsafe(no_mangle)]
pub extern "C" fn bytes() -> usize {
    with(|s| s.bytes.as_ptr() as usize)
}

/// The number of the bytes.
#[unsafe(no_mangle)]
pub extern "C" fn bytes_len() -> usize {
    with(|s| s.bytes.len())
}

/// Where the numbers are.
#[unsafe(no_mangle)]
pub extern "C" fn words() -> usize {
    with(|s| s.words.as_ptr() as usize)
}

/// The number of the numbers.
#[unsafe(no_mangle)]
pub extern "C" fn words_len() -> usize {
    with(|s| s.words.len())
}

// A call as numbers. The kinds are the places in the list of `reading.js`.
fn numbers(call: Call) -> [u32; WIDE] {
    match call {
        Call::Command(Command::Alloc(n)) => [0, n, 0, 0, 0],
        Call::Command(Command::Align(n, a)) => [1, n, a, 0, 0],
        Call::Command(Command::Free(k)) => [2, k, 0, 0, 0],
        Call::Command(Command::Size(k)) => [3, k, 0, 0, 0],
        Call::Command(Command::Report) => [4, 0, 0, 0, 0],
        Call::Command(Command::Full) => [5, 0, 0, 0, 0],
        Call::Command(Command::Reset) => [6, 0, 0, 0, 0],
        Call::Command(Command::Extend(n)) => [7, n, 0, 0, 0],
        Call::Shrink(k, n) => [8, k, n, 0, 0],
        Call::Grow(k, n) => [9, k, n, 0, 0],
        Call::Compact => [10, 0, 0, 0, 0],
        Call::CompactBy(s) => [11, s, 0, 0, 0],
        Call::CompactWithin(s, o, u, r) => [12, s, o, u, r],
        Call::AllocateTight(n) => [13, n, 0, 0, 0],
        Call::AllocateTightAligned(n, a) => [14, n, a, 0, 0],
        Call::MakeRoom(n) => [15, n, 0, 0, 0],
        Call::MakeRoomBy(n, a, s) => [16, n, a, s, 0],
        Call::Relocate(k) => [17, k, 0, 0, 0],
        Call::RelocateAligned(k, a) => [18, k, a, 0, 0],
        Call::Retract(n) => [19, n, 0, 0, 0],
        Call::Offset(k) => [20, k, 0, 0, 0],
        Call::WouldBegin(n, 1) => [21, n, 0, 0, 0],
        Call::WouldBegin(n, a) => [22, n, a, 0, 0],
        Call::FirstLive => [23, 0, 0, 0, 0],
        Call::LastLive => [24, 0, 0, 0, 0],
        Call::LiveBefore(k) => [25, k, 0, 0, 0],
        Call::LiveAfter(k) => [26, k, 0, 0, 0],
        Call::RoomCost(n) => [27, n, 0, 0, 0],
        Call::RoomCostBy(n, a, s) => [28, n, a, s, 0],
        Call::Refusal(n) => [29, n, 0, 0, 0],
        Call::RefusalAligned(n, a) => [30, n, a, 0, 0],
        Call::RefusalTight(n) => [31, n, 0, 0, 0],
        Call::RefusalTightAligned(n, a) => [32, n, a, 0, 0],
        Call::AllocateAt(o, n) => [33, o, n, 0, 0],
    }
}

fn call_of([kind, a, b, c, d]: [u32; WIDE]) -> Call {
    match kind {
        0 => Call::Command(Command::Alloc(a)),
        1 => Call::Command(Command::Align(a, b)),
        2 => Call::Command(Command::Free(a)),
        3 => Call::Command(Command::Size(a)),
        4 => Call::Command(Command::Report),
        5 => Call::Command(Command::Full),
        6 => Call::Command(Command::Reset),
        7 => Call::Command(Command::Extend(a)),
        8 => Call::Shrink(a, b),
        9 => Call::Grow(a, b),
        10 => Call::Compact,
        11 => Call::CompactBy(a),
        12 => Call::CompactWithin(a, b, c, d),
        13 => Call::AllocateTight(a),
        14 => Call::AllocateTightAligned(a, b),
        15 => Call::MakeRoom(a),
        16 => Call::MakeRoomBy(a, b, c),
        17 => Call::Relocate(a),
        18 => Call::RelocateAligned(a, b),
        19 => Call::Retract(a),
        20 => Call::Offset(a),
        21 => Call::WouldBegin(a, 1),
        22 => Call::WouldBegin(a, b),
        23 => Call::FirstLive,
        24 => Call::LastLive,
        25 => Call::LiveBefore(a),
        26 => Call::LiveAfter(a),
        27 => Call::RoomCost(a),
        28 => Call::RoomCostBy(a, b, c),
        29 => Call::Refusal(a),
        30 => Call::RefusalAligned(a, b),
        31 => Call::RefusalTight(a),
        32 => Call::RefusalTightAligned(a, b),
        33 => Call::AllocateAt(a, b),
        _ => unreachable!("a kind that has no call here"),
    }
}

// Whether a call may slide ranges.
fn slides(call: Call) -> bool {
    matches!(call, Call::Compact | Call::CompactBy(_) | Call::CompactWithin(..) | Call::MakeRoom(_) | Call::MakeRoomBy(..))
}

// Whether a call is a question, as those of the kinds 20 to 32: a `none` to it refuses nothing.
fn asks(call: Call) -> bool {
    (20..33).contains(&numbers(call)[0])
}

// The length of a piece of a text is below that of the memory of a wasm module.
fn word(n: usize) -> u32 {
    n as u32
}

/// Reads the bytes as the next lines of a recording; `part` is 0 for its first piece, 1 for a later one. All pieces but
/// the last end with a line end; with `last` 1 it is the last.
///
/// 0: the numbers are eight for each line that is neither empty nor a comment: a call as `play` takes it, or one of the kinds
/// above, of a header with the size, node limit and bits; the number of the line; the length of its name, or of the text of a
/// mark; and the number of its heap, or 0. The bytes are these texts. 1: the line is faulty, and ends the reading: the numbers are its number, and where it begins and
/// ends in the bytes that were given; the bytes are the fault.
#[unsafe(no_mangle)]
pub extern "C" fn read(part: u32, last: u32) -> u32 {
    with(|s| {
        let text = std::mem::take(&mut s.bytes);
        s.words.clear();
        if part == 0 {
            s.reader = Reader::new();
        }
        let (mut at, mut is_whole) = (0, true);
        while at < text.len() {
            let end = text[at..].iter().position(|b| *b == b'\n').map_or(text.len(), |n| at + n);
            is_whole = end < text.len();
            let line = &text[at..end];
            let (row, heap) = match s.reader.take(line) {
                Err(fault) => return s.fault(RunFault::from(fault), at, end),
                Ok(Line::Other) => {
                    at = end + 1;
                    continue;
                }
                Ok(Line::Mark) => ([MARK, 0, 0, 0, 0], 0),
                Ok(Line::Header(header)) => (header_of(HEADER, header), 0),
                Ok(Line::Call(call)) => (numbers(call), 0),
                Ok(Line::Heap(heap, HeapLine::Header(header))) => (header_of(HEAP, header), heap),
                Ok(Line::Heap(heap, HeapLine::Call(call))) => (numbers(call), heap),
                Ok(Line::Heap(heap, HeapLine::Drop)) => ([DROP, 0, 0, 0, 0], heap),
                Ok(Line::Heap(heap, HeapLine::GiveUp)) => ([GIVE_UP, 0, 0, 0, 0], heap),
                Ok(Line::NoHeap(NoHeap::Refused(n, a, why))) => ([REFUSED, n, a, why as u32, u32::from(is_tight(line))], 0),
                Ok(Line::NoHeap(NoHeap::Kept(n, a))) => ([KEPT, n, a, 0, 0], 0),
                Ok(Line::NoHeap(NoHeap::Gone)) => ([GONE, 0, 0, 0, 0], 0),
            };
            let name = if row[0] == MARK { line[2..].trim_ascii() } else { s.reader.name() };
            s.words.extend_from_slice(&row);
            s.words.extend_from_slice(&[s.reader.line(), word(name.len()), heap]);
            s.bytes.extend_from_slice(name);
            at = end + 1;
        }
        match s.reader.end(is_whole) {
            Err(fault) if last == 1 => s.fault(RunFault::from(fault), text.len(), text.len()),
            _ => 0,
        }
    })
}

// Whether a request that no heap granted was for any block that holds it.
fn is_tight(line: &[u8]) -> bool {
    line.split(|b| *b == b' ').nth(1) == Some(b"tight")
}

fn header_of(kind: u32, header: Header) -> [u32; WIDE] {
    let bits = if header.index == IndexWidth::Bits16 { 16 } else { 32 };
    [kind, header.size, header.max_allocs, bits, 0]
}

impl State {
    fn fault(&mut self, fault: RunFault, from: usize, to: usize) -> u32 {
        self.words = vec![fault.parts().0.unwrap_or(0), word(from), word(to)];
        self.bytes = fault.to_string().into_bytes();
        1
    }
}

/// Makes a fresh space. 1: an allocation failed, the bytes are the line of that fault, and there is no space.
#[unsafe(no_mangle)]
pub extern "C" fn start(size: u32, max_allocs: u32, bits: u32) -> u32 {
    with(|s| {
        s.held = Held::None;
        let made = match bits {
            16 => Space::start(size, max_allocs).map(Held::Narrow),
            _ => Space::start(size, max_allocs).map(Held::Wide),
        };
        match made {
            Some(held) => s.held = held,
            None => {
                s.fault(RunFault::Memory, 0, 0);
                return 1;
            }
        }
        0
    })
}

fn why<NI: NodeIndex>(space: &AllocatorOf<ByNode<NI>>, call: Call) -> Option<Refusal> {
    match call {
        Call::Command(Command::Alloc(n)) => space.refusal(n),
        Call::Command(Command::Align(n, a)) => space.refusal_aligned(n, a),
        Call::AllocateTight(n) => space.refusal_tight(n),
        Call::AllocateTightAligned(n, a) => space.refusal_tight_aligned(n, a),
        _ => None,
    }
}

impl<NI: NodeIndex> Space<NI> {
    fn start(size: u32, max_allocs: u32) -> Option<Self> {
        Some(Space { player: CallPlayer::start(Global, size, max_allocs).ok()?, grants: Vec::new(), moved: Vec::new() })
    }

    // Plays a call; `None` where an allocation fails.
    fn play(&mut self, call: Call, text: Option<&mut Text>) -> Option<Row> {
        use offset_script::Answer as A;
        let refusal = why(self.player.space(), call);
        let reply = self.player.call(Global, call).ok()?;
        let space = self.player.space();
        let resized = |k| self.player.handle(k).and_then(|h| space.allocation_offset(h)).unwrap_or(0);
        let [kind, number, offset, units] = match (&reply, call) {
            (Reply::Answer(A::Grant { number, offset }), _) => {
                let handle = self.player.handle(*number as u32)?;
                let name = handle.to_parts().1 as usize;
                if name >= self.grants.len() {
                    self.grants.resize(name + 1, 0);
                }
                self.grants[name] = *number as u32;
                [1, *number as u32, *offset, space.allocation_size(handle)]
            }
            (Reply::Answer(A::Refused) | Reply::RoomMade(None, _) | Reply::RoomCost(None) | Reply::Found(None), _) => {
                [if asks(call) { 12 } else { 2 }, 0, 0, 0]
            }
            (Reply::Answer(A::Freed), Call::Command(Command::Free(k))) => [3, k, 0, 0],
            (Reply::Resized, Call::Shrink(k, n) | Call::Grow(k, n)) => [4, k, resized(k), n],
            (Reply::Compacted(moves), _) => [5, word(moves.len()), 0, 0],
            (Reply::Answer(A::Gone), _) => [6, 0, 0, 0],
            (Reply::Answer(A::Reset), _) => [7, 0, 0, 0],
            (Reply::Answer(A::Extended), _) => [8, 0, 0, 0],
            (Reply::Answer(A::Full(rows)), _) => [9, 0, 0, word(rows.len())],
            (Reply::Answer(A::Size(n)), _) => [10, 0, 0, *n],
            (Reply::RoomMade(Some(cost), _), _) => [13, cost.ranges, 0, cost.units],
            (Reply::RoomCost(Some(cost)), _) => [14, cost.ranges, 0, cost.units],
            (Reply::CompactedWithin(next, moves), _) => {
                let units = moves.iter().map(|range| range.size).sum();
                let kind = if next.is_some() { 15 } else { 16 };
                [kind, word(moves.len()), next.unwrap_or(0), units]
            }
            (Reply::Resized, _) => [17, 0, 0, 0],
            (Reply::Offset(n), _) => [18, 0, *n, 0],
            (Reply::Found(Some(range)), _) => [19, range.number as u32, range.offset, 0],
            (Reply::Refusal(why), _) => [20, 0, 0, why.map_or(0, |w| w as u32 + 1)],
            (Reply::Answer(A::Freed), _) => unreachable!("which range is free?"),
            _ => [11, 0, 0, 0],
        };
        self.moved.clear();
        if let Reply::Compacted(moves) | Reply::RoomMade(_, moves) | Reply::CompactedWithin(_, moves) = &reply {
            self.moved.extend(moves.iter().flat_map(|range| [range.number as u32, range.to]));
        }
        if let Some(text) = text {
            put_reply(text, call, &reply).ok()?;
        }
        let report = space.storage_report();
        let why = refusal.map_or(0, |w| w as u32 + 1);
        Some([kind, number, offset, units, report.total_free_space, report.largest_free_region, space.block_count(), why])
    }

    // Three numbers for each block, from the end of the space: its offset, its units, and its grant's number, or 0.
    fn blocks(&self, words: &mut Vec<u32>) {
        for block in self.player.space().blocks() {
            let number = block.allocation.and_then(|a| self.grants.get(a.to_parts().1 as usize).copied());
            words.extend_from_slice(&[block.offset, block.size, number.unwrap_or(0)]);
        }
    }

    // The number of the free blocks of each class.
    fn bins(&self, words: &mut Vec<u32>) {
        words.extend(self.player.space().storage_report_full().free_regions.iter().map(|r| r.count));
    }
}

/// Plays the calls in the bytes, five numbers of four bytes each, little-endian, and returns how many were played: all;
/// or up to the first that may slide ranges, with it; or fewer, where an allocation failed. The numbers are then eight for each. With
/// `text` 1 the bytes are the lines of the answers.
#[unsafe(no_mangle)]
pub extern "C" fn play(text: u32) -> u32 {
    with(|s| {
        let given = std::mem::take(&mut s.bytes);
        s.words.clear();
        let mut lines = Text::new(Global);
        let mut count = 0;
        for call in given.chunks_exact(4 * WIDE) {
            let at = |i: usize| u32::from_le_bytes([call[i], call[i + 1], call[i + 2], call[i + 3]]);
            let call = call_of([at(0), at(4), at(8), at(12), at(16)]);
            let to = (text == 1).then_some(&mut lines);
            let row = match &mut s.held {
                Held::None => None,
                Held::Narrow(space) => space.play(call, to),
                Held::Wide(space) => space.play(call, to),
            };
            let Some(row) = row else { break };
            s.words.extend_from_slice(&row);
            count += 1;
            if slides(call) {
                break;
            }
        }
        s.bytes = lines.to_vec();
        count
    })
}

/// The numbers are two for each range that the call that was played last has moved: its grant, and where it begins now.
#[unsafe(no_mangle)]
pub extern "C" fn moved() {
    with(|s| {
        s.words.clear();
        match &s.held {
            Held::None => (),
            Held::Narrow(space) => s.words.extend_from_slice(&space.moved),
            Held::Wide(space) => s.words.extend_from_slice(&space.moved),
        }
    })
}

/// The numbers are those of all blocks, three for each, after those of the 256 bins.
#[unsafe(no_mangle)]
pub extern "C" fn view() {
    with(|s| {
        s.words.clear();
        match &s.held {
            Held::None => (),
            Held::Narrow(space) => {
                space.bins(&mut s.words);
                space.blocks(&mut s.words);
            }
            Held::Wide(space) => {
                space.bins(&mut s.words);
                space.blocks(&mut s.words);
            }
        }
    })
}
