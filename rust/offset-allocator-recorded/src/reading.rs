//! Reads recordings: scripts of any length, with a line for each call that scripts lack.

use offset_allocator_heaps::Refusal;
use offset_allocator_memory::Global;
use offset_calls::Call;
use offset_script::{parse, Command, IndexWidth, RunFault, ScriptFault};
use std::collections::BTreeSet;
use std::io::BufRead;

/// The line with which a space begins.
#[derive(Clone, Copy, PartialEq, Debug)]
pub struct Header {
    /// The units of the space.
    pub size: u32,
    /// The node limit.
    pub max_allocs: u32,
    /// The width of node indices.
    pub index: IndexWidth,
}

fn number(word: &[u8]) -> Option<u32> {
    if word.is_empty() || word.len() > 10 || !word.iter().all(u8::is_ascii_digit) {
        return None;
    }
    u32::try_from(word.iter().fold(0u64, |n, b| n * 10 + u64::from(b - b'0'))).ok()
}

/// The call that a line spells, if it does.
pub fn call(line: &[u8]) -> Option<Call> {
    let (mut words, mut count) = ([&[][..]; 5], 0);
    for word in line.split(|b| *b == b' ') {
        *words.get_mut(count)? = word;
        count += 1;
    }
    let found = match words[..count] {
        [b"alloc", n] => Call::Command(Command::Alloc(number(n)?)),
        [b"align", n, a] => Call::Command(Command::Align(number(n)?, number(a)?)),
        [b"free", k] => Call::Command(Command::Free(number(k)?)),
        [b"size", k] => Call::Command(Command::Size(number(k)?)),
        [b"report"] => Call::Command(Command::Report),
        [b"full"] => Call::Command(Command::Full),
        [b"reset"] => Call::Command(Command::Reset),
        [b"extend", n] => Call::Command(Command::Extend(number(n)?)),
        [b"shrink", k, n] => Call::Shrink(number(k)?, number(n)?),
        [b"grow", k, n] => Call::Grow(number(k)?, number(n)?),
        [b"compact"] => Call::Compact,
        [b"compact", s] => Call::CompactBy(number(s)?),
        [b"compact", s, o, u, r] => Call::CompactWithin(number(s)?, number(o)?, number(u)?, number(r)?),
        [b"at", o, n] => Call::AllocateAt(number(o)?, number(n)?),
        [b"tight", n] => Call::AllocateTight(number(n)?),
        [b"tight", n, a] => Call::AllocateTightAligned(number(n)?, number(a)?),
        [b"room", n] => Call::MakeRoom(number(n)?),
        [b"room", n, a, s] => Call::MakeRoomBy(number(n)?, number(a)?, number(s)?),
        [b"relocate", k] => Call::Relocate(number(k)?),
        [b"relocate", k, a] => Call::RelocateAligned(number(k)?, number(a)?),
        [b"retract", n] => Call::Retract(number(n)?),
        [b"offset", k] => Call::Offset(number(k)?),
        [b"where", n] => Call::WouldBegin(number(n)?, 1),
        [b"where", n, a] => Call::WouldBegin(number(n)?, number(a)?),
        [b"first"] => Call::FirstLive,
        [b"last"] => Call::LastLive,
        [b"before", k] => Call::LiveBefore(number(k)?),
        [b"after", k] => Call::LiveAfter(number(k)?),
        [b"cost", n] => Call::RoomCost(number(n)?),
        [b"cost", n, a, s] => Call::RoomCostBy(number(n)?, number(a)?, number(s)?),
        [b"why", b"alloc", n] => Call::Refusal(number(n)?),
        [b"why", b"align", n, a] => Call::RefusalAligned(number(n)?, number(a)?),
        [b"why", b"tight", n] => Call::RefusalTight(number(n)?),
        [b"why", b"tight", n, a] => Call::RefusalTightAligned(number(n)?, number(a)?),
        _ => return None,
    };
    found.is_valid().then_some(found)
}

/// What a line of a recording is.
#[derive(Clone, Copy, PartialEq, Debug)]
pub enum Line {
    /// Empty, or a comment.
    Other,
    /// A mark: a comment that begins with `#!`.
    Mark,
    /// A space begins: the first line that is neither; or a later one, whose space takes the place of the one before.
    Header(Header),
    /// A later one.
    Call(Call),
    /// A line of the heap of this number, one of many.
    Heap(u32, HeapLine),
    /// A call on many heaps that changes none of them.
    NoHeap(NoHeap),
}

/// A line of one of many heaps.
#[derive(Clone, Copy, PartialEq, Debug)]
pub enum HeapLine {
    /// The heap begins, in place of the one that had the number before.
    Header(Header),
    /// A call on it.
    Call(Call),
    /// It is dropped, where nothing is live in it.
    Drop,
    /// It is given up, with all that is live in it.
    GiveUp,
}

/// A call on many heaps that changes none of them, as it went.
#[derive(Clone, Copy, PartialEq, Debug)]
pub enum NoHeap {
    /// A request for this many units, from a multiple of the second number on, was refused, and why.
    Refused(u32, u32, Refusal),
    /// No other heap takes this many units, from a multiple of the second number on.
    Kept(u32, u32),
    /// The call was on a place that is not live.
    Gone,
}

// The words for why many heaps refuse a request.
const WHY: [(&[u8], Refusal); 4] =
    [(b"empty", Refusal::Empty), (b"larger", Refusal::TooLarge), (b"full", Refusal::Full), (b"memory", Refusal::Memory)];

/// The word of a recording for why many heaps refuse a request.
pub(crate) fn word_of(why: Refusal) -> &'static str {
    match why {
        Refusal::Empty => "empty",
        Refusal::TooLarge => "larger",
        Refusal::Full => "full",
        Refusal::Memory => "memory",
    }
}

fn why(word: &[u8]) -> Option<Refusal> {
    WHY.iter().find(|it| it.0 == word).map(|it| it.1)
}

// What a line says that changes no heap, after its first word.
fn no_heap(rest: &[u8]) -> Option<NoHeap> {
    let (mut words, mut count) = ([&[][..]; 4], 0);
    for word in rest.split(|b| *b == b' ') {
        *words.get_mut(count)? = word;
        count += 1;
    }
    Some(match words[..count] {
        [b"alloc", n, w] => NoHeap::Refused(number(n)?, 1, why(w)?),
        [b"align", n, a, w] => NoHeap::Refused(number(n)?, number(a).filter(|a| *a >= 1)?, why(w)?),
        [b"tight", n, w] => NoHeap::Refused(number(n)?, 1, why(w)?),
        [b"tight", n, a, w] => NoHeap::Refused(number(n)?, number(a).filter(|a| *a >= 1)?, why(w)?),
        [b"relocate", n, a] => NoHeap::Kept(number(n)?, number(a).filter(|a| *a >= 1)?),
        [b"free"] | [b"relocate"] => NoHeap::Gone,
        _ => return None,
    })
}

// The heap that a line names, and the rest of the line.
fn of_heap(line: &[u8]) -> Option<(u32, &[u8])> {
    let rest = line.strip_prefix(b"heap ")?;
    let end = rest.iter().position(|b| *b == b' ')?;
    Some((number(&rest[..end])?, &rest[end + 1..]))
}

// Whether a recording is of one space, or of many heaps.
#[derive(Clone, Copy, PartialEq, Default)]
enum Kind {
    #[default]
    Unknown,
    One,
    Many,
}

/// The name that the text of a mark gives to a grant, where it does: of which of many heaps it is, its number, and the name.
pub(crate) fn named(mark: &[u8]) -> Option<(Option<u32>, u32, &[u8])> {
    let (heap, rest) = match of_heap(mark) {
        None => (None, mark),
        Some((heap, rest)) => (Some(heap), rest),
    };
    let rest = rest.strip_prefix(b"name ")?;
    let end = rest.iter().position(|b| *b == b' ')?;
    let name = rest[end + 1..].trim_ascii();
    (!name.is_empty()).then_some((heap, number(&rest[..end])?, name))
}

/// Takes the lines of a recording one by one, without their ends, and counts them from 1.
#[derive(Default)]
pub struct Reader {
    line: u32,
    kind: Kind,
    // the heaps that have begun
    heaps: BTreeSet<u32>,
    // the text of the comment directly before the next line, but for marks; and of that before the last call
    pending: Vec<u8>,
    name: Vec<u8>,
}

impl Reader {
    /// A reader of a recording that no line was taken of.
    pub fn new() -> Self {
        Self::default()
    }

    /// What the next line is, or its fault: the one that the proved program has for a script.
    pub fn take(&mut self, line: &[u8]) -> Result<Line, ScriptFault> {
        self.line = self.line.saturating_add(1);
        if line.starts_with(b"#!") {
            return Ok(Line::Mark);
        }
        if line.is_empty() || line[0] == b'#' {
            self.pending.clear();
            self.pending.extend_from_slice(line.strip_prefix(b"#").unwrap_or(b"").trim_ascii());
            return Ok(Line::Other);
        }
        std::mem::swap(&mut self.pending, &mut self.name);
        self.pending.clear();
        let bad = ScriptFault::BadCommand(self.line);
        match self.kind {
            Kind::Unknown => {
                if let Some(rest) = line.strip_prefix(b"none ") {
                    self.kind = Kind::Many;
                    return no_heap(rest).map(Line::NoHeap).ok_or(ScriptFault::BadHeader(self.line));
                }
                let found = match of_heap(line) {
                    None => self.header(line).map(Line::Header),
                    Some((heap, rest)) => self.header(rest).map(|header| Line::Heap(heap, HeapLine::Header(header))),
                }?;
                self.kind = Kind::One;
                if let Line::Heap(heap, _) = found {
                    self.kind = Kind::Many;
                    self.heaps.insert(heap);
                }
                Ok(found)
            }
            Kind::One if line.starts_with(b"space ") => self.header(line).map(Line::Header).map_err(|fault| self.later(fault)),
            Kind::One => call(line).map(Line::Call).ok_or(bad),
            Kind::Many => {
                if let Some(rest) = line.strip_prefix(b"none ") {
                    return no_heap(rest).map(Line::NoHeap).ok_or(bad);
                }
                let (heap, rest) = of_heap(line).ok_or(bad)?;
                if rest.starts_with(b"space ") {
                    let header = self.header(rest).map_err(|fault| self.later(fault))?;
                    self.heaps.insert(heap);
                    return Ok(Line::Heap(heap, HeapLine::Header(header)));
                }
                if !self.heaps.contains(&heap) {
                    return Err(bad);
                }
                let found = match rest {
                    b"drop" => HeapLine::Drop,
                    b"give up" => HeapLine::GiveUp,
                    _ => HeapLine::Call(call(rest).ok_or(bad)?),
                };
                Ok(Line::Heap(heap, found))
            }
        }
    }

    // The header that a line spells.
    fn header(&self, line: &[u8]) -> Result<Header, ScriptFault> {
        // a script of this line alone
        let found = parse(Global, line).map_err(|fault| match fault {
            ScriptFault::BadLimit(_) => ScriptFault::BadLimit(self.line),
            _ => ScriptFault::BadHeader(self.line),
        })?;
        Ok(Header { size: found.size, max_allocs: found.max_allocs, index: found.index })
    }

    // A later line that is no header is a bad command.
    fn later(&self, fault: ScriptFault) -> ScriptFault {
        match fault {
            ScriptFault::BadHeader(line) => ScriptFault::BadCommand(line),
            _ => fault,
        }
    }

    /// The number of the last line, or 0.
    pub fn line(&self) -> u32 {
        self.line
    }

    /// The name of the last line that is no comment: the text of the comment directly before it, or none. Marks may be
    /// between.
    pub fn name(&self) -> &[u8] {
        &self.name
    }

    /// The end of the recording: a fault where it had no header. `is_whole` is whether the last line had a line end.
    pub fn end(&self, is_whole: bool) -> Result<(), ScriptFault> {
        if self.kind != Kind::Unknown {
            return Ok(());
        }
        Err(ScriptFault::BadHeader(if is_whole { self.line.saturating_add(1) } else { self.line.max(1) }))
    }
}

/// The lines of a source, one at a time: only one is in memory.
pub struct Lines<R: BufRead> {
    from: R,
    line: Vec<u8>,
    reader: Reader,
    is_whole: bool,
}

impl<R: BufRead> Lines<R> {
    /// All lines of a source.
    pub fn new(from: R) -> Self {
        Lines { from, line: Vec::new(), reader: Reader::new(), is_whole: true }
    }

    /// The next line that is no comment, or `None` at the end.
    pub fn next_line(&mut self) -> Result<Option<Line>, RunFault> {
        loop {
            match self.next_or_mark()? {
                Some(Line::Mark) => (),
                line => return Ok(line),
            }
        }
    }

    /// The next line that is no comment, or a mark; `None` at the end.
    pub(crate) fn next_or_mark(&mut self) -> Result<Option<Line>, RunFault> {
        loop {
            self.line.clear();
            match self.from.read_until(b'\n', &mut self.line) {
                Ok(0) => return self.reader.end(self.is_whole).map(|()| None).map_err(RunFault::from),
                Ok(_) => (),
                Err(_) => return Err(RunFault::Read),
            }
            self.is_whole = self.line.last() == Some(&b'\n');
            if self.is_whole {
                self.line.pop();
            }
            match self.reader.take(&self.line)? {
                Line::Other => (),
                line => return Ok(Some(line)),
            }
        }
    }

    /// The number of the last line that was read.
    pub fn line(&self) -> u32 {
        self.reader.line()
    }

    /// The text of the last line, which is a mark.
    pub(crate) fn mark(&self) -> &[u8] {
        self.line.strip_prefix(b"#!").unwrap_or(b"").trim_ascii()
    }

    /// The heaps that have begun so far.
    pub(crate) fn heaps(&self) -> &BTreeSet<u32> {
        &self.reader.heaps
    }

    /// Its name, as `Reader::name` has it.
    pub fn name(&self) -> &[u8] {
        self.reader.name()
    }
}
