//! Draws recordings: follows the space call by call, for what a picture shows.

use crate::reading::{named, Header, HeapLine, Line, Lines};
use offset_allocator_memory::Vec;
use offset_allocator_proved::{NodeIndex, Refusal};
use offset_calls::{Call, CallPlayer, Reply};
use offset_pictures::{Asked, Course, Global, Life, Reason, Refused};
use offset_script::{Answer, Command, IndexWidth, RunFault, ScriptFault};
use std::collections::BTreeMap;
use std::io::BufRead;

/// A live grant: the call that granted it, and its lives so far, one for each range. The last of them goes
/// on.
struct Grant {
    granted: usize,
    lives: std::vec::Vec<usize>,
}

/// A space that is followed, and what a picture shows of it. The grant of number k is at k - 1, while it is
/// live.
struct Following<NI: NodeIndex> {
    player: CallPlayer<NI>,
    course: Course,
    grants: Vec<Option<Grant>>,
    /// So many grants came before the last reset, which ended them.
    ended: usize,
    /// So many grants had the spaces before this one.
    before: u64,
}

impl<NI: NodeIndex> Following<NI> {
    fn start(header: Header, before: Option<Course>) -> Result<Self, RunFault> {
        // the report before the first call is that of the first space
        let is_first = before.is_none();
        let course = before.unwrap_or_else(|| Course {
            max_allocs: header.max_allocs,
            grants: 0,
            lives: Vec::new(Global),
            reports: Vec::new(Global),
            sizes: Vec::new(Global),
            refused: Vec::new(Global),
        });
        let mut following = Following {
            player: CallPlayer::start(Global, header.size, header.max_allocs)?,
            before: course.grants as u64,
            course,
            grants: Vec::new(Global),
            ended: 0,
        };
        if is_first {
            following.see()?;
        }
        Ok(following)
    }

    /// Ends all grants that are live.
    fn end_all(&mut self, calls: usize) {
        (0..self.grants.len()).for_each(|place| self.end(calls, place));
    }

    fn names(&self, names: &BTreeMap<u64, std::string::String>) -> BTreeMap<u32, std::string::String> {
        let live = self.grants.iter().zip(self.before + 1..).filter_map(|(grant, number)| {
            let life = &self.course.lives[*grant.as_ref()?.lives.last()?];
            Some((life.offset, names.get(&number)?.clone()))
        });
        live.collect()
    }

    fn finish(mut self, calls: usize) -> Course {
        self.end_all(calls);
        self.course
    }

    /// Adds what the space says after a call, or before the first.
    fn see(&mut self) -> Result<(), RunFault> {
        self.course.reports.push(self.player.space().storage_report())?;
        self.course.sizes.push(self.player.space().size())?;
        Ok(())
    }

    /// Ends a grant, if it is live.
    fn end(&mut self, call: usize, place: usize) {
        if let Some(grant) = self.grants[place].take() {
            for life in &grant.lives {
                self.course.lives[*life].lived = call - grant.granted;
            }
            if let Some(last) = grant.lives.last() {
                self.course.lives[*last].last = call;
            }
        }
    }

    /// From this call on, a live grant has the range that its player says: a life of it begins, and the one before ends,
    /// but where the range is as it was.
    fn change(&mut self, call: usize, place: usize) -> Result<(), RunFault> {
        let number = place as u64 + 1;
        let Some(handle) = u32::try_from(number).ok().and_then(|k| self.player.handle(k)) else {
            return Ok(());
        };
        let space = self.player.space();
        let (offset, size) = (space.allocation_offset(handle).unwrap_or(handle.offset), space.allocation_size(handle));
        let grant = self.grants[place].get_or_insert(Grant { granted: call, lives: std::vec::Vec::new() });
        if let Some(last) = grant.lives.last() {
            let life = &mut self.course.lives[*last];
            if (offset, size) == (life.offset, life.size) {
                return Ok(());
            }
            life.last = call;
        }
        grant.lives.try_reserve(1).map_err(|_| RunFault::Memory)?;
        grant.lives.push(self.course.lives.len());
        let number = self.before + number;
        self.course.lives.push(Life { number, offset, size, first: call, last: call, lived: 0 })?;
        Ok(())
    }

    /// Why a call was refused, which left the space as it was; `None` for one that a picture has no words for.
    fn refused(&self, call: Call) -> Option<(Asked, Reason)> {
        let space = self.player.space();
        let nodes = Reason::Request(Refusal::Nodes);
        let held = |k| self.player.handle(k).map_or(0, |handle| space.allocation_size(handle));
        Some(match call {
            Call::Command(Command::Alloc(n)) => (Asked::Alloc(n), Reason::Request(space.refusal(n)?)),
            Call::Command(Command::Align(n, align)) => {
                (Asked::Align(n, align), Reason::Request(space.refusal_aligned(n, align)?))
            }
            Call::Command(Command::Extend(more)) => {
                let why = if space.size().checked_add(more).is_none() { Reason::TooManyUnits } else { nodes };
                (Asked::Extend(more), why)
            }
            Call::Shrink(k, n) => (Asked::Shrink(k, n), if held(k) < n { Reason::Smaller } else { nodes }),
            Call::Grow(k, n) => {
                (Asked::Grow(k, n), if n < held(k) { Reason::Larger } else { Reason::NoRoom })
            }
            _ => return None,
        })
    }

    /// Makes a call, and follows what it does.
    fn call(&mut self, i: usize, call: Call) -> Result<(), RunFault> {
        // the rows of a full report are not shown, and take memory
        let call = if call == Call::Command(Command::Full) { Call::Command(Command::Report) } else { call };
        match (self.player.call(Global, call)?, call) {
            (Reply::Answer(Answer::Grant { .. }), _) => {
                self.grants.push(None)?;
                self.course.grants += 1;
                self.change(i, self.grants.len() - 1)?;
            }
            (Reply::Answer(Answer::Freed), Call::Command(Command::Free(k))) => self.end(i, k as usize - 1),
            (Reply::Answer(Answer::Reset), _) => {
                (self.ended..self.grants.len()).for_each(|place| self.end(i, place));
                self.ended = self.grants.len();
            }
            (Reply::Resized, Call::Shrink(k, _) | Call::Grow(k, _)) => self.change(i, k as usize - 1)?,
            (Reply::Compacted(moves) | Reply::CompactedWithin(_, moves) | Reply::RoomMade(_, moves), _) => {
                // the number of a grant is one more than its place
                moves.iter().try_for_each(|it| self.change(i, it.number as usize - 1))?;
            }
            (Reply::Answer(Answer::Refused), _) => {
                if let Some((asked, why)) = self.refused(call) {
                    self.course.refused.push(Refused { call: i, asked, why })?;
                }
            }
            (Reply::Answer(Answer::Freed), _) => unreachable!("which range is free?"),
            _ => (),
        }
        self.see()
    }
}

/// The space of one heap that is followed, of either width.
enum Held {
    None,
    Narrow(Following<u16>),
    Wide(Following<u32>),
}

/// A course, and the names of its grants.
struct Named {
    course: Course,
    names: BTreeMap<u64, std::string::String>,
}

impl Held {
    /// Another space, in place of the one that was followed: its lives end here, and the next grant has the next number.
    fn begin(self, header: Header, calls: usize) -> Result<Self, RunFault> {
        let mut course = self.end(calls);
        if let Some(course) = &mut course {
            course.max_allocs = header.max_allocs;
        }
        Ok(match header.index {
            IndexWidth::Bits16 => Held::Narrow(Following::start(header, course)?),
            IndexWidth::Bits32 => Held::Wide(Following::start(header, course)?),
        })
    }

    /// Whether something is live.
    fn has_live(&self) -> bool {
        match self {
            Held::None => false,
            Held::Narrow(following) => following.grants.iter().any(Option::is_some),
            Held::Wide(following) => following.grants.iter().any(Option::is_some),
        }
    }

    fn end(self, calls: usize) -> Option<Course> {
        match self {
            Held::None => None,
            Held::Narrow(following) => Some(following.finish(calls)),
            Held::Wide(following) => Some(following.finish(calls)),
        }
    }

    fn call(&mut self, i: usize, call: Call) -> Result<(), RunFault> {
        match self {
            Held::None => Ok(()),
            Held::Narrow(following) => following.call(i, call),
            Held::Wide(following) => following.call(i, call),
        }
    }

    /// How many grants there were.
    fn grants(&self) -> u64 {
        match self {
            Held::None => 0,
            Held::Narrow(following) => following.course.grants as u64,
            Held::Wide(following) => following.course.grants as u64,
        }
    }

    /// The number in the course of the grant of this number of the space that is followed, where there was one.
    fn number(&self, k: u32) -> Option<u64> {
        let (before, count) = match self {
            Held::None => return None,
            Held::Narrow(following) => (following.before, following.grants.len()),
            Held::Wide(following) => (following.before, following.grants.len()),
        };
        (k >= 1 && k as usize <= count).then_some(before + u64::from(k))
    }

    /// The names of live grants, by the offsets of their ranges.
    fn names(&self, names: &BTreeMap<u64, std::string::String>) -> BTreeMap<u32, std::string::String> {
        match self {
            Held::None => BTreeMap::new(),
            Held::Narrow(following) => following.names(names),
            Held::Wide(following) => following.names(names),
        }
    }

    fn clear(&mut self, calls: usize) {
        match self {
            Held::None => (),
            Held::Narrow(following) => following.end_all(calls),
            Held::Wide(following) => following.end_all(calls),
        }
    }
}

// What was followed: a course where there is one, of which heap, and which heaps there were.
struct Followed {
    found: Option<Named>,
    heap: Option<u32>,
    heaps: std::vec::Vec<u32>,
    lines: u32,
}

impl Followed {
    // A recording without the heap is one of no calls.
    fn whole(self) -> Result<Named, RunFault> {
        self.found.ok_or(RunFault::from(ScriptFault::BadHeader(self.lines)))
    }
}

// Follows the recording of one space, or that of one heap of many: the one of this number, or the first.
fn follow(from: impl BufRead, heap: Option<u32>) -> Result<Followed, RunFault> {
    let mut lines = Lines::new(from);
    let (mut held, mut heap, mut calls, mut is_gone) = (Held::None, heap, 0, false);
    let mut names = BTreeMap::new();
    // those of ranges of the space before, while the first lines say where they are
    let mut before = BTreeMap::new();
    while let Some(line) = lines.next_or_mark()? {
        let line = match line {
            Line::Mark => {
                // of a recording of many heaps it has to say of which
                if let Some((of, k, name)) = named(lines.mark()) {
                    let is_here = if lines.heaps().is_empty() { of.is_none() } else { of.is_some() && of == heap };
                    if let (true, Some(number)) = (is_here, held.number(k)) {
                        names.insert(number, std::string::String::from_utf8_lossy(name).into_owned());
                    }
                }
                continue;
            }
            Line::Header(header) => HeapLine::Header(header),
            Line::Call(call) => HeapLine::Call(call),
            Line::Heap(number, line) if *heap.get_or_insert(number) == number => line,
            _ => continue,
        };
        match line {
            HeapLine::Header(header) => {
                before = if is_gone { BTreeMap::new() } else { held.names(&names) };
                held = held.begin(header, calls)?;
                is_gone = false;
            }
            HeapLine::Call(_) if is_gone => return Err(RunFault::from(ScriptFault::BadCommand(lines.line()))),
            HeapLine::Call(call) => {
                let grants = held.grants();
                held.call(calls, call)?;
                calls += 1;
                let kept = match call {
                    Call::AllocateAt(offset, _) => before.remove(&offset),
                    _ => {
                        before.clear();
                        None
                    }
                };
                if held.grants() > grants && !lines.name().is_empty() {
                    names.insert(held.grants(), std::string::String::from_utf8_lossy(lines.name()).into_owned());
                } else if let (Some(name), true) = (kept, held.grants() > grants) {
                    names.insert(held.grants(), name);
                }
            }
            // a drop is refused where something is live
            HeapLine::Drop if held.has_live() => (),
            HeapLine::Drop | HeapLine::GiveUp => {
                held.clear(calls);
                is_gone = true;
            }
        }
    }
    let found = held.end(calls).map(|course| Named { course, names });
    Ok(Followed { found, heap, heaps: lines.heaps().iter().copied().collect(), lines: lines.line() })
}

/// The course of a recording: all that a picture shows of it. Of refused calls it has those that pictures have words for. Of
/// many heaps it is that of the first.
///
/// A grant whose range is moved, or resized, has a life for each range: the one ends with the
/// call that changed it, and the next begins there. `lived` of all of them is how long the grant was live in
/// all, so that none looks younger. Where another space takes the place of one, the lives of that one end, and its grants
/// are numbered on.
pub fn course(from: impl BufRead) -> Result<Course, RunFault> {
    Ok(follow(from, None)?.whole()?.course)
}

// A text in SVG: no mark-up, and no character that XML 1.0 forbids.
fn escaped(text: &str) -> std::string::String {
    let mut out = std::string::String::new();
    for c in text.chars() {
        match c {
            '&' => out.push_str("&amp;"),
            '<' => out.push_str("&lt;"),
            '>' => out.push_str("&gt;"),
            c if c < ' ' || matches!(c, '\u{fffe}' | '\u{ffff}') => out.push(' '),
            c => out.push(c),
        }
    }
    out
}

// The titles of ranges with the names of their grants.
fn with_names(picture: &str, names: &BTreeMap<u64, std::string::String>) -> std::string::String {
    const TITLE: &str = "<title>grant ";
    let mut out = std::string::String::with_capacity(picture.len() + 40 * names.len());
    // the picture's own title is none of a range
    let start = picture.find("</title>").map_or(0, |at| at + "</title>".len());
    out.push_str(&picture[..start]);
    let mut rest = &picture[start..];
    while let Some(at) = rest.find(TITLE) {
        let (before, after) = rest.split_at(at + TITLE.len());
        out.push_str(before);
        let digits = after.bytes().take_while(u8::is_ascii_digit).count();
        out.push_str(&after[..digits]);
        if let Some(name) = after[..digits].parse().ok().and_then(|number: u64| names.get(&number)) {
            out.push_str(" “");
            out.push_str(&escaped(name));
            out.push('”');
        }
        rest = &after[digits..];
    }
    out.push_str(rest);
    out
}

/// The picture of a recording, as SVG, with this title: the one that is proved for its course, and the names of grants in the
/// titles of their ranges. For a script without names it is that of `offset_picture_program`.
pub fn draw(title: &str, from: impl BufRead) -> Result<String, RunFault> {
    draw_heap(title, from, None)
}

/// The picture of the heap of this number of a recording of many, or of the first one that it has.
pub fn draw_heap(title: &str, from: impl BufRead, heap: Option<u32>) -> Result<String, RunFault> {
    drawn(title, &follow(from, heap)?.whole()?)
}

fn drawn(title: &str, found: &Named) -> Result<String, RunFault> {
    let picture: String = offset_pictures::picture_of(Global, title, &found.course)?.into();
    Ok(if found.names.is_empty() { picture } else { with_names(&picture, &found.names) })
}

/// A picture of a recording, and of what it is.
#[derive(Clone, PartialEq, Debug)]
pub struct Drawn {
    /// The picture, as SVG; none where no heap of the recording has the number that was asked for.
    pub picture: Option<String>,
    /// The heap that was drawn, or asked for; none of a recording of one space.
    pub heap: Option<u32>,
    /// The numbers of all heaps of the recording, the least first; none of a recording of one space.
    pub heaps: std::vec::Vec<u32>,
}

/// As `draw_heap`, and says which heaps there are; to ask for a heap that there is not is no fault.
///
/// ```
/// # use offset_allocator_recorded::*;
/// let text = "heap 0 space 9 nodes 9 index 32\nheap 1 space 9 nodes 9 index 32\n";
/// let drawn = draw_one("t", text.as_bytes(), Some(2)).unwrap();
/// assert_eq!((drawn.picture, drawn.heaps), (None, vec![0, 1]));
/// ```
pub fn draw_one(title: &str, from: impl BufRead, heap: Option<u32>) -> Result<Drawn, RunFault> {
    let Followed { found, heap, heaps, lines } = follow(from, heap)?;
    if found.is_none() && heaps.is_empty() {
        return Err(RunFault::from(ScriptFault::BadHeader(lines)));
    }
    let picture = found.map(|found| drawn(title, &found)).transpose()?;
    Ok(Drawn { picture, heap: if heaps.is_empty() { None } else { heap }, heaps })
}
