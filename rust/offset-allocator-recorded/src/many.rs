//! One recording of many heaps, whose calls are written in the order in which they happen.

use crate::tape::{bits_of, in_one_line, Numbers, Tape};
use crate::one_heap::RecordedHeap;
use crate::{word_of, Recorded};
use offset_allocator_guarded::{Beside, GuardedOf};
use offset_allocator_heaps::{AllocError, Granted, HeapMut, HeapsOf, Place, Refusal};
use offset_allocator_proved::{AllocatorOf, Move, RoomCost, Tables};
use std::collections::HashMap;
use std::fmt::Arguments;
use std::io::{self, Write};
use std::ops::Deref;
use std::sync::{Arc, Mutex};

/// A recording of several allocators of the program's own, each of which is a heap with a number, from 0 on.
///
/// The parts may be on several threads: a line, with its name, is written at once. `thread` of a part is of the calls of its own
/// heap: where a line of another thread has come between, the mark is written again. `frame_end`, `time` and `mark` of a part are
/// of the whole file, as those here: call them once, not for each part.
///
/// ```
/// # use offset_allocator_recorded::*;
/// # use offset_allocator_guarded::Guarded;
/// let mut recording = Recording::new(Vec::new());
/// let mut meshes = recording.guarded(Guarded::<u32>::with_max_allocs(Global, 1000, 16).unwrap()).unwrap();
/// let mut textures = recording.guarded(Guarded::<u32>::with_max_allocs(Global, 5000, 16).unwrap()).unwrap();
/// let rock = meshes.name("mesh: rock").allocate(100).unwrap();
/// textures.allocate(300);
/// meshes.free(rock);
/// drop((meshes, textures));
/// let text = String::from_utf8(recording.finish().unwrap()).unwrap();
/// assert_eq!(
///     text,
///     "heap 0 space 1000 nodes 16 index 32\nheap 1 space 5000 nodes 16 index 32\n\
///     \x23 mesh: rock\nheap 0 alloc 100\nheap 1 alloc 300\nheap 0 free 1\n"
/// );
/// ```
pub struct Recording<W: Write> {
    out: Arc<Mutex<Shared<W>>>,
    heaps: u32,
    // the name of the next heap
    name: Vec<u8>,
}

// What the heaps of one recording share: the writer, and the mark of a thread that was written last.
struct Shared<W> {
    out: W,
    thread: Vec<u8>,
}

impl<W: Write> Recording<W> {
    /// A recording of no heap yet.
    pub fn new(out: W) -> Self {
        Recording { out: Arc::new(Mutex::new(Shared { out, thread: Vec::new() })), heaps: 0, name: Vec::new() }
    }

    /// The name of the next heap, for who reads the recording. Line ends become spaces.
    pub fn name(&mut self, name: &str) -> &mut Self {
        self.name = format!("# {}\n", in_one_line(name)).into_bytes();
        self
    }

    /// A frame ends here: a mark of the whole file, as `Recorded::frame_end` of one of its heaps makes. An error is that of the
    /// writer; the recording goes on.
    ///
    /// ```
    /// # use offset_allocator_recorded::*;
    /// let mut recording = Recording::new(Vec::new());
    /// recording.frame_end().unwrap();
    /// recording.time(20).unwrap();
    /// recording.mark("level 2").unwrap();
    /// assert_eq!(recording.finish().unwrap(), b"#! frame\n#! time 20\n#! mark level 2\n");
    /// ```
    pub fn frame_end(&mut self) -> io::Result<()> {
        self.put(format_args!("frame"))
    }

    /// A time, in nanoseconds from a begin of the caller's: a mark of the whole file, with the errors of `frame_end`.
    pub fn time(&mut self, nanoseconds: u64) -> io::Result<()> {
        self.put(format_args!("time {nanoseconds}"))
    }

    /// A mark of the whole file with a text of the caller's, with the errors of `frame_end`. Line ends become spaces.
    pub fn mark(&mut self, text: &str) -> io::Result<()> {
        self.put(format_args!("mark {}", in_one_line(text)))
    }

    fn put(&self, text: std::fmt::Arguments) -> io::Result<()> {
        let mut shared = self.out.lock().unwrap_or_else(|broken| broken.into_inner());
        shared.out.write_all(format!("#! {text}\n").as_bytes())?;
        shared.out.flush()
    }

    // the writer of the next heap
    fn part(&mut self) -> Part<W> {
        self.heaps += 1;
        Part { out: self.out.clone(), heap: self.heaps - 1, thread: Vec::new(), is_new: false, held: std::mem::take(&mut self.name) }
    }

    /// Records one more allocator, as `Recorded::new` does.
    pub fn allocator<T: Tables>(&mut self, space: AllocatorOf<T>) -> io::Result<Recorded<AllocatorOf<T>, Part<W>>> {
        Recorded::new(space, self.part())
    }

    /// Records one more allocator with tickets, as `Recorded::guarded` does.
    pub fn guarded<T: Tables>(&mut self, space: GuardedOf<T>) -> io::Result<Recorded<GuardedOf<T>, Part<W>>> {
        Recorded::guarded(space, self.part())
    }

    /// The writer; or the recording itself, which goes on, while an allocator of it is still recorded.
    ///
    /// ```
    /// # use offset_allocator_recorded::*;
    /// # use offset_allocator_guarded::Guarded;
    /// let mut recording = Recording::new(Vec::new());
    /// let meshes = recording.guarded(Guarded::<u32>::with_max_allocs(Global, 1000, 16).unwrap()).unwrap();
    /// let recording = recording.finish().unwrap_err();
    /// drop(meshes);
    /// assert_eq!(recording.finish().unwrap(), b"heap 0 space 1000 nodes 16 index 32\n");
    /// ```
    pub fn finish(self) -> Result<W, Self> {
        let Recording { out, heaps, name } = self;
        match Arc::try_unwrap(out) {
            Ok(shared) => Ok(shared.into_inner().unwrap_or_else(|broken| broken.into_inner()).out),
            Err(out) => Err(Recording { out, heaps, name }),
        }
    }
}

impl<W: Write> std::fmt::Debug for Recording<W> {
    fn fmt(&self, f: &mut std::fmt::Formatter) -> std::fmt::Result {
        f.debug_struct("Recording").field("heaps", &self.heaps).finish_non_exhaustive()
    }
}

/// What writes the lines of one heap of a recording.
pub struct Part<W: Write> {
    out: Arc<Mutex<Shared<W>>>,
    heap: u32,
    // the mark of the thread of this heap's calls, which goes out with the next line where it is new, or another was written since
    thread: Vec<u8>,
    is_new: bool,
    // a name, which goes out with the next request
    held: Vec<u8>,
}

impl<W: Write> Part<W> {
    /// The number of the heap.
    pub fn heap(&self) -> u32 {
        self.heap
    }
}

impl<W: Write> Write for Part<W> {
    // Each line comes at once, with its end.
    fn write(&mut self, line: &[u8]) -> io::Result<usize> {
        let is_mark = line.starts_with(b"#!");
        if line.starts_with(b"#! thread ") {
            self.thread = line.to_vec();
            self.is_new = true;
            return Ok(line.len());
        }
        if line.starts_with(b"#") && !is_mark {
            self.held.clear();
            self.held.extend_from_slice(line);
            return Ok(line.len());
        }
        let mut shared = self.out.lock().unwrap_or_else(|broken| broken.into_inner());
        let is_said = !self.is_new && shared.thread == self.thread;
        let mut all = if is_said { Vec::new() } else { self.thread.clone() };
        // a unit, and the name of a grant, are those of this heap
        let of = format!(" heap {}\n", self.heap);
        let (text, end) = match line.strip_suffix(b"\n") {
            Some(text) if line.starts_with(b"#! unit ") => (text, of.as_bytes()),
            _ => (line, &b""[..]),
        };
        let text = match text.strip_prefix(b"#! ") {
            Some(rest) if rest.starts_with(b"name ") => {
                write!(all, "#! heap {} ", self.heap)?;
                rest
            }
            _ => text,
        };
        // a name stays that of the next request
        if !is_mark {
            all.append(&mut self.held);
            if line != b"\n" {
                write!(all, "heap {} ", self.heap)?;
            }
        }
        all.extend_from_slice(text);
        all.extend_from_slice(end);
        shared.out.write_all(&all)?;
        if !is_said && !self.thread.is_empty() {
            shared.thread.clone_from(&self.thread);
        }
        self.is_new = false;
        shared.out.flush()?;
        Ok(line.len())
    }

    fn flush(&mut self) -> io::Result<()> {
        Ok(())
    }
}

/// `HeapsOf`, whose calls are written to `out` as they happen: as `Recorded` is, but the line of a call, other than `free`, is
/// written after the call, as the heap of a request is known only then.
///
/// ```
/// # use offset_allocator_recorded::*;
/// # use offset_allocator_heaps::{Heaps, Limits};
/// let limits = Limits { size: 1000, first_size: 1000, max_allocs: 16, first_allocs: 16, most: 2, most_larger: 1 };
/// let mut heaps = RecordedHeaps::new(Heaps::<u32>::new(Global, limits).unwrap(), Vec::new()).unwrap();
/// let rock = heaps.name("mesh: rock").allocate(300).unwrap();
/// assert!(heaps.allocate(0).is_err());
/// assert!(heaps.free(rock.place) && heaps.drop_heap(0));
/// let text = String::from_utf8(heaps.finish().1.unwrap()).unwrap();
/// assert_eq!(text, "heap 0 space 1000 nodes 16 index 32\n# mesh: rock\nheap 0 alloc 300\nnone alloc 0 empty\nheap 0 free 1\nheap 0 drop\n");
/// ```
pub struct RecordedHeaps<T: Tables, W: Write> {
    heaps: HeapsOf<T>,
    tape: Tape<W>,
    grants: HashMap<u32, Grants>,
    // the name of the next request
    name: Option<String>,
}

// Of a heap the numbers of its grants, and the names of those that have one, by the names of their blocks; and its node limit where
// it began anew with that, in place of the largest.
#[derive(Default)]
struct Grants {
    numbers: Numbers,
    names: HashMap<u32, String>,
    own_limit: Option<u32>,
}

// With so many unused nodes no call is answered by the node limit: it adds two blocks at most, and a request leaves one node.
const ENOUGH: u32 = 4;

// The greatest common divisor, by Euclid.
fn common_divisor(first: u32, second: u32) -> u32 {
    if second == 0 { first } else { common_divisor(second, first % second) }
}

impl<T: Tables, W: Write> RecordedHeaps<T, W> {
    /// Records heaps from now on; those that there are, with what is live in them, come first. An error is returned where
    /// the first lines cannot be written, and as by `Recorded::new`.
    pub fn new(heaps: HeapsOf<T>, out: W) -> io::Result<Self> {
        let limits = heaps.limits();
        let mut recorded = RecordedHeaps { heaps, tape: Tape::new(out), grants: HashMap::new(), name: None };
        let mut left = recorded.heaps.totals().heaps;
        for number in 0..limits.most + limits.most_larger {
            if left == 0 {
                break;
            }
            if recorded.heaps.heap(number).is_some() {
                recorded.begin(number, None);
                left -= 1;
            }
        }
        if recorded.heaps.totals().heaps > 0 {
            recorded.tape.mark(format_args!("begun"));
        }
        match recorded.tape.take_failure() {
            None => Ok(recorded),
            Some(error) => Err(error),
        }
    }

    // The node limit of a heap that has this one now, as who plays the recording needs it: of a usual one the largest that it
    // may grow to.
    fn nodes(&self, number: u32, now: u32) -> u32 {
        let limits = self.heaps.limits();
        if number < limits.most { limits.max_allocs } else { now }
    }

    // Writes the lines with which a heap begins, with a node limit of its own or the largest.
    fn begin(&mut self, number: u32, own_limit: Option<u32>) {
        let Some(heap) = self.heaps.heap(number) else { return };
        let nodes = own_limit.unwrap_or(self.nodes(number, heap.allocator().max_allocs()));
        let mut numbers = Numbers::default();
        let tape = &mut self.tape;
        if let Err(error) = numbers.begin(heap.allocator(), nodes, &mut |line| tape.write(format_args!("heap {number} {line}"))) {
            self.tape.fail(error);
        }
        // the names of blocks stay theirs
        let names = self.grants.remove(&number).unwrap_or_default().names;
        self.grants.insert(number, Grants { numbers, names, own_limit });
    }

    // Before a call that the nodes of its heap may decide: where who plays it has more than there are, it begins anew.
    pub(crate) fn ready(&mut self, number: u32) {
        let Some(space) = self.heaps.heap(number).map(|heap| heap.allocator()) else { return };
        let limit = space.max_allocs();
        let played = self.grants.get(&number).and_then(|grants| grants.own_limit).unwrap_or(self.nodes(number, limit));
        if played != limit && limit - space.block_count() < ENOUGH && self.tape.failure().is_none() {
            self.begin(number, Some(limit));
            self.tape.mark(format_args!("begun"));
        }
    }

    // After a call that raised the limit of a heap that had begun anew with that: it begins anew with the largest, and one line
    // more makes it what it was before the call.
    fn raised(&mut self, number: u32, before: impl FnOnce(&Self) -> String) {
        let own_limit = self.grants.get(&number).and_then(|grants| grants.own_limit);
        let limit = self.heaps.heap(number).map(|heap| heap.allocator().max_allocs());
        if own_limit.is_some() && own_limit != limit && self.tape.failure().is_none() {
            self.begin(number, None);
            let line = before(self);
            self.line(number, format_args!("{line}"));
            self.tape.mark(format_args!("begun"));
        }
    }

    // Writes a line of a heap.
    pub(crate) fn line(&mut self, number: u32, line: Arguments) {
        self.tape.write(format_args!("heap {number} {line}"));
    }

    // Writes a request of a heap, with its name.
    fn request(&mut self, number: u32, request: Arguments, name: &Option<String>) {
        if let Some(name) = name {
            self.tape.write(format_args!("# {name}"));
        }
        self.line(number, request);
    }

    // The same of the next name, which it takes.
    pub(crate) fn named(&mut self, number: u32, request: Arguments) -> Option<String> {
        let name = self.name.take();
        self.request(number, request, &name);
        name
    }

    // What makes the calls of a heap that there is.
    pub(crate) fn calls_of(&mut self, number: u32) -> HeapMut<'_, T> {
        match self.heaps.heap_mut(number) {
            Some(heap) => heap,
            None => unreachable!("a heap of which there is a view is not dropped"),
        }
    }

    /// `HeapsOf::heap_mut`: the heap of a number, for the calls of a space with tickets. Of a number that has no heap nothing is
    /// written.
    pub fn heap_mut(&mut self, number: u32) -> Option<RecordedHeap<'_, T, W>> {
        self.heaps.heap(number)?;
        Some(RecordedHeap::of(self, number))
    }

    /// The name of the next request, for who reads the recording. Line ends become spaces.
    pub fn name(&mut self, name: &str) -> &mut Self {
        self.name = Some(in_one_line(name));
        self
    }

    /// How many bytes a unit of all heaps has, for the page: a mark.
    pub fn unit(&mut self, bytes: u32) {
        self.tape.mark(format_args!("unit {bytes}"));
    }

    /// A frame ends here: a mark, as `Recorded::frame_end` makes.
    pub fn frame_end(&mut self) {
        self.tape.mark(format_args!("frame"));
    }

    /// A time, in nanoseconds from a begin of the caller's: a mark.
    pub fn time(&mut self, nanoseconds: u64) {
        self.tape.mark(format_args!("time {nanoseconds}"));
    }

    /// The calls from here on are those of the thread of this number: a mark.
    pub fn thread(&mut self, number: u64) {
        self.tape.mark(format_args!("thread {number}"));
    }

    /// A mark with a text of the caller's. Line ends become spaces.
    pub fn mark(&mut self, text: &str) {
        self.tape.mark(format_args!("mark {}", in_one_line(text)));
    }

    /// The name of a live range, given after its grant, in place of one that it had: a mark, as `Recorded::name_live` makes.
    /// Where the place is not live, or the text has blanks alone, nothing is written.
    pub fn name_live(&mut self, place: Place, name: &str) {
        let (number, heap, name) = (self.number(place), place.heap, in_one_line(name));
        if number == 0 || name.trim_ascii().is_empty() || self.tape.failure().is_some() {
            return;
        }
        self.tape.mark(format_args!("heap {heap} name {number} {name}"));
        if let Some(Grants { names, .. }) = self.grants.get_mut(&heap) {
            if names.try_reserve(1).is_err() {
                return self.tape.fail(io::ErrorKind::OutOfMemory.into());
            }
            names.insert(place.name(), name);
        }
    }

    /// Names each live range of the heap of a number that has no name yet by the value that a table of the program's, one for
    /// each heap, has beside its ticket, as `Recorded::name_all` does.
    ///
    /// ```
    /// # use offset_allocator_recorded::*;
    /// # use offset_allocator_heaps::{Heaps, Limits};
    /// let limits = Limits { size: 1000, first_size: 1000, max_allocs: 16, first_allocs: 16, most: 2, most_larger: 1 };
    /// let mut heaps = RecordedHeaps::new(Heaps::<u32>::new(Global, limits).unwrap(), Vec::new()).unwrap();
    /// let mut meshes = Beside::new(Global);
    /// let rock = heaps.allocate(300).unwrap().place;
    /// assert!(meshes.put(heaps.heap(rock.heap).unwrap(), rock.ticket(0), "mesh: rock").is_ok());
    /// heaps.name_all(rock.heap, &meshes, |name| name);
    /// let text = String::from_utf8(heaps.finish().1.unwrap()).unwrap();
    /// assert_eq!(text, "heap 0 space 1000 nodes 16 index 32\nheap 0 alloc 300\n#! heap 0 name 1 mesh: rock\n");
    /// ```
    pub fn name_all<V>(&mut self, heap: u32, beside: &Beside<V>, name: impl Fn(&V) -> &str) {
        let realm = self.heaps.realm();
        for (ticket, value) in beside {
            let is_named = self.grants.get(&heap).is_some_and(|grants| grants.names.contains_key(&ticket.name()));
            if !is_named {
                self.name_live(Place::from_ticket(heap, realm, ticket), name(value));
            }
        }
    }

    // The number of the grant of a place: 0, which no grant has, where it is not live.
    pub(crate) fn number(&self, place: Place) -> u32 {
        let live = self.heaps.is_live(place).then_some(place.name());
        self.grants.get(&place.heap).map_or(0, |grants| grants.numbers.number(live))
    }

    // Writes a granted request, with its name.
    fn grant(&mut self, place: Place, request: Arguments, name: Option<String>) {
        self.request(place.heap, request, &name);
        self.keep(place, name);
    }

    // The next grant of a heap is that of a place. Where memory is out the recording ends, and not the program.
    pub(crate) fn keep(&mut self, place: Place, name: Option<String>) {
        if let Err(error) = self.try_keep(place, name) {
            self.tape.fail(error);
        }
    }

    fn try_keep(&mut self, place: Place, name: Option<String>) -> io::Result<()> {
        let out = |_| io::Error::from(io::ErrorKind::OutOfMemory);
        self.grants.try_reserve(1).map_err(out)?;
        let Grants { numbers, names, .. } = self.grants.entry(place.heap).or_default();
        numbers.grant(place.name())?;
        names.remove(&place.name());
        // one of blanks alone is none
        if let Some(name) = name.filter(|name| !name.trim_ascii().is_empty()) {
            names.try_reserve(1).map_err(out)?;
            names.insert(place.name(), name);
        }
        Ok(())
    }

    // A name is that of no call.
    pub(crate) fn unname(&mut self) {
        self.name = None;
    }

    /// `HeapsOf::allocate`.
    pub fn allocate(&mut self, size: u32) -> Result<Granted, Refusal> {
        self.allocate_aligned(size, 1)
    }

    /// `HeapsOf::allocate_aligned`: `align` has to be at least 1. For 0 it panics, and writes nothing.
    #[track_caller]
    pub fn allocate_aligned(&mut self, size: u32, align: u32) -> Result<Granted, Refusal> {
        let name = self.name.take();
        let found = self.heaps.allocate_aligned(size, align);
        self.requested(found, size, align, false, name)
    }

    /// `HeapsOf::allocate_tight`.
    pub fn allocate_tight(&mut self, size: u32) -> Result<Granted, Refusal> {
        self.allocate_tight_aligned(size, 1)
    }

    /// `HeapsOf::allocate_tight_aligned`: `align` has to be at least 1. For 0 it panics, and writes nothing.
    #[track_caller]
    pub fn allocate_tight_aligned(&mut self, size: u32, align: u32) -> Result<Granted, Refusal> {
        let name = self.name.take();
        let found = self.heaps.allocate_tight_aligned(size, align);
        self.requested(found, size, align, true, name)
    }

    // Writes a request, with its name, and the heap that was made for it.
    fn requested(&mut self, found: Result<Granted, Refusal>, size: u32, align: u32, is_tight: bool, name: Option<String>) -> Result<Granted, Refusal> {
        match &found {
            Err(why) => {
                if let Some(name) = name {
                    self.tape.write(format_args!("# {name}"));
                }
                let why = word_of(*why);
                match (is_tight, align) {
                    (true, 1) => self.tape.write(format_args!("none tight {size} {why}")),
                    (true, _) => self.tape.write(format_args!("none tight {size} {align} {why}")),
                    (false, 1) => self.tape.write(format_args!("none alloc {size} {why}")),
                    (false, _) => self.tape.write(format_args!("none align {size} {align} {why}")),
                }
            }
            Ok(granted) => {
                let heap = granted.place.heap;
                if granted.is_new {
                    if let Some(space) = self.heaps.heap(heap).map(|heap| heap.allocator()) {
                        let bits = bits_of::<T>();
                        let (size, nodes) = (space.size(), self.nodes(heap, space.max_allocs()));
                        self.tape.write(format_args!("heap {heap} space {size} nodes {nodes} index {bits}"));
                    }
                } else {
                    self.raised(heap, |heaps| format!("free {}", heaps.number(granted.place)));
                }
                // a fresh heap grants its first range at 0, a multiple of all; a larger one all its units
                match (granted.is_new, align) {
                    (true, _) if heap >= self.heaps.limits().most => self.grant(granted.place, format_args!("tight {size}"), name),
                    (false, 1) if is_tight => self.grant(granted.place, format_args!("tight {size}"), name),
                    (false, _) if is_tight => self.grant(granted.place, format_args!("tight {size} {align}"), name),
                    (true, _) | (_, 1) => self.grant(granted.place, format_args!("alloc {size}"), name),
                    _ => self.grant(granted.place, format_args!("align {size} {align}"), name),
                }
            }
        }
        found
    }

    /// `HeapsOf::free`: for a place that is not live `none free` is written.
    pub fn free(&mut self, place: Place) -> bool {
        match self.number(place) {
            0 => self.tape.write(format_args!("none free")),
            number => self.tape.write(format_args!("heap {} free {number}", place.heap)),
        }
        self.heaps.free(place)
    }

    /// `HeapsOf::relocate`: as `relocate_aligned` for what the offset of the range and the step of its heap have in common.
    /// Where its heap has no step nothing is written.
    pub fn relocate(&mut self, place: Place) -> Option<Granted> {
        match (self.heaps.offset_of(place), self.step(place.heap)) {
            (Some(_), None) => None,
            (offset, step) => self.relocate_aligned(place, common_divisor(offset.unwrap_or(0), step.unwrap_or(1))),
        }
    }

    // The step of the heap of a number.
    fn step(&self, number: u32) -> Option<u32> {
        self.heaps.heap(number)?.step()
    }

    /// `HeapsOf::relocate_aligned`: `align` has to be at least 1. For 0 it panics, and writes nothing. The second range is
    /// a request of the heap that takes it, with the name of the first, and where that was. For a place that is not live
    /// `none relocate` is written.
    #[track_caller]
    pub fn relocate_aligned(&mut self, place: Place, align: u32) -> Option<Granted> {
        let size = self.heaps.size_of(place);
        let found = self.heaps.relocate_aligned(place, align);
        match (size, found) {
            (None, _) => self.tape.write(format_args!("none relocate")),
            (Some(size), None) => self.tape.write(format_args!("none relocate {size} {align}")),
            (Some(size), Some(granted)) => {
                let second = granted.place;
                let named = self.grants.get(&place.heap).and_then(|grants| grants.names.get(&place.name()));
                let is_named = named.is_some();
                let of = format!("(of grant {}, heap {})", self.number(place), place.heap);
                let name = named.map_or_else(|| of.clone(), |name| format!("{name} {of}"));
                match align {
                    1 => self.grant(second, format_args!("alloc {size}"), Some(name)),
                    _ => self.grant(second, format_args!("align {size} {align}"), Some(name)),
                }
                // where a range comes from is no name of its own
                if let Some(Grants { names, .. }) = self.grants.get_mut(&second.heap).filter(|_| !is_named) {
                    names.remove(&second.name());
                }
            }
        }
        found
    }

    // Writes a change of the size of a live range where it was done. One that was not may be refused for the nodes that its
    // heap has now, and whoever plays it has the most that it may grow to.
    fn resized(&mut self, place: Place, number: u32, word: &str, size: u32, done: Option<bool>) -> Option<bool> {
        if done == Some(true) {
            self.tape.write(format_args!("heap {} {word} {number} {size}", place.heap));
        }
        done
    }

    /// `HeapsOf::shrink`. Where it is not done nothing is written.
    pub fn shrink(&mut self, place: Place, size: u32) -> Option<bool> {
        let number = self.number(place);
        let done = self.heaps.shrink(place, size);
        self.resized(place, number, "shrink", size, done)
    }

    /// `HeapsOf::grow_in_place`. Where it is not done nothing is written.
    pub fn grow_in_place(&mut self, place: Place, size: u32) -> Option<bool> {
        let number = self.number(place);
        let done = self.heaps.grow_in_place(place, size);
        self.resized(place, number, "grow", size, done)
    }

    /// `HeapsOf::extend_heap`. Where it is not done nothing is written.
    ///
    /// # Errors
    ///
    /// As those of that call.
    pub fn extend_heap(&mut self, number: u32, more: u32) -> Result<bool, AllocError> {
        let done = self.heaps.extend_heap(number, more);
        if done == Ok(true) {
            self.raised(number, |_| format!("retract {more}"));
            self.tape.write(format_args!("heap {number} extend {more}"));
        }
        done
    }

    /// `HeapsOf::compact`: `compact_heap` of each number that has a heap, one after another.
    pub fn compact<F: FnMut(u32, Move<T::Index>)>(&mut self, mut moved: F) -> bool {
        let mut all = true;
        let mut next = self.heaps.first_heap();
        while let Some(number) = next {
            all &= self.compact_heap(number, |it| moved(number, it));
            next = self.heaps.heap_after(number);
        }
        all
    }

    /// `HeapsOf::compact_heap`: a compaction by the step of the heap. Where it is not done nothing is written.
    pub fn compact_heap<F: FnMut(Move<T::Index>)>(&mut self, number: u32, moved: F) -> bool {
        let step = self.step(number);
        let is_done = self.heaps.compact_heap(number, moved);
        if let (true, Some(step)) = (is_done, step) {
            self.tape.write(format_args!("heap {number} compact {step}"));
        }
        is_done
    }

    /// `HeapsOf::make_room`: that of `make_room_aligned` for any multiple.
    pub fn make_room<F: FnMut(Move<T::Index>)>(&mut self, number: u32, size: u32, moved: F) -> Option<RoomCost> {
        self.make_room_aligned(number, size, 1, moved)
    }

    /// `HeapsOf::make_room_aligned`: `align` has to be at least 1. For 0 it panics, and writes nothing. It is room by the step
    /// of the heap. Where none is made no line of it is written, and where the heap has no step, nothing.
    #[track_caller]
    pub fn make_room_aligned<F: FnMut(Move<T::Index>)>(&mut self, number: u32, size: u32, align: u32, moved: F) -> Option<RoomCost> {
        assert!(align >= 1, "the alignment must be at least 1");
        let step = self.step(number);
        if step.is_some() {
            // with other nodes it may be other room
            self.ready(number);
        }
        let cost = self.heaps.make_room_aligned(number, size, align, moved);
        if let (Some(_), Some(step)) = (cost, step) {
            self.tape.write(format_args!("heap {number} room {size} {align} {step}"));
        }
        cost
    }

    /// `HeapsOf::drop_empty`.
    pub fn drop_empty(&mut self, keep: u32) -> Option<u32> {
        let found = self.heaps.drop_empty(keep)?;
        self.tape.write(format_args!("heap {found} drop"));
        self.grants.remove(&found);
        Some(found)
    }

    /// `HeapsOf::drop_heap`. Of a number that has no heap nothing is written.
    pub fn drop_heap(&mut self, number: u32) -> bool {
        let has = self.heaps.heap(number).is_some();
        let is_dropped = self.heaps.drop_heap(number);
        if has {
            self.tape.write(format_args!("heap {number} drop"));
        }
        if is_dropped {
            self.grants.remove(&number);
        }
        is_dropped
    }

    /// `HeapsOf::give_up`. Of a number that has no heap nothing is written.
    pub fn give_up(&mut self, number: u32) -> bool {
        let is_given_up = self.heaps.give_up(number);
        if is_given_up {
            self.tape.write(format_args!("heap {number} give up"));
            self.grants.remove(&number);
        }
        is_given_up
    }

    /// `HeapsOf::reset`: a line for each heap that there is.
    pub fn reset(&mut self) {
        self.heaps.reset();
        self.each("reset");
    }

    // Writes a line for each heap that there is.
    fn each(&mut self, call: &str) {
        let limits = self.heaps.limits();
        let mut left = self.heaps.totals().heaps;
        for number in 0..limits.most + limits.most_larger {
            if left == 0 {
                break;
            }
            if self.heaps.heap(number).is_some() {
                self.tape.write(format_args!("heap {number} {call}"));
                left -= 1;
            }
        }
    }

    /// The error that ended the recording, if one did.
    pub fn failure(&self) -> Option<&io::Error> {
        self.tape.failure()
    }

    /// Ends the recording: the heaps go on without, and what was written is flushed.
    pub fn finish(self) -> (HeapsOf<T>, io::Result<W>) {
        (self.heaps, self.tape.finish())
    }
}

impl<T: Tables, W: Write> Deref for RecordedHeaps<T, W> {
    type Target = HeapsOf<T>;

    fn deref(&self) -> &HeapsOf<T> {
        &self.heaps
    }
}
