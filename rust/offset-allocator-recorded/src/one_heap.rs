//! One heap of a recording of many, whose calls are those of a space with tickets.

use crate::calls::calls_with_tickets;
use crate::many::RecordedHeaps;
use offset_allocator_guarded::{GuardedOf, Ticket};
use offset_allocator_heaps::{HeapMut, Place};
use offset_allocator_proved::{Move, Progress, RoomCost, Tables};
use std::fmt::Arguments;
use std::io::Write;
use std::ops::Deref;

/// `HeapMut`, whose calls are written as they happen: `heap_mut` of [`RecordedHeaps`] returns one. The line of a call is that
/// which [`Recorded`](crate::Recorded) writes for it, with the number of the heap before it, and is written and flushed before the
/// call is made; that of `retract` after it. It derefs to the `GuardedOf`, for all questions.
///
/// Whoever plays the recording has the most nodes that a heap may get. Where the heap has fewer, of which a call may need the last,
/// it first begins anew, with the node limit that it has, and again with the largest once a call of `Heaps` has raised that:
/// at most twice for each limit that it has.
///
/// ```
/// # use offset_allocator_recorded::*;
/// # use offset_allocator_heaps::{Heaps, Limits};
/// let limits = Limits { size: 1000, first_size: 1000, max_allocs: 16, first_allocs: 16, most: 2, most_larger: 1 };
/// let mut heaps = RecordedHeaps::new(Heaps::<u32>::new(Global, limits).unwrap(), Vec::new()).unwrap();
/// let hole = heaps.allocate(300).unwrap();
/// let mut heap = heaps.heap_mut(0).unwrap();
/// let captured = heap.name("capture").allocate_at(512, 100).unwrap();
/// heap.compact_within(0, 1000, 8, |_| ());
/// assert_eq!(heap.offset_of(captured), Some(300));
/// heap.free(captured);
/// heaps.free(hole.place);
/// let text = String::from_utf8(heaps.finish().1.unwrap()).unwrap();
/// assert_eq!(
///     text,
///     "heap 0 space 1000 nodes 16 index 32\nheap 0 alloc 300\n# capture\nheap 0 at 512 100\n\
///     heap 0 compact 1 0 1000 8\nheap 0 free 2\nheap 0 free 1\n"
/// );
/// ```
pub struct RecordedHeap<'a, T: Tables, W: Write> {
    heaps: &'a mut RecordedHeaps<T, W>,
    number: u32,
    // the name of the request that was written last
    name: Option<String>,
}

impl<'a, T: Tables, W: Write> RecordedHeap<'a, T, W> {
    // There has to be a heap of this number.
    pub(crate) fn of(heaps: &'a mut RecordedHeaps<T, W>, number: u32) -> Self {
        RecordedHeap { heaps, number, name: None }
    }
}

impl<T: Tables, W: Write> RecordedHeap<'_, T, W> {
    /// The name of the next request, for who reads the recording. Line ends become spaces.
    pub fn name(&mut self, name: &str) -> &mut Self {
        self.heaps.name(name);
        self
    }

    /// The name of a live range, given after its grant: as by `name_live` of [`RecordedHeaps`].
    pub fn name_live(&mut self, ticket: Ticket, name: &str) {
        self.heaps.name_live(self.place(ticket), name);
    }

    /// The number of the heap: `HeapMut::number`.
    pub fn number(&self) -> u32 {
        self.number
    }

    /// `HeapMut::place`.
    pub fn place(&self, ticket: Ticket) -> Place {
        Place::from_ticket(self.number, self.heaps.realm(), ticket)
    }

    // What makes the calls, and what writes their lines, for `calls_with_tickets`.
    fn calls(&mut self) -> HeapMut<'_, T> {
        self.heaps.calls_of(self.number)
    }

    fn line(&mut self, line: Arguments) {
        self.heaps.line(self.number, line);
    }

    fn request(&mut self, line: Arguments) {
        self.name = self.heaps.named(self.number, line);
    }

    fn granted(&mut self, found: Option<Ticket>) -> Option<Ticket> {
        let name = self.name.take();
        self.heaps.keep(self.place(found?), name);
        found
    }

    fn grant_of(&self, ticket: Ticket) -> u32 {
        self.heaps.number(self.place(ticket))
    }

    fn unname(&mut self) {
        self.heaps.unname();
    }

    #[track_caller]
    fn check(&mut self, is_valid: bool, condition: &str) {
        if !is_valid {
            self.unname();
        }
        assert!(is_valid, "{condition}");
    }

    fn ready(&mut self) {
        self.heaps.ready(self.number);
    }

    calls_with_tickets!();

    /// `HeapMut::retract`. Where it is not done nothing is written, since a space may give up what a heap keeps.
    pub fn retract(&mut self, less: u32) -> bool {
        let done = self.calls().retract(less);
        if done {
            self.line(format_args!("retract {less}"));
        }
        done
    }
}

impl<T: Tables, W: Write> Deref for RecordedHeap<'_, T, W> {
    type Target = GuardedOf<T>;

    fn deref(&self) -> &GuardedOf<T> {
        match self.heaps.heap(self.number) {
            Some(heap) => heap,
            None => unreachable!("a heap of which there is a view is not dropped"),
        }
    }
}
