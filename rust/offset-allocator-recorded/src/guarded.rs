//! The recorded calls of an allocator with tickets.

use crate::calls::calls_with_tickets;
use crate::tape::Tape;
use crate::Recorded;
use offset_allocator_guarded::{Beside, GuardedOf, Ticket};
use offset_allocator_proved::{AllocError, Global, Move, Progress, RoomCost, Tables};
use std::fmt::Arguments;
use std::io::{self, Write};

impl<T: Tables, W: Write> Recorded<GuardedOf<T>, W> {
    /// Records an allocator from now on. Live ranges that it has, as one that `read_state` or `try_clone` made, come first
    /// in the recording, as the grants from 1 on. An error is returned where the first lines cannot be written; and where the
    /// allocator has ranges of no units and lacks a node, or a unit, for one more.
    pub fn guarded(space: GuardedOf<T>, out: W) -> io::Result<Self> {
        Ok(Recorded { tape: Tape::start(space.allocator(), out)?, space })
    }

    // The number of the grant of a ticket: 0, which no grant has, where the ticket is not live.
    fn grant_of(&self, ticket: Ticket) -> u32 {
        self.tape.number(self.space.is_live(ticket).then_some(ticket.name()))
    }

    /// The name of a live range, given after its grant, in place of one that it had: a mark. Line ends become spaces. Where the
    /// ticket is not live, or the text has blanks alone, nothing is written.
    ///
    /// ```
    /// # use offset_allocator_recorded::*;
    /// # use offset_allocator_guarded::Guarded;
    /// let mut heap = Recorded::guarded(Guarded::<u32>::with_max_allocs(Global, 1000, 16).unwrap(), Vec::new()).unwrap();
    /// let rock = heap.allocate(100).unwrap();
    /// heap.name_live(rock, "mesh: rock");
    /// assert_eq!(heap.finish().1.unwrap(), b"space 1000 nodes 16 index 32\nalloc 100\n#! name 1 mesh: rock\n");
    /// ```
    pub fn name_live(&mut self, ticket: Ticket, name: &str) {
        let number = self.grant_of(ticket);
        if number != 0 {
            self.tape.name_live(ticket.name(), number, name);
        }
    }

    /// Names each live range that has no name yet by the value that a table of the program's has beside its ticket: so what
    /// names its ranges there needs no `name` before its requests. Call it where names are to be seen, as at the end of each
    /// frame, and before ranges that have none are freed: a freed one gets none; and once, of a space that had live ranges,
    /// where the recording begins. It looks at each value, and writes a line, as `name_live` does, for each range that it names.
    ///
    /// ```
    /// # use offset_allocator_recorded::*;
    /// # use offset_allocator_guarded::Guarded;
    /// struct Mesh { name: String }
    /// let mut heap = Recorded::guarded(Guarded::<u32>::with_max_allocs(Global, 1000, 16).unwrap(), Vec::new()).unwrap();
    /// let mut meshes = Beside::new(Global);
    /// let rock = heap.allocate(100).unwrap();
    /// assert!(meshes.put(&heap, rock, Mesh { name: "mesh: rock".to_owned() }).is_ok());
    /// heap.name_all(&meshes, |mesh| &mesh.name);
    /// // it has its name, and gets no other line
    /// heap.name_all(&meshes, |mesh| &mesh.name);
    /// assert_eq!(heap.finish().1.unwrap(), b"space 1000 nodes 16 index 32\nalloc 100\n#! name 1 mesh: rock\n");
    /// ```
    pub fn name_all<V>(&mut self, beside: &Beside<V>, name: impl Fn(&V) -> &str) {
        for (ticket, value) in beside {
            if !self.tape.is_named(ticket.name()) {
                self.name_live(ticket, name(value));
            }
        }
    }

    // What makes the calls, and what writes their lines, for `calls_with_tickets`.
    fn calls(&mut self) -> &mut GuardedOf<T> {
        &mut self.space
    }

    fn line(&mut self, line: Arguments) {
        self.tape.write(line);
    }

    // the tape knows whether a line had a name before it
    fn request(&mut self, line: Arguments) {
        self.tape.write(line);
    }

    fn granted(&mut self, found: Option<Ticket>) -> Option<Ticket> {
        self.tape.grant(found?.name());
        found
    }

    fn unname(&mut self) {
        self.tape.unname();
    }

    // who plays it has the limit of the space
    fn ready(&mut self) {}

    calls_with_tickets!();

    /// `GuardedOf::retract`.
    pub fn retract(&mut self, less: u32) -> bool {
        self.tape.write(format_args!("retract {less}"));
        self.space.retract(less)
    }

    /// `GuardedOf::raised` in place of this space: a larger node limit, with all that is live. A `space` line is written, with
    /// the lines after which its space is as this one, whose grants are numbered from 1 again.
    ///
    /// # Errors
    ///
    /// An error is returned only where an allocation failed; then nothing has changed.
    ///
    /// # Panics
    ///
    /// It panics unless `max_allocs` is at least the limit that there is, and at most that of the index type less 2.
    #[track_caller]
    pub fn raise_limit(&mut self, max_allocs: u32) -> Result<(), AllocError> {
        self.space = self.space.raised(Global, max_allocs)?;
        self.tape.begin(self.space.allocator());
        Ok(())
    }
}
