// Printed by rust/erase from crates/offset_guarded/src/values.rt: change it there.

//! Values of the caller's beside tickets. It touches no space.

use crate::GuardedOf;
use crate::ticket::Ticket;
use offset_allocator::Tables;
use crate::memory::Vec;
use crate::memory::{AllocError, Global};
use core::fmt;
use core::iter::FusedIterator;
use core::mem::replace;

/// One value of the caller's beside each of some tickets, such as a name, a resource or an exact size.
///
/// Put one where a range is granted, and take it where the range is freed: what `iter` has in the end was
/// never freed. Use one for each space. It has a cell for each name up to the largest that was given, so never
/// more than the node limit of the space, and each call but `put`, `clear` and a walk takes constant time; any
/// ticket may be given, and one of another grant has no value here.
///
/// States have no values: store each that `iter` has, with the parts of its ticket, and put it beside the space that is read.
///
/// ```
/// # use offset_allocator_guarded::*;
/// # let alloc = Global;
/// let mut guarded = Guarded::<u32>::new(alloc, 1000)?;
/// let mut names = Beside::new(alloc);
/// let mesh = guarded.allocate(300).unwrap();
/// assert!(names.put(&guarded, mesh, "mesh").is_ok());
/// assert_eq!(names.get(mesh), Some(&"mesh"));
/// guarded.free(mesh);
/// assert_eq!(names.take(mesh), Some("mesh"));
/// # Ok::<(), AllocError>(())
/// ```
pub struct Beside<V> {
    // by name
    cells: Vec<Option<(Ticket, V)>>,
    // how many of them have a value
    kept: usize,
}

// Whether two tickets of one name are of one grant.
fn are_alike(one: Ticket, other: Ticket) -> bool {
    one.serial() == other.serial() && one.realm() == other.realm()
}

// The value of the entry of a cell that has one.
fn lend_value<V>(cell: &mut Option<(Ticket, V)>) -> &mut V {
    match cell {
        Some(entry) => &mut entry.1,
        None => unreachable!(),
    }
}

// Drops what some cells have.
fn empty<X>(cells: &mut Vec<Option<X>>) {
    for place in 0..cells.len() {
        cells[place] = None;
    }
}

impl<V> Beside<V> {
    /// No value. It takes no memory.
    pub fn new(alloc: Global) -> Self {
        Beside {
            cells: Vec::new(alloc),
            kept: 0,
        }
    }

    // Makes the cells of all names below a number.
    fn cover(&mut self, names: usize) -> Result<(), AllocError> {
        let more = names.saturating_sub(self.cells.len());
        self.cells.reserve(more)?;
        while self.cells.len() < names {
            self.cells.push_reserved(None);
        }
        Ok(())
    }

    // Puts an entry, or none, into the cell of a name, and returns what was there.
    fn exchange(&mut self, name: usize, with: Option<(Ticket, V)>) -> Option<(Ticket, V)> {
        let more = usize::from(with.is_some());
        let was = replace(&mut self.cells[name], with);
        self.kept -= usize::from(was.is_some());
        self.kept += more;
        was
    }

    // Puts a value under the name of a ticket, and returns what was there.
    fn put_at(&mut self, ticket: Ticket, value: V) -> Result<Option<(Ticket, V)>, V> {
        let name = ticket.name() as usize;
        if self.cover(name + 1).is_err() {
            return Err(value);
        }
        Ok(self.exchange(name, Some((ticket, value))))
    }

    /// Puts a value beside a ticket that is live in its space, and returns what was under its name: the same
    /// ticket's value, or one of an earlier grant that was not taken. Where the name is larger than any before,
    /// it takes memory and time for the cells up to it.
    ///
    /// # Errors
    ///
    /// The value is returned where the ticket is not live in the space, and where the name has no cell yet, and
    /// an allocation failed; then all values are as they were.
    ///
    /// ```
    /// # use offset_allocator_guarded::*;
    /// # let alloc = Global;
    /// let mut guarded = Guarded::<u32>::new(alloc, 1000)?;
    /// let mut sizes = Beside::new(alloc);
    /// let mesh = guarded.allocate(300).unwrap();
    /// assert_eq!(sizes.put(&guarded, mesh, 76_800), Ok(None));
    /// assert_eq!(sizes.put(&guarded, mesh, 76_801), Ok(Some((mesh, 76_800))));
    /// guarded.free(mesh);
    /// assert_eq!(sizes.put(&guarded, mesh, 76_802), Err(76_802));
    /// # Ok::<(), AllocError>(())
    /// ```
    pub fn put<T: Tables>(
        &mut self,
        space: &GuardedOf<T>,
        ticket: Ticket,
        value: V,
    ) -> Result<Option<(Ticket, V)>, V> {
        if !space.is_live(ticket) {
            return Err(value);
        }
        self.put_at(ticket, value)
    }

    /// The value beside a ticket, or `None` where it has none.
    ///
    /// ```
    /// # use offset_allocator_guarded::*;
    /// # let alloc = Global;
    /// let mut guarded = Guarded::<u32>::new(alloc, 1000)?;
    /// let names = Beside::<u32>::new(alloc);
    /// assert_eq!(names.get(guarded.allocate(300).unwrap()), None);
    /// # Ok::<(), AllocError>(())
    /// ```
    pub fn get(&self, ticket: Ticket) -> Option<&V> {
        match self.cells.get(ticket.name() as usize) {
            Some(Some((kept, value))) => {
                if are_alike(*kept, ticket) {
                    Some(value)
                } else {
                    None
                }
            }
            _ => None,
        }
    }

    /// The value under a name, with its ticket, or `None` where there is none: of a range that moves, where the
    /// space itself cannot be asked, that of `range.allocation().name()`.
    ///
    /// It is the last that was put under that name. So where each grant gets a value, it is that of the range
    /// that has the name; where one got none, it may be one of an earlier grant that was not taken.
    ///
    /// ```
    /// # use offset_allocator_guarded::*;
    /// # let alloc = Global;
    /// let mut guarded = Guarded::<u32>::new(alloc, 1000)?;
    /// let mut names = Beside::new(alloc);
    /// let rock = guarded.allocate(300).unwrap();
    /// let mesh = guarded.allocate(300).unwrap();
    /// assert!(names.put(&guarded, mesh, "mesh").is_ok());
    /// guarded.free(rock);
    /// guarded.compact_unaligned(|range| {
    ///     assert_eq!(names.under(range.allocation().name()), Some((mesh, &"mesh")));
    /// });
    /// # Ok::<(), AllocError>(())
    /// ```
    pub fn under(&self, name: u32) -> Option<(Ticket, &V)> {
        match self.cells.get(name as usize) {
            Some(Some((ticket, value))) => Some((*ticket, value)),
            _ => None,
        }
    }

    /// The value beside a ticket, to be changed in place, or `None` where it has none.
    ///
    /// ```
    /// # use offset_allocator_guarded::*;
    /// # let alloc = Global;
    /// let mut guarded = Guarded::<u32>::new(alloc, 1000)?;
    /// let mut uses = Beside::new(alloc);
    /// let mesh = guarded.allocate(300).unwrap();
    /// assert!(uses.put(&guarded, mesh, 0).is_ok());
    /// *uses.get_mut(mesh).unwrap() += 1;
    /// assert_eq!(uses.get(mesh), Some(&1));
    /// # Ok::<(), AllocError>(())
    /// ```
    pub fn get_mut(&mut self, ticket: Ticket) -> Option<&mut V> {
        if self.get(ticket).is_some() {
            Some(self.value_mut(ticket.name()))
        } else {
            None
        }
    }

    // The value under a name that has one.
    fn value_mut(&mut self, name: u32) -> &mut V {
        lend_value(&mut self.cells[name as usize])
    }

    /// Takes out the value beside a ticket, or returns `None` where it has none, and then all is as it was.
    ///
    /// ```
    /// # use offset_allocator_guarded::*;
    /// # let alloc = Global;
    /// let mut guarded = Guarded::<u32>::new(alloc, 1000)?;
    /// let mut names = Beside::new(alloc);
    /// let mesh = guarded.allocate(300).unwrap();
    /// assert!(names.put(&guarded, mesh, "mesh").is_ok());
    /// assert_eq!((names.take(mesh), names.take(mesh)), (Some("mesh"), None));
    /// # Ok::<(), AllocError>(())
    /// ```
    pub fn take(&mut self, ticket: Ticket) -> Option<V> {
        if self.get(ticket).is_none() {
            return None;
        }
        match self.exchange(ticket.name() as usize, None) {
            Some((_ticket, value)) => Some(value),
            None => unreachable!(),
        }
    }

    /// The cells, by name: what was put and not taken, each value with its ticket. [`iter`](Self::iter) gives these alone.
    ///
    /// ```
    /// # use offset_allocator_guarded::*;
    /// # let alloc = Global;
    /// let mut guarded = Guarded::<u32>::new(alloc, 1000)?;
    /// let mut names = Beside::new(alloc);
    /// let mesh = guarded.allocate(300).unwrap();
    /// assert!(names.put(&guarded, mesh, "mesh").is_ok());
    /// for (ticket, name) in names.leaks().iter().flatten() {
    ///     assert_eq!((*ticket, *name), (mesh, "mesh"));
    /// }
    /// # Ok::<(), AllocError>(())
    /// ```
    pub fn leaks(&self) -> &[Option<(Ticket, V)>] {
        &self.cells
    }

    /// An iterator over what was put and not taken, each value with its ticket, by name. It reads each cell once.
    ///
    /// ```
    /// # use offset_allocator_guarded::*;
    /// # let alloc = Global;
    /// let mut guarded = Guarded::<u32>::new(alloc, 1000)?;
    /// let mut names = Beside::new(alloc);
    /// let mesh = guarded.allocate(300).unwrap();
    /// assert!(names.put(&guarded, mesh, "mesh").is_ok());
    /// for (ticket, name) in names.iter() {
    ///     assert_eq!((ticket, *name), (mesh, "mesh"));
    /// }
    /// # Ok::<(), AllocError>(())
    /// ```
    pub fn iter(&self) -> BesideIter<'_, V> {
        BesideIter {
            cells: &self.cells,
            left: self.kept,
        }
    }

    /// How many values there are.
    ///
    /// ```
    /// # use offset_allocator_guarded::*;
    /// # let alloc = Global;
    /// let mut guarded = Guarded::<u32>::new(alloc, 1000)?;
    /// let mut names = Beside::new(alloc);
    /// let mesh = guarded.allocate(300).unwrap();
    /// assert!(names.put(&guarded, mesh, "mesh").is_ok());
    /// assert_eq!(names.len(), 1);
    /// # Ok::<(), AllocError>(())
    /// ```
    pub fn len(&self) -> usize {
        self.kept
    }

    /// Whether there is no value.
    ///
    /// ```
    /// # use offset_allocator_guarded::*;
    /// # let alloc = Global;
    /// assert!(Beside::<u32>::new(alloc).is_empty());
    /// # Ok::<(), AllocError>(())
    /// ```
    pub fn is_empty(&self) -> bool {
        self.kept == 0
    }

    /// Drops all values, and keeps the cells, in time that grows with these.
    ///
    /// ```
    /// # use offset_allocator_guarded::*;
    /// # let alloc = Global;
    /// let mut guarded = Guarded::<u32>::new(alloc, 1000)?;
    /// let mut names = Beside::new(alloc);
    /// let mesh = guarded.allocate(300).unwrap();
    /// assert!(names.put(&guarded, mesh, "mesh").is_ok());
    /// names.clear();
    /// assert_eq!(names.get(mesh), None);
    /// # Ok::<(), AllocError>(())
    /// ```
    pub fn clear(&mut self) {
        empty(&mut self.cells);
        self.kept = 0;
    }
}

impl<'a, V> IntoIterator for &'a Beside<V> {
    type Item = (Ticket, &'a V);

    type IntoIter = BesideIter<'a, V>;

    fn into_iter(self) -> BesideIter<'a, V> {
        self.iter()
    }
}

/// The text is that of a map from tickets to values.
impl<V: fmt::Debug> fmt::Debug for Beside<V> {
    fn fmt(&self, f: &mut fmt::Formatter<'_>) -> fmt::Result {
        f.debug_map().entries(self.iter()).finish()
    }
}

/// The values of a [`Beside`](crate::Beside) with their tickets, by name, seen as the list of those that are left.
pub struct BesideIter<'a, V> {
    cells: &'a [Option<(Ticket, V)>],
    // how many values are left
    left: usize,
}

impl<'a, V> Clone for BesideIter<'a, V> {
    fn clone(&self) -> Self {
        BesideIter {
            cells: self.cells,
            left: self.left,
        }
    }
}

impl<'a, V> Iterator for BesideIter<'a, V> {
    type Item = (Ticket, &'a V);

    fn next(&mut self) -> Option<(Ticket, &'a V)> {
        while let Some((cell, rest)) = self.cells.split_first() {
            self.cells = rest;
            if let Some((ticket, value)) = cell {
                self.left -= 1;
                return Some((*ticket, value));
            }
        }
        None
    }

    fn size_hint(&self) -> (usize, Option<usize>) {
        (self.left, Some(self.left))
    }
}

impl<'a, V> ExactSizeIterator for BesideIter<'a, V> {
    fn len(&self) -> usize {
        self.left
    }
}

impl<'a, V> FusedIterator for BesideIter<'a, V> {}

impl<'a, V> fmt::Debug for BesideIter<'a, V> {
    fn fmt(&self, f: &mut fmt::Formatter<'_>) -> fmt::Result {
        f.debug_struct("BesideIter")
            .field("remaining", &self.len())
            .finish()
    }
}
