// Printed by rust/erase from crates/offset_pictures/src/figures.rt: change it there.

//! What the legend counts over all states of a course, and what the plots are scaled by. It only reads the
//! course.

use crate::course::Course;
use crate::living::Life;
use offset_allocator::StorageReport;
use crate::memory::Vec;
use crate::memory::{AllocError, Global};

/// The numbers in a picture.
#[derive(Clone, Copy, PartialEq, Debug)]
pub struct Figures {
    /// How many calls there are.
    pub calls: u32,
    /// How many requests were granted.
    pub grants: u32,
    /// How many calls returned `none`.
    pub refusals: u32,
    /// The most grants that are live at once.
    pub most_live: u32,
    /// The most units that are live at once.
    pub most_used: u32,
    /// The units of the space when most units are live.
    pub size_then: u32,
    /// The units of the space at first.
    pub first_size: u32,
    /// The units of the space at its largest.
    pub largest_size: u32,
    /// The end of the highest range.
    pub highest: u32,
    /// The first state whose largest free region is the smallest.
    pub worst: u32,
    /// The largest free region of that state.
    pub worst_region: u32,
    /// The free units of that state.
    pub worst_free: u32,
    /// In how many states units are free, and the node limit refuses every request.
    pub full_states: u32,
}

/// A count as a `u32`, or the largest `u32` where it is larger.
pub fn counted(count: usize) -> u32 {
    u32::try_from(count).unwrap_or(u32::MAX)
}

// A number of units as a `u32`, or the largest `u32` where it is larger.
fn counted_units(units: u128) -> u32 {
    u32::try_from(units).unwrap_or(u32::MAX)
}

/// The end of the range of a life, or the largest `u32`.
pub fn end_of(life: &Life) -> u32 {
    life.offset.saturating_add(life.size)
}

// The end of the highest range, or 0.
fn highest_of(lives: &[Life]) -> u32 {
    let mut highest = 0;
    for life in lives {
        highest = end_of(life).max(highest);
    }
    highest
}

// A number of lives, and how many units they have.
#[derive(Clone, Copy)]
pub struct Count {
    lives: usize,
    units: u128,
}

const NONE: Count = Count { lives: 0, units: 0 };

// The change of a call that begins and ends no life. A change is counted from here, so that it is no number
// below 0: there are never so many lives or units.
const UNCHANGED: Count = Count {
    lives: usize::MAX / 2 + 1,
    units: u128::MAX / 2 + 1,
};

impl Count {
    // Adds what a call changes.
    fn change(&mut self, change: Count) {
        self.lives = self.lives + change.lives - UNCHANGED.lives;
        self.units = self.units + change.units - UNCHANGED.units;
    }
}

// Adds a life of so many units to what a call changes, if there is such a call: it begins the life.
fn begin(changes: &mut Vec<Count>, call: usize, units: u32) {
    if call < changes.len() {
        let change = &mut changes[call];
        change.lives += 1;
        change.units += u128::from(units);
    }
}

// Takes a life of so many units from what a call changes, if there is such a call: it ends the life.
fn end(changes: &mut Vec<Count>, call: usize, units: u32) {
    if call < changes.len() {
        let change = &mut changes[call];
        change.lives -= 1;
        change.units -= u128::from(units);
    }
}

// What each of so many calls changes: from state n to state n + 1 it is `changes[n]`.
fn changes(alloc: Global, calls: usize, lives: &[Life]) -> Result<Vec<Count>, AllocError> {
    let mut changes = Vec::new(alloc);
    changes.resize(calls, UNCHANGED)?;
    for life in lives {
        begin(&mut changes, life.first, life.size);
        end(&mut changes, life.last, life.size);
    }
    Ok(changes)
}

impl Figures {
    // The numbers of the fresh space, and those that need no order of calls.
    fn start(course: &Course) -> Self {
        let first_size = course.sizes.first().copied().unwrap_or(0);
        let report = course.reports.first();
        Figures {
            calls: counted(course.sizes.len().saturating_sub(1)),
            grants: counted(course.grants),
            refusals: counted(course.refused.len()),
            most_live: 0,
            most_used: 0,
            size_then: first_size,
            first_size,
            largest_size: first_size,
            highest: highest_of(&course.lives),
            worst: 0,
            worst_region: report.map_or(0, |report| report.largest_free_region),
            worst_free: report.map_or(0, |report| report.total_free_space),
            full_states: 0,
        }
    }

    // Adds a state: how many grants and units are live in a space of this size, and its report.
    fn see(&mut self, state: u32, live: u32, used: u32, size: u32, report: &StorageReport) {
        self.most_live = live.max(self.most_live);
        if used > self.most_used {
            self.most_used = used;
            self.size_then = size;
        }
        self.largest_size = size.max(self.largest_size);
        if report.largest_free_region < self.worst_region {
            self.worst = state;
            self.worst_region = report.largest_free_region;
            self.worst_free = report.total_free_space;
        }
        if used < size && report.total_free_space == 0 {
            self.full_states = self.full_states.saturating_add(1);
        }
    }
}

/// The numbers of a course.
///
/// # Panics
///
/// It panics unless no life ends before it begins.
#[track_caller]
pub fn figures_of(alloc: Global, course: &Course) -> Result<Figures, AllocError> {
    assert!(course.lives.iter().all(|life| life.first <= life.last), "no life may end before it begins");
    let states = course.sizes.len().min(course.reports.len());
    let changes = changes(alloc, states.saturating_sub(1), &course.lives)?;
    let mut found = Figures::start(course);
    let mut on = NONE;
    for state in 0..states {
        if state > 0 {
            on.change(changes[state - 1]);
        }
        let live = counted(on.lives);
        let used = counted_units(on.units);
        found.see(
            counted(state),
            live,
            used,
            course.sizes[state],
            &course.reports[state],
        );
    }
    Ok(found)
}
