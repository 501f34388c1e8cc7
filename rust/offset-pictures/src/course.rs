// Printed by rust/erase from crates/offset_pictures/src/course.rt: change it there.

//! The course of calls, such as those of a script: all that a picture shows of them. It plays the script, and
//! keeps no space.

use crate::living::{Life, lives_of_answers};
use crate::refusing::Refused;
use crate::watching::{Watched, watch};
use offset_allocator::StorageReport;
use offset_script::Script;
use crate::memory::Vec;
use crate::memory::{AllocError, Global};

/// What some calls did to a space: those of a script, by `course_of`, or other calls, as noted by the program
/// that makes them.
///
/// A picture shows as many calls as `sizes` has states, less one. All that it needs is that no life ends
/// before it begins: `first` is at most `last`.
///
/// Calls are counted from 0 here, and written from 1 in the picture. A state is what a number of calls
/// leaves: state 0 is the fresh space, and n calls have n + 1 states.
pub struct Course {
    /// The node limit.
    pub max_allocs: u32,
    /// How many requests were granted.
    pub grants: usize,
    /// The lives of the grants, in the order of the calls.
    pub lives: Vec<Life>,
    /// The report of each state.
    pub reports: Vec<StorageReport>,
    /// The units of the space in each state.
    pub sizes: Vec<u32>,
    /// The calls that were refused, in their order.
    pub refused: Vec<Refused>,
}

/// Plays a script, without its full reports, and returns its course.
///
/// ```
/// # use offset_pictures::*;
/// # use offset_script::*;
/// # let alloc = offset_script::Global;
/// let script = parse(alloc, b"space 1000 nodes 16 index 32\nalloc 300\nfree 1\n")?;
/// let course = course_of(alloc, &script)?;
/// assert_eq!((course.grants, course.sizes.len()), (1, 3));
/// # Ok::<(), RunFault>(())
/// ```
pub fn course_of(alloc: Global, script: &Script) -> Result<Course, AllocError> {
    let Watched {
        answers,
        reports,
        sizes,
        refused,
    } = watch(alloc, script)?;
    let lives = lives_of_answers(alloc, &script.commands, &answers)?;
    Ok(Course {
        max_allocs: script.max_allocs,
        grants: lives.len(),
        lives,
        reports,
        sizes,
        refused,
    })
}
