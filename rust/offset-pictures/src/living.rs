// Printed by rust/erase from crates/offset_pictures/src/living.rt: change it there.

//! The lives of grants. It reads commands and their answers, which `lives` has by a play of its script.

use offset_script::{Answer, Command, Script, play_script};
use crate::memory::Vec;
use crate::memory::{AllocError, Global};

/// A life: a range that a grant has, and the calls between which it has it.
///
/// Calls are counted from 0. The grant has the range from after the call `first`, which returned it, to the
/// call `last`, which released it or was a reset; `last` is the number of all calls where the grant has the
/// range at the end.
///
/// In a script each grant has one life. In a course that is no script's, a grant may be moved or resized.
/// Then it has a life for each range that it has had, and `lived` is the same in all of them.
#[derive(Clone, Copy, PartialEq, Debug)]
pub struct Life {
    /// The number of the grant, from 1.
    pub number: u64,
    /// The offset of the range.
    pub offset: u32,
    /// The size of the range in units.
    pub size: u32,
    /// The call that granted the range.
    pub first: usize,
    /// The call that ended the life, or the number of all calls.
    pub last: usize,
    /// For how many calls the grant is live, with all its ranges; the colour of the rectangle says it.
    pub lived: usize,
}

// For each grant, the call that ends it, among the calls seen so far: they are seen from the last to the
// first.
struct Ends {
    // The first release of each grant, or the number of calls.
    released: Vec<usize>,
    // The first reset, or the number of calls.
    reset: usize,
}

impl Ends {
    // No call is seen yet, of a script with this number of calls, which is at least the number of its grants.
    fn new(alloc: Global, calls: usize) -> Result<Self, AllocError> {
        let mut released = Vec::new(alloc);
        released.resize(calls + 1, calls)?;
        Ok(Ends {
            released,
            reset: calls,
        })
    }

    // The call that ends a grant.
    fn of(&self, number: u64) -> usize {
        self.released[number as usize].min(self.reset)
    }

    // Adds call i, which comes before all that were seen.
    fn meet(&mut self, i: usize, command: Command) {
        match command {
            Command::Free(number) => {
                if (number as usize) < self.released.len() {
                    self.released[number as usize] = i;
                }
            }
            Command::Reset => self.reset = i,
            _ => {}
        }
    }
}

// The units that a command requests.
fn requested_units(command: Command) -> u32 {
    match command {
        Command::Alloc(size) => size,
        Command::Align(size, _) => size,
        _ => 0,
    }
}

// The life that begins with this answer to call i, if it is a grant.
fn life_of_answer(i: usize, command: Command, answer: &Answer, ends: &Ends) -> Option<Life> {
    match answer {
        Answer::Grant { number, offset } => {
            let last = ends.of(*number);
            Some(Life {
                number: *number,
                offset: *offset,
                size: requested_units(command),
                first: i,
                last,
                lived: last.saturating_sub(i),
            })
        }
        _ => None,
    }
}

// How many of the answers are grants.
fn grants_among(answers: &[Answer]) -> usize {
    let mut grants = 0usize;
    for answer in answers {
        if matches!(answer, Answer::Grant { .. }) {
            grants = grants.saturating_add(1);
        }
    }
    grants
}

/// The lives of the grants among the answers to these commands, in the order of the calls.
///
/// It goes over the commands once, from the last to the first, so that the end of a life is known when its
/// beginning is seen.
pub fn lives_of_answers(
    alloc: Global,
    commands: &[Command],
    answers: &[Answer],
) -> Result<Vec<Life>, AllocError> {
    let calls = commands.len();
    let mut ends = Ends::new(alloc, calls)?;
    // The caller keeps them: there is no room for more.
    let mut lives = Vec::with_capacity(alloc, grants_among(answers))?;
    for i in (0..calls).rev() {
        let command = commands[i];
        if let Some(life) = life_of_answer(i, command, &answers[i], &ends) {
            lives.push(life)?;
        }
        ends.meet(i, command);
    }
    lives.reverse();
    Ok(lives)
}

/// Plays a script, and returns the lives of all its grants, in the order of their numbers.
///
/// # Errors
///
/// It fails only where an allocation fails.
///
/// ```
/// # use offset_pictures::*;
/// # use offset_script::*;
/// # let alloc = offset_script::Global;
/// let script = parse(alloc, b"space 1000 nodes 16 index 32\nalloc 300\nfree 1\n")?;
/// let found = lives(alloc, &script)?;
/// assert_eq!((found[0].size, found[0].first, found[0].last), (300, 0, 1));
/// # Ok::<(), RunFault>(())
/// ```
pub fn lives(alloc: Global, script: &Script) -> Result<Vec<Life>, AllocError> {
    let answers = play_script(alloc, script)?;
    lives_of_answers(alloc, &script.commands, &answers)
}
