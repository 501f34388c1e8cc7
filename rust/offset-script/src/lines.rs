// Printed by rust/erase from crates/offset_script/src/lines.rt: change it there.

//! The lines of a text that are neither empty nor comments. It only reads the text.

use crate::tokens::split_once;

/// What is not read of a text yet, and the number of its first line, from 1.
pub struct Lines<'a> {
    pub rest: &'a [u8],
    pub number: u32,
}

// Whether a line is empty or a comment.
fn is_skipped(line: &[u8]) -> bool {
    match line {
        [] => true,
        [first, ..] => *first == b'#',
    }
}

impl<'a> Lines<'a> {
    /// All lines of a text.
    ///
    /// # Panics
    ///
    /// It panics unless a text is shorter than 4294967295 bytes.
    #[track_caller]
    pub fn of(text: &'a [u8]) -> Self {
        assert!(text.len() < u32::MAX as usize, "a text must be shorter than 4294967295 bytes");
        Lines {
            rest: text,
            number: 1,
        }
    }

    // Takes the first line, and returns its number and its text.
    fn take_line(&mut self) -> (u32, &'a [u8]) {
        let (line, after) = split_once(self.rest, b'\n');
        let number = self.number;
        match after {
            None => self.rest = &[],
            Some(rest) => {
                self.rest = rest;
                self.number += 1;
            }
        }
        (number, line)
    }

    /// Takes lines up to the next one that is neither empty nor a comment, and returns its number and its
    /// text, or `None` where there is no such line.
    pub fn next_line(&mut self) -> Option<(u32, &'a [u8])> {
        while !self.rest.is_empty() {
            let (number, line) = self.take_line();
            if !is_skipped(line) {
                return Some((number, line));
            }
        }
        None
    }
}
