//! Writes the lines of a recording, and knows the number of each live grant.

use crate::beginning::{beginning, NoBeginning, Step};
use offset_allocator_proved::{AllocatorOf, NodeIndex, Tables};
use std::io::{self, Write};

pub(crate) struct Tape<W: Write> {
    out: W,
    failure: Option<io::Error>,
    // one line, put together first: so a crash leaves no part of one where `out` writes it at once
    line: Vec<u8>,
    // whether the last line is a name, and whether the last one that is no mark had one before it
    named: bool,
    had_name: bool,
    numbers: Numbers,
}

// Sets the item of a name in a list, which grows. An error where memory is out.
fn set<I: Copy + Default>(list: &mut Vec<I>, name: u32, item: I) -> io::Result<()> {
    let place = name as usize;
    if place >= list.len() {
        if list.try_reserve(place + 1 - list.len()).is_err() {
            return Err(io::ErrorKind::OutOfMemory.into());
        }
        list.resize(place + 1, I::default());
    }
    list[place] = item;
    Ok(())
}

/// The numbers of grants, by the names of their blocks.
#[derive(Default)]
pub(crate) struct Numbers {
    // the number of the grant that had a name last, 0 for none; and whether the recording has a name of its own for it
    numbers: Vec<u32>,
    named: Vec<bool>,
    grants: u32,
}

impl Numbers {
    /// The next grant has this name. An error where memory is out.
    pub(crate) fn grant(&mut self, name: u32) -> io::Result<u32> {
        set(&mut self.numbers, name, self.grants.saturating_add(1))?;
        self.grants = self.grants.saturating_add(1);
        Ok(self.grants)
    }

    /// Whether the grant of this name has one of its own in the recording. An error where memory is out.
    pub(crate) fn set_named(&mut self, name: u32, is_named: bool) -> io::Result<()> {
        // what has none needs no place
        if !is_named && name as usize >= self.named.len() {
            return Ok(());
        }
        set(&mut self.named, name, is_named)
    }

    pub(crate) fn is_named(&self, name: u32) -> bool {
        self.named.get(name as usize).is_some_and(|named| *named)
    }

    /// The number of the grant of this live name, or 0, which is of no grant.
    pub(crate) fn number(&self, name: Option<u32>) -> u32 {
        name.and_then(|place| self.numbers.get(place as usize).copied()).unwrap_or(0)
    }

    /// Writes a header with this node limit, and the lines after which its space is as this one. Returns whether there are such
    /// lines.
    pub(crate) fn begin<T: Tables>(
        &mut self,
        space: &AllocatorOf<T>,
        nodes: u32,
        write: &mut impl FnMut(std::fmt::Arguments),
    ) -> io::Result<bool> {
        let begun = beginning(space).map_err(|why| match why {
            NoBeginning::Full => io::Error::new(
                io::ErrorKind::InvalidInput,
                "no recording begins with this space: it has ranges of no units, and no node or no unit more",
            ),
            NoBeginning::Memory => io::ErrorKind::OutOfMemory.into(),
        })?;
        // a space with a larger limit has the names of its blocks, and the readers of the recording their own
        *self = Numbers { named: std::mem::take(&mut self.named), ..Numbers::default() };
        let bits = bits_of::<T>();
        write(format_args!("space {} nodes {nodes} index {bits}", begun.size));
        for step in &begun.steps {
            match step {
                Step::At(name, offset, size) => {
                    write(format_args!("at {offset} {size}"));
                    match name {
                        Some(name) => self.grant(*name).map(|_| ())?,
                        None => self.grants = self.grants.saturating_add(1),
                    }
                }
                Step::Shrink(number, size) => write(format_args!("shrink {number} {size}")),
                Step::Free(number) => write(format_args!("free {number}")),
                Step::Retract => write(format_args!("retract 1")),
            }
        }
        Ok(!begun.steps.is_empty())
    }
}

impl<W: Write> Tape<W> {
    /// A recording that begins with this space.
    pub(crate) fn start<T: Tables>(space: &AllocatorOf<T>, out: W) -> io::Result<Self> {
        let mut tape = Self::new(out);
        tape.begin(space);
        match tape.take_failure() {
            None => Ok(tape),
            Some(error) => Err(error),
        }
    }

    pub(crate) fn new(out: W) -> Self {
        Tape { out, failure: None, line: Vec::new(), named: false, had_name: false, numbers: Numbers::default() }
    }

    /// Another space takes the place of the one before.
    pub(crate) fn begin<T: Tables>(&mut self, space: &AllocatorOf<T>) {
        if self.failure.is_some() {
            return;
        }
        let mut numbers = std::mem::take(&mut self.numbers);
        let found = numbers.begin(space, space.max_allocs(), &mut |line| self.write(line));
        self.numbers = numbers;
        match found {
            Ok(false) => (),
            Ok(true) => self.mark(format_args!("begun")),
            Err(error) => self.fail(error),
        }
    }

    pub(crate) fn take_failure(&mut self) -> Option<io::Error> {
        self.failure.take()
    }

    pub(crate) fn fail(&mut self, error: io::Error) {
        self.failure.get_or_insert(error);
    }

    /// Writes a line, and flushes it.
    pub(crate) fn write(&mut self, line: std::fmt::Arguments) {
        if self.failure.is_some() {
            return;
        }
        self.had_name = std::mem::take(&mut self.named);
        self.line.clear();
        let found = self.line.write_fmt(line).and_then(|()| {
            self.line.push(b'\n');
            self.out.write_all(&self.line)
        });
        if let Err(error) = found.and_then(|()| self.out.flush()) {
            self.failure = Some(error);
        }
    }

    pub(crate) fn comment(&mut self, text: &str) {
        self.write(format_args!("# {}", in_one_line(text)));
        // one of blanks alone is none
        self.named = !text.trim_ascii().is_empty();
    }

    /// A mark. A name before it stays that of the next request.
    pub(crate) fn mark(&mut self, text: std::fmt::Arguments) {
        let named = self.named;
        self.write(format_args!("#! {text}"));
        self.named = named;
    }

    /// The next request has no name: an empty line is between.
    pub(crate) fn unname(&mut self) {
        if self.named {
            self.write(format_args!(""));
        }
    }

    /// The next grant has this name. Where memory is out the recording ends, and not the program.
    pub(crate) fn grant(&mut self, name: u32) {
        if self.failure.is_some() {
            return;
        }
        let found = self.numbers.grant(name).and_then(|_| self.numbers.set_named(name, self.had_name));
        if let Err(error) = found {
            self.fail(error);
        }
    }

    /// The live grant of this name and number has a name: a mark. One of blanks alone is none.
    pub(crate) fn name_live(&mut self, name: u32, number: u32, text: &str) {
        if self.failure.is_some() || text.trim_ascii().is_empty() {
            return;
        }
        self.mark(format_args!("name {number} {}", in_one_line(text)));
        if let Err(error) = self.numbers.set_named(name, true) {
            self.fail(error);
        }
    }

    /// Whether the live grant of this name has one in the recording.
    pub(crate) fn is_named(&self, name: u32) -> bool {
        self.numbers.is_named(name)
    }

    /// The number of the grant of this live name, or 0, which is of no grant.
    pub(crate) fn number(&self, name: Option<u32>) -> u32 {
        self.numbers.number(name)
    }

    pub(crate) fn failure(&self) -> Option<&io::Error> {
        self.failure.as_ref()
    }

    pub(crate) fn finish(mut self) -> io::Result<W> {
        match self.failure {
            Some(error) => Err(error),
            None => self.out.flush().map(|()| self.out),
        }
    }
}

/// The bits of node indices.
pub(crate) fn bits_of<T: Tables>() -> u32 {
    if <T::Index as NodeIndex>::MAX <= 65535 { 16 } else { 32 }
}

/// A text without line ends.
pub(crate) fn in_one_line(text: &str) -> String {
    text.replace(['\n', '\r'], " ")
}
