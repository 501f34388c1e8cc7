// Printed by rust/erase from crates/offset_script/src/answers.rt: change it there.

//! Answers, and the lines of each. It reads spaces, and appends to texts.

use crate::buffer::TextBuffer;
use offset_allocator::{AllocatorOf, StorageReport, Tables};
use crate::memory::Vec;
use crate::memory::{AllocError, Global};

// The most bytes of a line. Three numbers of 20 digits and the words of a row fit.
const LINE_BYTES: usize = 80;

/// One size class of a full report.
#[derive(Clone, Copy, PartialEq, Debug)]
pub struct FullRow {
    /// The size class, from 0 to 255.
    pub class: u32,
    /// The value of the class in units; only its low 32 bits.
    pub size: u32,
    /// How many free blocks are of the class.
    pub count: u32,
}

/// The answer to one command.
#[derive(Debug)]
pub enum Answer {
    /// A grant with this number, whose units begin at this offset. Grants are numbered from 1 in their order.
    Grant { number: u64, offset: u32 },
    /// A request or an extension is refused, and the space is as it was.
    Refused,
    /// The units of the grant are free again.
    Freed,
    /// No grant of that number is live, and the space is as it was.
    Gone,
    /// The size of a grant in units.
    Size(u32),
    /// The free units in all, and the largest free region. Both are 0 where the space has as many blocks as
    /// its limit allows.
    Report(StorageReport),
    /// The classes that have a free block, in rising order.
    Full(Vec<FullRow>),
    /// The whole space is one free block again.
    Reset,
    /// The space has grown.
    Extended,
}

/// The answer to `full`: a row for each class that has a free block.
///
/// # Errors
///
/// It fails only where an allocation fails.
///
/// ```
/// # use offset_allocator::ByNode;
/// # use offset_script::memory::Vec;
/// # use offset_script::*;
/// # let alloc = Global;
/// let mut player = Player::<u32>::start(alloc, 1000, 16)?;
/// let answer = full_answer(alloc, player.space())?;
/// assert!(matches!(answer, Answer::Full(rows) if rows.len() == 1));
/// # Ok::<(), RunFault>(())
/// ```
pub fn full_answer<T: Tables>(alloc: Global, space: &AllocatorOf<T>) -> Result<Answer, AllocError> {
    let report = space.storage_report_full();
    let mut rows = Vec::new(alloc);
    for class in 0..256u32 {
        let region = report.free_regions[class as usize];
        if region.count > 0 {
            rows.push(FullRow {
                class,
                size: region.size,
                count: region.count,
            })?;
        }
    }
    Ok(Answer::Full(rows))
}

// Appends the line of a grant. Each line is put together from its end.
fn put_grant(out: &mut Vec<u8>, number: u64, offset: u32) -> Result<(), AllocError> {
    let mut line: TextBuffer<LINE_BYTES> = TextBuffer::new();
    line.prepend("\n");
    line.prepend_number(u64::from(offset));
    line.prepend(" at ");
    line.prepend_number(number);
    line.prepend("grant ");
    out.extend_from_slice(line.bytes())
}

// Appends the line of a size.
fn put_size(out: &mut Vec<u8>, size: u32) -> Result<(), AllocError> {
    let mut line: TextBuffer<LINE_BYTES> = TextBuffer::new();
    line.prepend("\n");
    line.prepend_number(u64::from(size));
    line.prepend("size ");
    out.extend_from_slice(line.bytes())
}

// Appends the line of a report.
fn put_report(out: &mut Vec<u8>, free: u32, largest: u32) -> Result<(), AllocError> {
    let mut line: TextBuffer<LINE_BYTES> = TextBuffer::new();
    line.prepend("\n");
    line.prepend_number(u64::from(largest));
    line.prepend(" largest ");
    line.prepend_number(u64::from(free));
    line.prepend("free ");
    out.extend_from_slice(line.bytes())
}

// Appends the first line of a full report.
fn put_count(out: &mut Vec<u8>, count: usize) -> Result<(), AllocError> {
    let mut line: TextBuffer<LINE_BYTES> = TextBuffer::new();
    line.prepend("\n");
    line.prepend_number(count as u64);
    line.prepend("full ");
    out.extend_from_slice(line.bytes())
}

// Appends the line of a row, with its line end.
fn put_row(out: &mut Vec<u8>, row: &FullRow) -> Result<(), AllocError> {
    let mut line: TextBuffer<LINE_BYTES> = TextBuffer::new();
    line.prepend("\n");
    line.prepend_number(u64::from(row.count));
    line.prepend(" count ");
    line.prepend_number(u64::from(row.size));
    line.prepend(" size ");
    line.prepend_number(u64::from(row.class));
    line.prepend("class ");
    out.extend_from_slice(line.bytes())
}

// Appends the lines of rows.
fn put_rows(out: &mut Vec<u8>, rows: &[FullRow]) -> Result<(), AllocError> {
    for row in rows {
        put_row(out, row)?;
    }
    Ok(())
}

/// Appends the lines of an answer: one, and for a full report one more for each of its rows.
pub fn put_answer(out: &mut Vec<u8>, answer: &Answer) -> Result<(), AllocError> {
    match answer {
        Answer::Grant { number, offset } => put_grant(out, *number, *offset),
        Answer::Refused => out.extend_from_slice(b"none\n"),
        Answer::Freed => out.extend_from_slice(b"freed\n"),
        Answer::Gone => out.extend_from_slice(b"gone\n"),
        Answer::Size(size) => put_size(out, *size),
        Answer::Report(report) => {
            put_report(out, report.total_free_space, report.largest_free_region)
        }
        Answer::Full(rows) => {
            put_count(out, rows.len())?;
            put_rows(out, rows)
        }
        Answer::Reset => out.extend_from_slice(b"reset\n"),
        Answer::Extended => out.extend_from_slice(b"extended\n"),
    }
}
