//! Plays recordings on the proved allocator, call by call.

use crate::reading::{Header, HeapLine, Line, Lines, NoHeap};
use offset_allocator_memory::{AllocError, Global, String, Vec};
use offset_calls::{Call, CallPlayer, Reply};
use offset_script::{IndexWidth, RunFault, ScriptFault};
use std::collections::BTreeMap;
use std::io::{BufRead, Write};

/// Appends the lines of the reply to a call. For a command of scripts they are those of the proved program.
pub fn put_reply(out: &mut Vec<u8>, call: Call, reply: &Reply) -> Result<(), AllocError> {
    let mut line = String::new(Global);
    let words = match reply {
        Reply::Answer(answer) => return offset_script::put_answer(out, answer),
        Reply::Resized => match call {
            Call::Shrink(..) => "shrunk",
            Call::Grow(..) => "grown",
            _ => "retracted",
        },
        Reply::Compacted(_) => "compacted",
        Reply::Refusal(None) => "granted",
        Reply::RoomMade(None, _) | Reply::RoomCost(None) | Reply::Found(None) => "none",
        Reply::Refusal(Some(why)) => {
            write!(line, "{why}")?;
            &line
        }
        Reply::Offset(offset) => {
            write!(line, "offset {offset}")?;
            &line
        }
        Reply::RoomMade(Some(cost), _) | Reply::RoomCost(Some(cost)) => {
            write!(line, "ranges {} units {}", cost.ranges, cost.units)?;
            &line
        }
        Reply::CompactedWithin(next, moves) => {
            let units: u32 = moves.iter().map(|range| range.size).sum();
            write!(line, "ranges {} units {units} ", moves.len())?;
            match next {
                None => write!(line, "end")?,
                Some(next) => write!(line, "next {next}")?,
            }
            &line
        }
        Reply::Found(Some(range)) => {
            write!(line, "range {} at {}", range.number, range.offset)?;
            &line
        }
    };
    out.extend_from_slice(words.as_bytes())?;
    out.push(b'\n')
}

/// A space that is played.
pub(crate) enum Space {
    /// With node indices of 16 bits.
    Narrow(CallPlayer<u16>),
    /// With those of 32 bits.
    Wide(CallPlayer<u32>),
}

impl Space {
    pub(crate) fn start(header: Header) -> Result<Self, AllocError> {
        Ok(match header.index {
            IndexWidth::Bits16 => Space::Narrow(CallPlayer::start(Global, header.size, header.max_allocs)?),
            IndexWidth::Bits32 => Space::Wide(CallPlayer::start(Global, header.size, header.max_allocs)?),
        })
    }

    pub(crate) fn call(&mut self, call: Call) -> Result<Reply, AllocError> {
        match self {
            Space::Narrow(player) => player.call(Global, call),
            Space::Wide(player) => player.call(Global, call),
        }
    }

    fn has_live(&self) -> bool {
        match self {
            Space::Narrow(player) => player.space().live_units() > 0 || player.space().blocks().any(|block| block.allocation.is_some()),
            Space::Wide(player) => player.space().live_units() > 0 || player.space().blocks().any(|block| block.allocation.is_some()),
        }
    }
}

// What a line of many heaps is answered, without its heap.
fn put_heap(out: &mut Vec<u8>, heaps: &mut BTreeMap<u32, Space>, number: u32, line: HeapLine) -> Result<bool, AllocError> {
    let words = match line {
        HeapLine::Header(header) => {
            heaps.remove(&number);
            heaps.insert(number, Space::start(header)?);
            return Ok(true);
        }
        HeapLine::Call(call) => {
            let Some(space) = heaps.get_mut(&number) else { return Ok(false) };
            let reply = space.call(call)?;
            put_number(out, number)?;
            return put_reply(out, call, &reply).map(|()| true);
        }
        HeapLine::Drop => match heaps.get(&number).map(Space::has_live) {
            None => "gone",
            Some(true) => "none",
            Some(false) => {
                heaps.remove(&number);
                "dropped"
            }
        },
        HeapLine::GiveUp => match heaps.remove(&number) {
            None => "gone",
            Some(_) => "given up",
        },
    };
    put_number(out, number)?;
    out.extend_from_slice(words.as_bytes())?;
    out.push(b'\n')?;
    Ok(true)
}

fn put_number(out: &mut Vec<u8>, number: u32) -> Result<(), AllocError> {
    let mut words = String::new(Global);
    write!(words, "heap {number} ")?;
    out.extend_from_slice(words.as_bytes())
}

/// Plays a recording, and writes each answer as it comes: in one of many heaps after the heap's number. Memory is needed for
/// the tables, the handles of grants, and one line; and for 8 bytes a node, and one moved range after the other, once a call
/// moves ranges or asks for one beside.
pub fn play(from: impl BufRead, to: &mut impl Write) -> Result<(), RunFault> {
    let mut lines = Lines::new(from);
    let (mut one, mut heaps, mut text) = (None, BTreeMap::new(), Vec::new(Global));
    while let Some(line) = lines.next_line()? {
        text.clear();
        match (line, &mut one) {
            (Line::Header(header), _) => {
                // the memory of the one before is given back first
                drop(one.take());
                one = Some(Space::start(header)?);
            }
            (Line::Call(call), Some(space)) => {
                let reply = space.call(call)?;
                put_reply(&mut text, call, &reply)?;
            }
            (Line::Heap(number, line), _) => {
                if !put_heap(&mut text, &mut heaps, number, line)? {
                    return Err(RunFault::from(ScriptFault::BadCommand(lines.line())));
                }
            }
            (Line::NoHeap(NoHeap::Gone), _) => text.extend_from_slice(b"gone\n")?,
            (Line::NoHeap(_), _) => text.extend_from_slice(b"none\n")?,
            (Line::Other | Line::Mark | Line::Call(_), _) => (),
        }
        to.write_all(&text).map_err(|_| RunFault::Write)?;
    }
    to.flush().map_err(|_| RunFault::Write)
}
