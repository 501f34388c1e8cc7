// Printed by rust/erase from crates/offset_pictures/src/step_lines.rt: change it there.

//! Values of states, as a line of steps, and calls, as marks. Both are drawn to a tenth of a pixel. It only
//! appends text.

use crate::axes::{Axis, TENTH};
use crate::numerals::{Piece, Pixels, prepend_pixels, put_piece};
use crate::plots::Plot;
use crate::refusing::Refused;
use crate::memory::String;
use crate::memory::Vec;
use crate::memory::{AllocError, Global};

// The length in whole tenths of a pixel.
fn in_tenths(length: u32) -> u32 {
    length / TENTH * TENTH
}

/// The x of each of the first `states` states, to a tenth of a pixel.
pub fn xs_of(alloc: Global, calls: &Axis, states: usize) -> Result<Vec<u32>, AllocError> {
    let mut xs = Vec::with_capacity(alloc, states)?;
    for state in 0..states {
        xs.push(in_tenths(calls.right(state as u64)))?;
    }
    Ok(xs)
}

// The states that lie within one tenth of a pixel: the y of their smallest, largest and last values.
#[derive(Clone, Copy)]
pub struct Column {
    left: u32,
    top: u32,
    bottom: u32,
    last: u32,
}

impl Column {
    // Continues the line, which is at the y `pen`, over all of its own, to the last.
    fn put(&self, out: &mut String, pen: u32) -> Result<(), AllocError> {
        if self.top == pen && self.bottom == pen {
            return Ok(());
        }
        let mut line = Piece::new();
        prepend_pixels(&mut line, Pixels(self.last));
        if self.bottom != self.last {
            line.prepend("V");
            prepend_pixels(&mut line, Pixels(self.bottom));
        }
        if self.top != self.last {
            line.prepend("V");
            prepend_pixels(&mut line, Pixels(self.top));
        }
        line.prepend("V");
        prepend_pixels(&mut line, Pixels(self.left));
        line.prepend("H");
        put_piece(&line, out)
    }
}

// The states that lie within one tenth of a pixel: the smallest and the largest of their values, and the last
// one.
#[derive(Clone, Copy)]
pub struct Group {
    left: u32,
    least: u32,
    most: u32,
    last: u32,
}

impl Group {
    // The group of one state.
    fn new(left: u32, value: u32) -> Self {
        Group {
            left,
            least: value,
            most: value,
            last: value,
        }
    }

    fn add(&mut self, value: u32) {
        self.least = value.min(self.least);
        self.most = value.max(self.most);
        self.last = value;
    }

    // The y of its values: only those of the smallest and the largest, and of the last, are computed.
    fn column(&self, units: &Axis) -> Column {
        let top = in_tenths(units.up(u64::from(self.most)));
        let bottom = if self.least == self.most {
            top
        } else {
            in_tenths(units.up(u64::from(self.least)))
        };
        let last = if self.last == self.most {
            top
        } else if self.last == self.least {
            bottom
        } else {
            in_tenths(units.up(u64::from(self.last)))
        };
        Column {
            left: self.left,
            top,
            bottom,
            last,
        }
    }

    // Continues the line, which is at this pen, over the y of its values, to the last.
    fn put(&self, out: &mut String, units: &Axis, pen: Pen) -> Result<Pen, AllocError> {
        if self.least == self.most && pen.value == Some(self.most) && self.last == self.most {
            return Ok(pen);
        }
        let column = self.column(units);
        column.put(out, pen.y)?;
        Ok(Pen {
            y: column.last,
            value: Some(self.last),
        })
    }
}

// Where a line of steps has come: its y, and the value of that y, if it is that of a value.
#[derive(Clone, Copy)]
pub struct Pen {
    y: u32,
    value: Option<u32>,
}

// The line of steps of these values, one for each state, from the y `base` and back to it. These are the x of
// the states, as `xs_of` has them, and perhaps of more.
fn put_steps(
    out: &mut String,
    plot: &Plot,
    base: u32,
    values: &[u32],
    xs: &[u32],
) -> Result<(), AllocError> {
    let start = Pixels(plot.calls.start);
    let end = Pixels(plot.calls.start + plot.calls.span);
    let base_line = Pixels(base);
    write!(out, "M{start} {base_line}")?;
    let mut pen = Pen {
        y: base,
        value: None,
    };
    let mut group: Option<Group> = None;
    for (value, x) in values.iter().zip(xs) {
        match &mut group {
            Some(group) if group.left == *x => group.add(*value),
            _ => {
                if let Some(group) = &group {
                    pen = group.put(out, &plot.units, pen)?;
                }
                group = Some(Group::new(*x, *value));
            }
        }
    }
    if let Some(group) = &group {
        group.put(out, &plot.units, pen)?;
    }
    write!(out, "H{end}V{base_line}")?;
    Ok(())
}

/// Appends the line of steps of these values, one for each state, as an element of this class: from the y
/// `base` and back to it. These are the x of the states, as `xs_of` has them, and perhaps of more.
pub fn put_line(
    out: &mut String,
    class: &str,
    plot: &Plot,
    base: u32,
    values: &[u32],
    xs: &[u32],
) -> Result<(), AllocError> {
    write!(out, "<path class='{class}' d='")?;
    put_steps(out, plot, base, values, xs)?;
    writeln!(out, "'/>")
}

/// A mark from this y down for each of these calls. Those at one tenth of a pixel have one mark.
pub fn put_marks(
    out: &mut String,
    calls: &Axis,
    y: u32,
    marked: &[Refused],
) -> Result<(), AllocError> {
    let top = Pixels(y);
    let mut before = None;
    for refused in marked {
        let x = in_tenths(calls.right(refused.call.saturating_add(1) as u64));
        if before != Some(x) {
            let mut line = Piece::new();
            line.prepend("v12");
            prepend_pixels(&mut line, top);
            line.prepend(" ");
            prepend_pixels(&mut line, Pixels(x));
            line.prepend("M");
            put_piece(&line, out)?;
        }
        before = Some(x);
    }
    Ok(())
}
