// Printed by rust/erase from crates/offset_pictures/src/plots.rt: change it there.

//! The two plots: where they are, and their axes with round numbers. It only appends text.

use crate::axes::{Axis, round_step};
use crate::figures::Figures;
use crate::numerals::{Grouped, Pixels};
use crate::memory::String;
use crate::memory::AllocError;

/// A plot: calls to the right, units upwards.
#[derive(Clone, Copy)]
pub struct Plot {
    pub calls: Axis,
    pub units: Axis,
}

/// Where the plots begin, in hundredths of a pixel.
pub const LEFT: u32 = 12_000;
/// How wide they are.
pub const WIDTH: u32 = 105_000;
/// The upper end of the plot of the ranges.
pub const RANGES_TOP: u32 = 15_000;
/// How high the plot of the ranges is.
pub const RANGES_HEIGHT: u32 = 40_000;
/// The upper end of the plot of the reports.
pub const REPORTS_TOP: u32 = 63_000;
/// How high the plot of the reports is.
pub const REPORTS_HEIGHT: u32 = 15_000;

// Call k, counted from 1, lies at k, and the state after it from there to the next call.
fn calls_axis(calls: u32) -> Axis {
    Axis {
        start: LEFT,
        span: WIDTH,
        most: calls.saturating_add(1),
    }
}

/// The plot of the ranges. It ends a twentieth above the highest unit that was used, or where the space does.
pub fn ranges_plot(figures: &Figures) -> Plot {
    let above = figures.highest.saturating_add(figures.highest / 20 + 1);
    let end = if figures.highest == 0 {
        figures.largest_size
    } else {
        above.min(figures.largest_size)
    };
    Plot {
        calls: calls_axis(figures.calls),
        units: Axis {
            start: RANGES_TOP,
            span: RANGES_HEIGHT,
            most: end.max(1),
        },
    }
}

/// The plot of the reports. It ends where the space does.
pub fn reports_plot(figures: &Figures) -> Plot {
    Plot {
        calls: calls_axis(figures.calls),
        units: Axis {
            start: REPORTS_TOP,
            span: REPORTS_HEIGHT,
            most: figures.largest_size.max(1),
        },
    }
}

impl Plot {
    /// The lower end.
    pub fn bottom(&self) -> u32 {
        self.units.start + self.units.span
    }

    // The lines across at round numbers of units, with these numbers.
    fn put_units(&self, out: &mut String, count: u8) -> Result<(), AllocError> {
        let step = u64::from(round_step(self.units.most, count));
        let left = Pixels(self.calls.start);
        let right = Pixels(self.calls.start + self.calls.span);
        let end = Pixels(self.calls.start.saturating_sub(800));
        for k in 0..u64::from(count) + 1 {
            let value = k * step;
            if value <= u64::from(self.units.most) {
                let y = self.units.up(value);
                let line = Pixels(y);
                let base = Pixels(y + 500);
                let number = Grouped(value as u32);
                write!(out, "<path class='grid' d='M{left} {line}H{right}'/>")?;
                writeln!(
                    out,
                    "<text class='end' x='{end}' y='{base}'>{number}</text>"
                )?;
            }
        }
        Ok(())
    }

    // The marks below at round numbers of calls, with these numbers.
    fn put_calls(&self, out: &mut String, count: u8) -> Result<(), AllocError> {
        let step = u64::from(round_step(self.calls.most, count));
        let bottom = Pixels(self.bottom());
        let base = Pixels(self.bottom() + 2_600);
        for k in 0..u64::from(count) + 1 {
            let value = k * step;
            if value < u64::from(self.calls.most) {
                let x = Pixels(self.calls.right(value));
                let number = Grouped(value as u32);
                write!(out, "<path class='tick' d='M{x} {bottom}v10'/>")?;
                writeln!(
                    out,
                    "<text class='middle' x='{x}' y='{base}'>{number}</text>"
                )?;
            }
        }
        let end = Pixels(self.calls.start.saturating_sub(800));
        writeln!(out, "<text class='end' x='{end}' y='{base}'>call</text>")
    }

    /// The numbers on both axes: at most `lines` lines across and `marks` marks below, beside those at 0.
    pub fn put_axes(&self, out: &mut String, lines: u8, marks: u8) -> Result<(), AllocError> {
        self.put_units(out, lines)?;
        self.put_calls(out, marks)
    }
}
