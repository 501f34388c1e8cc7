// Printed by rust/erase from crates/offset_pictures/src/legend.rt: change it there.

//! The legend above the plots, and the notes below them. It only appends text.

use crate::ages::AGES;
use crate::figures::{Figures, counted};
use crate::numerals::{Grouped, Pixels, share_of};
use crate::plots::{LEFT, REPORTS_TOP, WIDTH};
use crate::memory::String;
use crate::memory::AllocError;

// The ending of a word after a number.
fn plural(count: u32) -> &'static str {
    if count == 1 { "" } else { "s" }
}

// The calls, the space, and the node limit.
fn put_size(out: &mut String, figures: &Figures, max_allocs: u32) -> Result<(), AllocError> {
    let calls = Grouped(figures.calls);
    let s = plural(figures.calls);
    let size = Grouped(figures.first_size);
    let nodes = Grouped(max_allocs);
    write!(
        out,
        "<text class='figures' x='24' y='49'>{calls} call{s} on a space of {size} units"
    )?;
    if figures.largest_size > figures.first_size {
        let largest = Grouped(figures.largest_size);
        write!(out, ", extended to {largest}")?;
    }
    writeln!(out, ", with {nodes} nodes</text>")
}

// Grants and refusals, and what was used.
fn put_use(out: &mut String, figures: &Figures) -> Result<(), AllocError> {
    let grants = Grouped(figures.grants);
    let s = plural(figures.grants);
    let refusals = Grouped(figures.refusals);
    let ends = plural(figures.refusals);
    let live = Grouped(figures.most_live);
    write!(
        out,
        "<text class='figures' x='24' y='69'>{grants} grant{s}, {refusals} refusal{ends}; at most {live} live at once. "
    )?;
    let used = Grouped(figures.most_used);
    let size = Grouped(figures.size_then);
    let share = share_of(figures.most_used, figures.size_then);
    writeln!(
        out,
        "Most in use: {used} of {size} units, {share} percent.</text>"
    )
}

// The largest free region when it was the smallest.
fn put_worst(out: &mut String, figures: &Figures) -> Result<(), AllocError> {
    let region = Grouped(figures.worst_region);
    let free = Grouped(figures.worst_free);
    let worst = Grouped(figures.worst);
    let s = plural(figures.worst);
    write!(
        out,
        "<text class='figures' x='24' y='89'>Largest free region at the worst moment: {region} units, "
    )?;
    writeln!(out, "of {free} free, after {worst} call{s}.</text>")
}

// The colour of an age, counted from 0, and what it means.
fn put_age(out: &mut String, age: u32, name: &str) -> Result<(), AllocError> {
    let left = Pixels(LEFT + age * 11_500);
    let text = Pixels(LEFT + age * 11_500 + 2_200);
    let number = age + 1;
    write!(
        out,
        "<path class='age{number}' d='M{left} 101h16v14h-16z'/>"
    )?;
    writeln!(out, "<text x='{text}' y='113'>{name}</text>")
}

// The colours of the ages, and the mark of a refusal.
fn put_ages(out: &mut String) -> Result<(), AllocError> {
    writeln!(out, "<text class='end' x='112' y='113'>live for</text>")?;
    put_age(out, 0, AGES[0])?;
    put_age(out, 1, AGES[1])?;
    put_age(out, 2, AGES[2])?;
    put_age(out, 3, AGES[3])?;
    put_age(out, 4, AGES[4])?;
    put_age(out, 5, AGES[5])?;
    put_age(out, 6, AGES[6])?;
    put_age(out, 7, AGES[7])?;
    write!(out, "<path class='refusal' d='M1048 102v12'/>")?;
    writeln!(out, "<text x='1062' y='113'>refusal</text>")
}

// Why a report may be 0, if one is: at the node limit.
fn put_full(out: &mut String, figures: &Figures) -> Result<(), AllocError> {
    if figures.full_states == 0 {
        return Ok(());
    }
    let right = Pixels(LEFT + WIDTH);
    let base = Pixels(REPORTS_TOP - 1_000);
    let states = Grouped(figures.full_states);
    let s = plural(figures.full_states);
    write!(
        out,
        "<text class='end' x='{right}' y='{base}'>At the node limit, {states} time{s}, "
    )?;
    writeln!(out, "0 units are reported as free.</text>")
}

// What the colours of the reports mean, in two rows, and why a report may be 0.
fn put_colours(out: &mut String, figures: &Figures) -> Result<(), AllocError> {
    let top = Pixels(REPORTS_TOP - 4_500);
    let base = Pixels(REPORTS_TOP - 3_200);
    write!(out, "<path class='free' d='M120 {top}h16v14h-16z'/>")?;
    writeln!(out, "<text x='142' y='{base}'>free units</text>")?;
    write!(out, "<path class='joined' d='M235 {top}h16v14h-16z'/>")?;
    write!(
        out,
        "<text x='257' y='{base}'>largest free region, if they were one block "
    )?;
    writeln!(
        out,
        "(the gap to the free units: rounding to a size class)</text>"
    )?;
    let top = Pixels(REPORTS_TOP - 2_300);
    let base = Pixels(REPORTS_TOP - 1_000);
    write!(out, "<path class='most' d='M120 {top}h16v14h-16z'/>")?;
    writeln!(
        out,
        "<text x='142' y='{base}'>largest free region (the gap to that of one block: fragmentation)</text>"
    )?;
    put_full(out, figures)
}

// Where the space ends. The plot of the ranges ends at the unit `end`.
fn put_end(out: &mut String, figures: &Figures, end: u32) -> Result<(), AllocError> {
    writeln!(out, "<text class='end' x='112' y='139'>unit</text>")?;
    if figures.first_size < end {
        write!(out, "<path class='out' d='M120 127h16v14h-16z'/>")?;
        writeln!(out, "<text x='142' y='139'>not in the space yet</text>")?;
    }
    let right = Pixels(LEFT + WIDTH);
    let size = Grouped(figures.largest_size);
    writeln!(
        out,
        "<text class='end' x='{right}' y='139'>the space ends at {size}</text>"
    )
}

/// The legend: the text below the heading, and what the colours of the plots mean. The plot of the ranges
/// ends at the unit `end`.
pub fn put_legend(
    out: &mut String,
    figures: &Figures,
    max_allocs: u32,
    end: u32,
) -> Result<(), AllocError> {
    put_size(out, figures, max_allocs)?;
    put_use(out, figures)?;
    put_worst(out, figures)?;
    put_ages(out)?;
    put_end(out, figures, end)?;
    put_colours(out, figures)
}

/// The line below the plots: what was drawn larger to be seen, and where rectangles are merged, how many
/// they are.
pub fn put_notes(out: &mut String, merged: Option<usize>) -> Result<(), AllocError> {
    write!(
        out,
        "<text x='24' y='828'>Ranges thinner than 0.3 pixels are drawn 0.3 pixels thick."
    )?;
    if let Some(count) = merged {
        let count = Grouped(counted(count));
        write!(
            out,
            " No titles, and those below 0.1 pixels are merged into their neighbours: {count} rectangles."
        )?;
    }
    writeln!(out, "</text>")
}
