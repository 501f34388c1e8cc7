// Printed by rust/erase from crates/offset_pictures/src/rectangles.rt: change it there.

//! The rectangles of lives, in a group for each age, whose class has the colour. It only appends text.

use crate::ages::AGES;
use crate::living::Life;
use crate::merging::merged_shapes;
use crate::numerals::{Piece, Pixels, prepend_pixels, put_piece};
use crate::plots::Plot;
use crate::shapes::{Shape, shape_of};
use crate::memory::String;
use crate::memory::Vec;
use crate::memory::{AllocError, Global};

// The most lives that are drawn with a title each.
const MOST_TITLES: usize = 20_000;

// About how many bytes a rectangle takes, and one with a title: the text gets room for all of them at once.
const RECTANGLE_BYTES: usize = 56;

const TITLED_BYTES: usize = 136;

// The smallest width and height that is drawn: 0.3 pixels.
const SMALLEST: u32 = 30;

// From this width and height on, a rectangle has an edge in the colour of the background: 3 pixels.
const EDGED: u32 = 300;

// A rectangle as it is drawn, thick enough to be seen, in hundredths of a pixel, from its upper left corner.
#[derive(Clone, Copy)]
pub struct Frame {
    x: u32,
    y: u32,
    width: u32,
    height: u32,
}

// A rectangle that is too thin to be seen becomes 0.3 pixels thick, to the right and upwards.
fn frame_of(shape: &Shape) -> Frame {
    let height = shape.height().max(SMALLEST);
    Frame {
        x: shape.left,
        y: shape.bottom.saturating_sub(height),
        width: shape.width().max(SMALLEST),
        height,
    }
}

impl Frame {
    // Whether it has an edge: it is at least 3 pixels wide and high.
    fn has_edge(&self) -> bool {
        self.width >= EDGED && self.height >= EDGED
    }
}

// Puts the beginning of a rectangle's element before the end of its tag.
fn put_shape(line: &mut Piece, shape: &Shape) {
    let frame = frame_of(shape);
    if frame.has_edge() {
        line.prepend(" class='edge'");
    }
    line.prepend("'");
    prepend_pixels(line, Pixels(frame.height));
    line.prepend("' height='");
    prepend_pixels(line, Pixels(frame.width));
    line.prepend("' width='");
    prepend_pixels(line, Pixels(frame.y));
    line.prepend("' y='");
    prepend_pixels(line, Pixels(frame.x));
    line.prepend("<rect x='");
}

// Appends the title of a life and the end of its element. `calls` is the number of all calls.
fn put_title(out: &mut String, life: &Life, calls: u32) -> Result<(), AllocError> {
    let last = life.last.saturating_add(1);
    let mut line = Piece::new();
    line.prepend("</title></rect>\n");
    if last > calls as usize {
        line.prepend("end");
    } else {
        line.prepend_number(last as u64);
    }
    line.prepend("-");
    line.prepend_number(life.first.saturating_add(1) as u64);
    line.prepend(", calls ");
    line.prepend_number(u64::from(life.size));
    line.prepend(", size ");
    line.prepend_number(u64::from(life.offset));
    line.prepend(", offset ");
    line.prepend_number(life.number);
    line.prepend("<title>grant ");
    put_piece(&line, out)
}

// The rectangles of lives, each as it is.
fn shapes_of(alloc: Global, plot: &Plot, lives: &[Life]) -> Result<Vec<Shape>, AllocError> {
    Vec::collect(alloc, lives.iter().map(|life| shape_of(plot, life)))
}

// The rectangles of the lives of an age, each with its title.
fn put_titled(
    out: &mut String,
    shapes: &[Shape],
    lives: &[Life],
    age: usize,
    calls: u32,
) -> Result<(), AllocError> {
    for (shape, life) in shapes.iter().zip(lives) {
        if shape.age == age {
            let mut line = Piece::new();
            line.prepend(">");
            put_shape(&mut line, shape);
            put_piece(&line, out)?;
            put_title(out, life, calls)?;
        }
    }
    Ok(())
}

// The rectangles of an age, without titles.
fn put_plain(out: &mut String, shapes: &[Shape], age: usize) -> Result<(), AllocError> {
    for shape in shapes {
        if shape.age == age {
            let mut line = Piece::new();
            line.prepend("/>\n");
            put_shape(&mut line, shape);
            put_piece(&line, out)?;
        }
    }
    Ok(())
}

/// Appends the rectangles of lives in groups by their age, the longest lives first. Of more than 20,000 lives
/// they have no titles, and tiny ones are merged: then it returns the number of rectangles.
pub fn put_rectangles(
    alloc: Global,
    out: &mut String,
    plot: &Plot,
    lives: &[Life],
    calls: u32,
) -> Result<Option<usize>, AllocError> {
    let is_merged = lives.len() > MOST_TITLES;
    let shapes = if is_merged {
        merged_shapes(alloc, plot, lives)?
    } else {
        shapes_of(alloc, plot, lives)?
    };
    let bytes = if is_merged {
        RECTANGLE_BYTES
    } else {
        TITLED_BYTES
    };
    // Room for all at once saves copies. Where it is refused, the text grows as it needs.
    let _has_room = out.reserve(shapes.len().saturating_mul(bytes)).is_ok();
    for age in (0..AGES.len()).rev() {
        let number = age + 1;
        writeln!(out, "<g class='age{number}'>")?;
        if is_merged {
            put_plain(out, &shapes, age)?;
        } else {
            put_titled(out, &shapes, lives, age, calls)?;
        }
        writeln!(out, "</g>")?;
    }
    Ok(is_merged.then_some(shapes.len()))
}
