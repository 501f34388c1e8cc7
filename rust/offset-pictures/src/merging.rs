// Printed by rust/erase from crates/offset_pictures/src/merging.rt: change it there.

//! Merges the rectangles of many lives. It only computes.

use crate::axes::TENTH;
use crate::living::Life;
use crate::plots::Plot;
use crate::shapes::{Shape, shape_of};
use crate::memory::Vec;
use crate::memory::{AllocError, Global};

// Whether a rectangle is thinner than a tenth of a pixel.
fn is_tiny(shape: &Shape) -> bool {
    shape.width() < TENTH || shape.height() < TENTH
}

// The rectangle with its edges at whole tenths of a pixel around it.
fn round_out(shape: &Shape) -> Shape {
    Shape {
        top: shape.top / TENTH * TENTH,
        bottom: shape.bottom.div_ceil(TENTH) * TENTH,
        age: shape.age,
        left: shape.left / TENTH * TENTH,
        right: shape.right.div_ceil(TENTH) * TENTH,
    }
}

// A rectangle with its edges at whole tenths of a pixel, as a number. The numbers of two rectangles have
// their order.
fn key_of(shape: &Shape) -> u64 {
    let top = u64::from(shape.top / TENTH);
    let bottom = u64::from(shape.bottom / TENTH);
    let left = u64::from(shape.left / TENTH);
    let right = u64::from(shape.right / TENTH);
    (((top * 16_384 + bottom) * 8 + shape.age as u64) * 16_384 + left) * 16_384 + right
}

// The rectangle of a number.
fn shape_of_key(key: u64) -> Shape {
    Shape {
        top: (key / 35_184_372_088_832) as u32 * TENTH,
        bottom: (key / 2_147_483_648 % 16_384) as u32 * TENTH,
        age: (key / 268_435_456 % 8) as usize,
        left: (key / 16_384 % 16_384) as u32 * TENTH,
        right: (key % 16_384) as u32 * TENTH,
    }
}

// Whether two rectangles of one row touch or overlap. A row is what lies between an upper and a lower edge in
// the colour of an age.
fn touch(before: &Shape, shape: &Shape) -> bool {
    before.top == shape.top
        && before.bottom == shape.bottom
        && before.age == shape.age
        && shape.left <= before.right
        && before.left <= shape.right
}

// Two rectangles that touch, as one.
fn join(before: Shape, shape: &Shape) -> Shape {
    Shape {
        left: shape.left.min(before.left),
        right: shape.right.max(before.right),
        ..before
    }
}

/// The rectangles of lives. Those thinner than a tenth of a pixel are rounded to whole tenths, and then those
/// of one row that touch are merged.
pub fn merged_shapes(alloc: Global, plot: &Plot, lives: &[Life]) -> Result<Vec<Shape>, AllocError> {
    let mut found = Vec::new(alloc);
    let mut tiny: Vec<u64> = Vec::new(alloc);
    for life in lives {
        let shape = shape_of(plot, life);
        if is_tiny(&shape) {
            tiny.push(key_of(&round_out(&shape)))?;
        } else {
            found.push(shape)?;
        }
    }
    tiny.sort()?;
    let mut last: Option<Shape> = None;
    for key in &tiny {
        let shape = shape_of_key(*key);
        match last {
            Some(before) if touch(&before, &shape) => last = Some(join(before, &shape)),
            Some(before) => {
                found.push(before)?;
                last = Some(shape);
            }
            None => last = Some(shape),
        }
    }
    if let Some(before) = last {
        found.push(before)?;
    }
    Ok(found)
}
