// Printed by rust/erase from crates/offset_pictures/src/numerals.rt: change it there.

//! Numbers as the picture writes them. It only adds text: after what is there, or before it in a `Piece`.

use offset_script::TextBuffer;
use crate::memory::String;
use crate::memory::AllocError;
use core::fmt;

/// A piece of a picture's text, put together from its end: a title of five numbers fits, and so does a
/// rectangle.
pub type Piece = TextBuffer<160>;

/// Appends a piece to a text.
pub fn put_piece(piece: &Piece, out: &mut String) -> Result<(), AllocError> {
    out.push_str(piece.text())
}

/// A length in hundredths of a pixel, written in pixels: 1250 is 12.5.
#[derive(Clone, Copy, PartialEq, Debug)]
pub struct Pixels(pub u32);

/// Puts a length in pixels before a text: at most 23 bytes.
pub fn prepend_pixels<const ROOM: usize>(text: &mut TextBuffer<ROOM>, pixels: Pixels) {
    let hundredths = pixels.0 % 10;
    let tenths = pixels.0 / 10 % 10;
    if pixels.0 % 100 != 0 {
        if hundredths != 0 {
            text.prepend_digit(hundredths);
        }
        text.prepend_digit(tenths);
        text.prepend(".");
    }
    text.prepend_number(u64::from(pixels.0 / 100));
}

impl fmt::Display for Pixels {
    fn fmt(&self, f: &mut fmt::Formatter<'_>) -> fmt::Result {
        let mut text: TextBuffer<23> = TextBuffer::new();
        prepend_pixels(&mut text, *self);
        f.write_str(text.text())
    }
}

/// A number with its digits in groups of three: 61,278,048.
#[derive(Clone, Copy, PartialEq, Debug)]
pub struct Grouped(pub u32);

// The last three digits of a number, with zeros in front.
#[derive(Clone, Copy)]
struct Three(u32);

impl fmt::Display for Three {
    fn fmt(&self, f: &mut fmt::Formatter<'_>) -> fmt::Result {
        let hundreds = self.0 / 100 % 10;
        let tens = self.0 / 10 % 10;
        let ones = self.0 % 10;
        write!(f, "{hundreds}{tens}{ones}")
    }
}

impl fmt::Display for Grouped {
    fn fmt(&self, f: &mut fmt::Formatter<'_>) -> fmt::Result {
        let number = self.0;
        let thousands = self.0 / 1000;
        let millions = self.0 / 1_000_000;
        let billions = self.0 / 1_000_000_000;
        let below_thousand = Three(number);
        let below_million = Three(thousands);
        let below_billion = Three(millions);
        if billions > 0 {
            write!(
                f,
                "{billions},{below_billion},{below_million},{below_thousand}"
            )
        } else if millions > 0 {
            write!(f, "{millions},{below_million},{below_thousand}")
        } else if thousands > 0 {
            write!(f, "{thousands},{below_thousand}")
        } else {
            write!(f, "{number}")
        }
    }
}

/// A share in tenths of a percent, written in percent with one decimal: 957 is 95.7.
#[derive(Clone, Copy, PartialEq, Debug)]
pub struct Share(pub u64);

/// The share of a space that is used, rounded down. Of a space of no units it is that of a space of one.
pub fn share_of(used: u32, size: u32) -> Share {
    Share(u64::from(used) * 1000 / u64::from(size.max(1)))
}

impl fmt::Display for Share {
    fn fmt(&self, f: &mut fmt::Formatter<'_>) -> fmt::Result {
        let percent = self.0 / 10;
        let tenth = self.0 % 10;
        write!(f, "{percent}.{tenth}")
    }
}
