// Printed by rust/erase from crates/offset_pictures/src/titles.rt: change it there.

//! The title of a picture: its heading, how large that is, and its accessible name. XML gives some characters
//! a meaning of their own. It only appends text.

use crate::numerals::Pixels;
use crate::memory::String;
use crate::memory::AllocError;

// Whether a character is shown: it is no character below the space, and neither U+FFFE nor U+FFFF, which XML
// 1.0 forbids.
fn is_shown(c: char) -> bool {
    c >= ' ' && c != '\u{FFFE}' && c != '\u{FFFF}'
}

// Appends one character.
fn put_char(out: &mut String, c: char) -> Result<(), AllocError> {
    match c {
        '&' => out.push_str("&amp;"),
        '<' => out.push_str("&lt;"),
        '>' => out.push_str("&gt;"),
        _ if is_shown(c) => out.push(c),
        _ => out.push(' '),
    }
}

/// Appends a text as XML, in which `&`, `<` and `>` are escaped, and a space is in place of each character
/// that XML 1.0 forbids, and of each line end and tab.
pub fn put_escaped(out: &mut String, text: &str) -> Result<(), AllocError> {
    for c in text.chars() {
        put_char(out, c)?;
    }
    Ok(())
}

// How many quarters of its height fit the width: of a heading in 18 pixels, and of one in a hundredth of a
// pixel.
const MOST_LARGE: usize = 256;

const WIDTH: usize = 460_800;

// How wide a character is at most, in quarters of its height.
fn width_of(c: char) -> usize {
    if c < '\u{1100}' { 3 } else { 5 }
}

// How wide a text is at most, in quarters of its height.
fn quarters(text: &str) -> usize {
    let mut width = 0usize;
    for c in text.chars() {
        width = width.saturating_add(width_of(c));
    }
    width
}

// Appends the size of a heading of this width, where it is not that of all headings.
fn put_size(out: &mut String, width: usize) -> Result<(), AllocError> {
    if width <= MOST_LARGE {
        return Ok(());
    }
    let size = Pixels((WIDTH / width) as u32);
    write!(out, " style='font-size:{size}px'")
}

/// Appends a title as the heading that is shown. A long one is smaller, so that all of it fits the picture:
/// letters are up to three quarters as wide as they are high, and other characters up to five.
pub fn put_heading(out: &mut String, title: &str) -> Result<(), AllocError> {
    write!(out, "<text class='big' x='24' y='28'")?;
    put_size(out, quarters(title))?;
    write!(out, ">")?;
    put_escaped(out, title)?;
    writeln!(out, "</text>")
}
