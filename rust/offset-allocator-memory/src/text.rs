//! A text, over that of `alloc`.

use crate::{AllocError, Global};
use core::fmt::{self, Write};
use core::ops::Deref;

/// A text. It is shown, compared and borrowed as a `str`, and goes to std's without a copy.
///
/// ```
/// use offset_allocator_memory::{AllocError, Global, String};
///
/// let text = String::from_str(Global, "mesh")?;
/// assert_eq!(format!("{text}: {}", text.as_str()), "mesh: mesh");
/// assert!(text == "mesh" && text == *"mesh" && text != "meshes");
/// assert_eq!(format!("{text:>6}"), "  mesh");
/// assert_eq!(AsRef::<str>::as_ref(&text), "mesh");
/// assert_eq!(std::string::String::from(text), "mesh");
/// # Ok::<(), AllocError>(())
/// ```
#[derive(Debug, PartialEq, Eq)]
pub struct String(alloc::string::String);

// It fails only where the text cannot grow.
struct Pieces<'a>(&'a mut alloc::string::String);

impl fmt::Write for Pieces<'_> {
    fn write_str(&mut self, piece: &str) -> fmt::Result {
        self.0.try_reserve(piece.len()).map_err(|_| fmt::Error)?;
        self.0.push_str(piece);
        Ok(())
    }
}

impl String {
    /// Makes an empty text. It takes no memory.
    pub fn new(_: Global) -> Self {
        String(alloc::string::String::new())
    }

    /// Makes a copy of a text.
    pub fn from_str(alloc: Global, text: &str) -> Result<Self, AllocError> {
        let mut found = String::new(alloc);
        found.push_str(text)?;
        Ok(found)
    }

    /// Makes room for more bytes.
    pub fn reserve(&mut self, more: usize) -> Result<(), AllocError> {
        self.0.try_reserve(more).map_err(|_| AllocError)
    }

    /// Appends a text.
    pub fn push_str(&mut self, text: &str) -> Result<(), AllocError> {
        self.reserve(text.len())?;
        self.0.push_str(text);
        Ok(())
    }

    /// Appends a character.
    pub fn push(&mut self, c: char) -> Result<(), AllocError> {
        self.reserve(c.len_utf8())?;
        self.0.push(c);
        Ok(())
    }

    /// The text.
    pub fn as_str(&self) -> &str {
        &self.0
    }

    /// Appends formatted pieces, for `write!`.
    pub fn write_fmt(&mut self, pieces: fmt::Arguments<'_>) -> Result<(), AllocError> {
        Pieces(&mut self.0).write_fmt(pieces).map_err(|_| AllocError)
    }
}

impl fmt::Display for String {
    fn fmt(&self, f: &mut fmt::Formatter<'_>) -> fmt::Result {
        f.pad(&self.0)
    }
}

impl AsRef<str> for String {
    fn as_ref(&self) -> &str {
        &self.0
    }
}

impl PartialEq<str> for String {
    fn eq(&self, other: &str) -> bool {
        self.0 == other
    }
}

impl PartialEq<&str> for String {
    fn eq(&self, other: &&str) -> bool {
        self.0 == *other
    }
}

impl Deref for String {
    type Target = str;

    fn deref(&self) -> &str {
        &self.0
    }
}

impl From<String> for alloc::string::String {
    fn from(text: String) -> Self {
        text.0
    }
}
