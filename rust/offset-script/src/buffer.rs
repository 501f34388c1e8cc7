// Printed by rust/erase from crates/offset_script/src/buffer.rt: change it there.

//! A short text, put together from its end, so that its numbers need no room of their own. It touches only
//! itself.

use std::str;

/// The end of a text of at most `ROOM` bytes, seen as its bytes. It takes no memory of the allocator.
pub struct TextBuffer<const ROOM: usize> {
    room: [u8; ROOM],
    start: usize,
}

// Writes the digits of a number before the byte `end`, and returns where they begin.
fn prepend_digits<const ROOM: usize>(room: &mut [u8; ROOM], end: usize, n: u64) -> usize {
    let mut rest = n;
    let mut at = end - 1;
    while rest >= 10 {
        room[at] = b'0' + (rest % 10) as u8;
        rest /= 10;
        at -= 1;
    }
    room[at] = b'0' + rest as u8;
    at
}

impl<const ROOM: usize> TextBuffer<ROOM> {
    /// An end of no bytes.
    ///
    /// ```
    /// # use offset_allocator::ByNode;
    /// # use offset_script::memory::Vec;
    /// # use offset_script::*;
    /// # let alloc = Global;
    /// let line = TextBuffer::<80>::new();
    /// assert_eq!(line.text(), "");
    /// # Ok::<(), RunFault>(())
    /// ```
    #[inline(always)]
    pub fn new() -> Self {
        TextBuffer {
            room: [0; ROOM],
            start: ROOM,
        }
    }

    /// Puts a text before it.
    ///
    /// ```
    /// # use offset_allocator::ByNode;
    /// # use offset_script::memory::Vec;
    /// # use offset_script::*;
    /// # let alloc = Global;
    /// let mut line = TextBuffer::<80>::new();
    /// line.prepend("units");
    /// line.prepend("300 ");
    /// assert_eq!(line.text(), "300 units");
    /// # Ok::<(), RunFault>(())
    /// ```
    #[inline(always)]
    pub fn prepend(&mut self, text: &str) {
        let end = self.start;
        let start = end - text.len();
        let room = &mut self.room[..];
        room[start..end].copy_from_slice(text.as_bytes());
        self.start = start;
    }

    /// Puts one digit before it.
    ///
    /// # Panics
    ///
    /// It panics unless a digit is below 10.
    ///
    /// ```
    /// # use offset_allocator::ByNode;
    /// # use offset_script::memory::Vec;
    /// # use offset_script::*;
    /// # let alloc = Global;
    /// let mut line = TextBuffer::<80>::new();
    /// line.prepend_digit(7);
    /// assert_eq!(line.text(), "7");
    /// # Ok::<(), RunFault>(())
    /// ```
    #[inline(always)]
    #[track_caller]
    pub fn prepend_digit(&mut self, n: u32) {
        assert!(n < 10, "a digit must be below 10");
        let start = self.start - 1;
        self.room[start] = b'0' + n as u8;
        self.start = start;
    }

    /// Puts the digits of a number before it, without leading zeros: at most 20.
    ///
    /// ```
    /// # use offset_allocator::ByNode;
    /// # use offset_script::memory::Vec;
    /// # use offset_script::*;
    /// # let alloc = Global;
    /// let mut line = TextBuffer::<80>::new();
    /// line.prepend_number(300);
    /// assert_eq!(line.text(), "300");
    /// # Ok::<(), RunFault>(())
    /// ```
    pub fn prepend_number(&mut self, n: u64) {
        self.start = prepend_digits(&mut self.room, self.start, n);
    }

    /// Returns its bytes, which are text.
    ///
    /// ```
    /// # use offset_allocator::ByNode;
    /// # use offset_script::memory::Vec;
    /// # use offset_script::*;
    /// # let alloc = Global;
    /// let mut line = TextBuffer::<80>::new();
    /// line.prepend("none");
    /// assert_eq!(line.bytes(), b"none");
    /// # Ok::<(), RunFault>(())
    /// ```
    #[inline(always)]
    pub fn bytes(&self) -> &[u8] {
        let room = &self.room[..];
        &room[self.start..]
    }

    /// Returns it as text.
    ///
    /// ```
    /// # use offset_allocator::ByNode;
    /// # use offset_script::memory::Vec;
    /// # use offset_script::*;
    /// # let alloc = Global;
    /// let mut line = TextBuffer::<80>::new();
    /// line.prepend("none");
    /// assert_eq!(line.text(), "none");
    /// # Ok::<(), RunFault>(())
    /// ```
    pub fn text(&self) -> &str {
        match str::from_utf8(self.bytes()) {
            Ok(text) => text,
            // Its bytes are always text.
            Err(_) => "",
        }
    }
}
