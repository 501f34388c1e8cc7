// Printed by rust/erase from crates/offset_script/src/devices.rt: change it there.

//! Where a script comes from, and where its answers go: these alone touch readers and writers. No call that
//! failed is tried again.

use std::io::{Read, Write};

/// Bytes that come in pieces.
pub trait Source {
    /// Moves the first bytes of what is left to the beginning of `buf`, and returns their number. It is 0
    /// only at the end of the bytes, or for an empty `buf`. `None` is a failure, which takes nothing.
    fn pull(&mut self, buf: &mut [u8]) -> Option<usize>;
}

/// A receiver of bytes that come in pieces.
pub trait Sink {
    /// Appends the first bytes of `bytes`, at least one, and returns their number. `None` is a failure, which
    /// appends nothing.
    fn push(&mut self, bytes: &[u8]) -> Option<usize>;

    /// Passes on what was appended, and appends nothing itself. `false` is a failure.
    fn flush(&mut self) -> bool;
}

/// A reader as a source. Each call makes one read, and fails exactly where that read does.
pub struct FromRead<R: Read> {
    inner: R,
    failed: bool,
}

impl<R: Read> FromRead<R> {
    /// A source over a reader. It has not failed.
    ///
    /// ```
    /// # use offset_allocator::ByNode;
    /// # use offset_script::memory::Vec;
    /// # use offset_script::*;
    /// # let alloc = Global;
    /// let mut input = FromRead::new(&b"space 1000 nodes 16 index 32\n"[..]);
    /// assert!(read_script(alloc, &mut input)?.commands.is_empty());
    /// # Ok::<(), RunFault>(())
    /// ```
    pub fn new(inner: R) -> Self {
        FromRead {
            inner,
            failed: false,
        }
    }

    /// Returns the reader, as the reads have left it.
    ///
    /// ```
    /// # use offset_allocator::ByNode;
    /// # use offset_script::memory::Vec;
    /// # use offset_script::*;
    /// # let alloc = Global;
    /// let mut input = FromRead::new(&b"ab"[..]);
    /// assert_eq!(input.pull(&mut [0]), Some(1));
    /// assert_eq!(input.into_inner(), b"b");
    /// # Ok::<(), RunFault>(())
    /// ```
    pub fn into_inner(self) -> R {
        let FromRead { inner, failed: _ } = self;
        inner
    }
}

impl<R: Read> Source for FromRead<R> {
    fn pull(&mut self, buf: &mut [u8]) -> Option<usize> {
        match self.inner.read(buf) {
            Ok(n) => Some(n),
            Err(_) => {
                self.failed = true;
                None
            }
        }
    }
}

/// A writer as a sink. Each call makes one write or one flush, and fails exactly where that does. A write
/// that takes 0 bytes is a failure too. It is flushed from a flush that succeeds to the next call.
pub struct IntoWrite<W: Write> {
    inner: W,
    failed_push: bool,
    failed_flush: bool,
    flushed: bool,
}

impl<W: Write> IntoWrite<W> {
    /// A sink over a writer. It has not failed, and is not flushed.
    ///
    /// ```
    /// # use offset_allocator::ByNode;
    /// # use offset_script::memory::Vec;
    /// # use offset_script::*;
    /// # let alloc = Global;
    /// let mut output = IntoWrite::new(std::vec::Vec::new());
    /// assert!(send(&mut output, b"text"));
    /// # Ok::<(), RunFault>(())
    /// ```
    pub fn new(inner: W) -> Self {
        IntoWrite {
            inner,
            failed_push: false,
            failed_flush: false,
            flushed: false,
        }
    }

    /// Returns the writer, as the writes have left it.
    ///
    /// ```
    /// # use offset_allocator::ByNode;
    /// # use offset_script::memory::Vec;
    /// # use offset_script::*;
    /// # let alloc = Global;
    /// let mut output = IntoWrite::new(std::vec::Vec::new());
    /// assert!(send(&mut output, b"text"));
    /// assert_eq!(output.into_inner(), b"text");
    /// # Ok::<(), RunFault>(())
    /// ```
    pub fn into_inner(self) -> W {
        let IntoWrite {
            inner,
            failed_push: _,
            failed_flush: _,
            flushed: _,
        } = self;
        inner
    }
}

impl<W: Write> Sink for IntoWrite<W> {
    #[inline]
    #[track_caller]
    fn push(&mut self, bytes: &[u8]) -> Option<usize> {
        assert!(!bytes.is_empty(), "at least one byte must be pushed");
        self.flushed = false;
        match self.inner.write(bytes) {
            Ok(0) | Err(_) => {
                self.failed_push = true;
                None
            }
            Ok(n) => Some(n),
        }
    }

    fn flush(&mut self) -> bool {
        self.flushed = self.inner.flush().is_ok();
        self.failed_flush = self.failed_flush || !self.flushed;
        self.flushed
    }
}
