//! A list, over that of `alloc`.

use crate::{AllocError, Global};
use core::ops::{Deref, DerefMut, Index, IndexMut};
use core::slice::SliceIndex;

/// A table, or a list of values. It is read as a slice, and goes to std's and comes from it without a copy.
///
/// ```
/// use offset_allocator_memory::{AllocError, Global, Vec};
///
/// let bytes = Vec::collect(Global, [1, 2, 3].into_iter())?;
/// assert_eq!(bytes.as_slice(), [1, 2, 3]);
/// assert_eq!(AsRef::<[u8]>::as_ref(&bytes), [1, 2, 3]);
/// assert_eq!(std::vec::Vec::from(bytes), [1, 2, 3]);
/// # Ok::<(), AllocError>(())
/// ```
#[derive(Debug)]
pub struct Vec<T>(alloc::vec::Vec<T>);

impl<T> Vec<T> {
    /// Makes an empty list. It takes no memory.
    pub fn new(_: Global) -> Self {
        Vec(alloc::vec::Vec::new())
    }

    /// Makes an empty list with room for exactly `capacity` values.
    pub fn with_capacity(_: Global, capacity: usize) -> Result<Self, AllocError> {
        let mut values = alloc::vec::Vec::new();
        values.try_reserve_exact(capacity).map_err(|_| AllocError)?;
        // an optimizer may remove a request whose memory is freed unused, and with it the failure
        Ok(Vec(core::hint::black_box(values)))
    }

    /// Makes a list of these values.
    pub fn collect(alloc: Global, values: impl Iterator<Item = T>) -> Result<Self, AllocError> {
        let mut found = Vec::with_capacity(alloc, values.size_hint().0)?;
        for value in values {
            found.push(value)?;
        }
        Ok(found)
    }

    /// Makes room for more values.
    pub fn reserve(&mut self, more: usize) -> Result<(), AllocError> {
        self.0.try_reserve(more).map_err(|_| AllocError)
    }

    /// Makes room for more values, and for no others.
    pub fn reserve_exact(&mut self, more: usize) -> Result<(), AllocError> {
        self.0.try_reserve_exact(more).map_err(|_| AllocError)
    }

    /// Adds a value at the end.
    pub fn push(&mut self, value: T) -> Result<(), AllocError> {
        if self.0.len() == self.0.capacity() {
            self.0.try_reserve(1).map_err(|_| AllocError)?;
        }
        self.0.push(value);
        Ok(())
    }

    /// Adds a value at the end of a list that has room for it. Its memory stays.
    #[inline(always)]
    pub fn push_reserved(&mut self, value: T) {
        if self.0.len() == self.0.capacity() {
            outside();
        }
        self.0.push(value);
    }

    /// Inserts a value into a list that has room for it, and else returns an error. Its memory stays.
    #[inline]
    pub fn insert(&mut self, place: usize, value: T) -> Result<(), AllocError> {
        if self.0.len() == self.0.capacity() {
            return Err(AllocError);
        }
        self.0.insert(place, value);
        Ok(())
    }

    /// Adds copies of some values at the end.
    pub fn extend_from_slice(&mut self, values: &[T]) -> Result<(), AllocError>
    where
        T: Clone,
    {
        self.0.try_reserve(values.len()).map_err(|_| AllocError)?;
        self.0.extend_from_slice(values);
        Ok(())
    }

    /// Makes it as long as that, by copies of a value where it is shorter.
    pub fn resize(&mut self, count: usize, value: T) -> Result<(), AllocError>
    where
        T: Clone,
    {
        self.0.try_reserve(count.saturating_sub(self.0.len())).map_err(|_| AllocError)?;
        self.0.resize(count, value);
        Ok(())
    }

    /// The values.
    pub fn as_slice(&self) -> &[T] {
        &self.0
    }

    /// Removes all values, and keeps the memory.
    pub fn clear(&mut self) {
        self.0.clear();
    }
}

impl Vec<u64> {
    /// Sorts the numbers, the smallest first. It takes no memory here.
    pub fn sort(&mut self) -> Result<(), AllocError> {
        self.0.sort_unstable();
        Ok(())
    }
}

impl<T> From<Vec<T>> for alloc::vec::Vec<T> {
    fn from(values: Vec<T>) -> Self {
        values.0
    }
}

impl<T> From<alloc::vec::Vec<T>> for Vec<T> {
    fn from(values: alloc::vec::Vec<T>) -> Self {
        Vec(values)
    }
}

// The panic of an index outside the table. Its message has no number, so that the test of an index is one comparison
// and a jump. No call reaches it: it is proved that each index is in its table.
#[cold]
#[inline(never)]
fn outside() -> ! {
    panic!("a place outside of a table")
}

impl<T, I: SliceIndex<[T]>> Index<I> for Vec<T> {
    type Output = I::Output;

    #[inline(always)]
    fn index(&self, place: I) -> &I::Output {
        match self.0.get(place) {
            Some(value) => value,
            None => outside(),
        }
    }
}

impl<T, I: SliceIndex<[T]>> IndexMut<I> for Vec<T> {
    #[inline(always)]
    fn index_mut(&mut self, place: I) -> &mut I::Output {
        match self.0.get_mut(place) {
            Some(value) => value,
            None => outside(),
        }
    }
}

impl<T> AsRef<[T]> for Vec<T> {
    fn as_ref(&self) -> &[T] {
        &self.0
    }
}

impl<T> Deref for Vec<T> {
    type Target = [T];

    #[inline]
    fn deref(&self) -> &[T] {
        &self.0
    }
}

impl<T> DerefMut for Vec<T> {
    #[inline]
    fn deref_mut(&mut self) -> &mut [T] {
        &mut self.0
    }
}

impl<'a, T> IntoIterator for &'a Vec<T> {
    type Item = &'a T;
    type IntoIter = core::slice::Iter<'a, T>;

    fn into_iter(self) -> Self::IntoIter {
        self.0.iter()
    }
}
