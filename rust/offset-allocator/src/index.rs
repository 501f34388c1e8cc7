//! The index types of the original, as index types of the proved library.

use core::fmt::{self, Debug, Display};

use offset_allocator_proved as proved;

/// The type of the links between nodes, which bounds the number of allocations.
///
/// The two types here, `u32` and `u16`, are lawful. Your own type has to keep every number up to `MAX` through
/// `from_u32` and `to_usize`, and its `NonMax` every number except `MAX`.
pub trait NodeIndex: Clone + Copy + Default {
    /// The numbers of this type except the largest.
    type NonMax: NodeIndexNonMax + TryFrom<Self> + Into<Self>;

    /// The largest number.
    const MAX: u32;

    /// Returns the value of a number. A number above `MAX` loses bits.
    fn from_u32(val: u32) -> Self;

    /// The number, as an index.
    fn to_usize(self) -> usize;
}

/// The numbers of a [`NodeIndex`] except the largest.
pub trait NodeIndexNonMax: Clone + Copy + PartialEq + Default + Debug + Display {
    /// The number, as an index.
    fn to_usize(self) -> usize;
}

/// An index type of the proved library.
#[derive(Clone, Copy, Default)]
pub struct Index<NI>(NI);

/// A name of the proved library.
#[derive(Clone, Copy, Default, PartialEq)]
pub struct Name<N>(N);

impl<N: Debug> Debug for Name<N> {
    fn fmt(&self, f: &mut fmt::Formatter<'_>) -> fmt::Result {
        Debug::fmt(&self.0, f)
    }
}

impl<N: Display> Display for Name<N> {
    fn fmt(&self, f: &mut fmt::Formatter<'_>) -> fmt::Result {
        Display::fmt(&self.0, f)
    }
}

impl<N: NodeIndexNonMax> proved::NodeIndexNonMax for Name<N> {
    #[inline]
    fn to_usize(self) -> usize {
        self.0.to_usize()
    }
}

impl<NI: NodeIndex> proved::NodeIndex for Index<NI> {
    type NonMax = Name<NI::NonMax>;

    const MAX: u32 = NI::MAX;

    #[inline]
    fn from_u32(val: u32) -> Self {
        Index(NI::from_u32(val))
    }

    #[inline]
    fn to_usize(self) -> usize {
        self.0.to_usize()
    }

    #[inline]
    fn to_nonmax(self) -> Option<Self::NonMax> {
        NI::NonMax::try_from(self.0).ok().map(Name)
    }

    #[inline]
    fn of_nonmax(n: Self::NonMax) -> Self {
        Index(n.0.into())
    }
}

macro_rules! index { ($int:ident, $nonmax:ident) => {
    impl NodeIndexNonMax for proved::$nonmax {
        #[inline]
        fn to_usize(self) -> usize {
            self.get() as usize
        }
    }

    impl NodeIndex for $int {
        type NonMax = proved::$nonmax;

        const MAX: u32 = $int::MAX as u32;

        #[inline]
        fn from_u32(val: u32) -> Self {
            val as $int
        }

        #[inline]
        fn to_usize(self) -> usize {
            self as usize
        }
    }
} }

index!(u32, NonMaxU32);
index!(u16, NonMaxU16);
