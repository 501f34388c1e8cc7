//! Size classes, for users.

use offset_allocator_proved::ext::min_allocator_size as proved;

// the largest class value that 32 bits hold
const LARGEST: u32 = 4_026_531_840;

/// Returns the smallest size of a fresh space that grants an object of this size, or 0 above 4,026,531,840 units, where
/// no space does.
pub fn min_allocator_size(needed_object_size: u32) -> u32 {
    if needed_object_size > LARGEST {
        return 0;
    }
    proved(needed_object_size)
}
