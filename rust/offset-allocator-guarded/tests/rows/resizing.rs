//! Ranges that shrink and grow in place.

use super::steps::Limit::Limited;
use super::steps::Step::{Counts, Frees, Grants, Grows, Is, Lives, Reports, Shrinks};
use super::steps::{expect_all, Case};

const RESIZED: [Case; 12] = [
    // Between two used blocks, what is given back becomes a new block.
    Case {
        name: "a shrink leaves a free block after it",
        size: 64,
        limit: Limited(8),
        steps: &[
            Grants(20, 0),
            Grants(10, 20),
            Shrinks(0, 12, true),
            Is(64, 4, false),
            Reports(42, 32),
            Counts(&[(8, 8, 1), (24, 32, 1)]),
            Lives(1, 10),
            Grants(8, 12),
            Reports(34, 32),
        ],
    },
    Case {
        name: "a shrink coalesces with the free block after it",
        size: 20,
        limit: Limited(4),
        steps: &[
            Grants(12, 0),
            Shrinks(0, 5, true),
            Is(20, 2, false),
            Counts(&[(15, 15, 1)]),
            Grants(15, 5),
        ],
    },
    // With at most two blocks, the free block is given the units, though no further block may exist.
    Case {
        name: "a range shrinks at the block limit before a free block",
        size: 20,
        limit: Limited(3),
        steps: &[
            Grants(12, 0),
            Is(20, 2, true),
            Shrinks(0, 5, true),
            Is(20, 2, true),
            Counts(&[(15, 15, 1)]),
            Grows(0, 20, true),
            Is(20, 1, false),
            Reports(0, 0),
            Shrinks(0, 19, true),
            Is(20, 2, true),
            Counts(&[(1, 1, 1)]),
        ],
    },
    Case {
        name: "a range does not shrink at the block limit before a used block",
        size: 20,
        limit: Limited(4),
        steps: &[
            Grants(12, 0),
            Grants(3, 12),
            Is(20, 3, true),
            Shrinks(0, 5, false),
            Shrinks(0, 12, true),
            Shrinks(1, 1, true),
            Is(20, 3, true),
            Counts(&[(7, 7, 1)]),
        ],
    },
    // No block of 0 units is left.
    Case {
        name: "a range grows by an exact fit",
        size: 20,
        limit: Limited(4),
        steps: &[
            Grants(12, 0),
            Grants(3, 12),
            Grows(1, 8, true),
            Is(20, 2, false),
            Counts(&[]),
            Shrinks(0, 5, true),
            Grows(0, 12, true),
            Is(20, 2, false),
            Counts(&[]),
            Frees(1),
            Counts(&[(8, 8, 1)]),
        ],
    },
    Case {
        name: "a range grows only by the free block after it",
        size: 40,
        limit: Limited(8),
        steps: &[
            Grants(12, 0),
            Grants(3, 12),
            Grows(0, 13, false),
            Grows(0, 12, true),
            Shrinks(0, 5, true),
            Grows(0, 13, false),
            Is(40, 4, false),
            Grows(0, 11, true),
            Counts(&[(1, 1, 1), (20, 24, 1)]),
            Reports(26, 24),
            Grows(1, 10, true),
            Counts(&[(1, 1, 1), (17, 18, 1)]),
            Lives(0, 11),
        ],
    },
    Case {
        name: "sizes on the wrong side are refused",
        size: 20,
        limit: Limited(4),
        steps: &[
            Grants(12, 0),
            Shrinks(0, 13, false),
            Grows(0, 11, false),
            Counts(&[(8, 8, 1)]),
            Grows(0, 21, false),
            Is(20, 2, false),
        ],
    },
    // Both holes are of the class of 32 units; the second one is found first, and then the first.
    Case {
        name: "what is given back is the newest",
        size: 82,
        limit: Limited(8),
        steps: &[
            Grants(40, 0),
            Grants(1, 40),
            Grants(40, 41),
            Grants(1, 81),
            Shrinks(2, 8, true),
            Shrinks(0, 8, true),
            Counts(&[(24, 32, 2)]),
            Grants(32, 8),
            Grants(32, 49),
        ],
    },
    // The first hole stays in its class when it loses a unit, and is pushed anew.
    Case {
        name: "what remains of a growth is the newest",
        size: 82,
        limit: Limited(16),
        steps: &[
            Grants(40, 0),
            Grants(1, 40),
            Grants(40, 41),
            Grants(1, 81),
            Shrinks(0, 6, true),
            Shrinks(2, 7, true),
            Grows(0, 7, true),
            Counts(&[(24, 32, 2)]),
            Grants(32, 7),
            Grants(32, 48),
        ],
    },
    Case {
        name: "a range may have no units",
        size: 10,
        limit: Limited(4),
        steps: &[
            Grants(10, 0),
            Shrinks(0, 0, true),
            Is(10, 2, false),
            Reports(10, 10),
            Grows(0, 10, true),
            Is(10, 1, false),
            Reports(0, 0),
        ],
    },
    // At the block limit, the free block of 0 units after the range is given the units.
    Case {
        name: "a free block of no units is a free block",
        size: 12,
        limit: Limited(5),
        steps: &[
            Grants(10, 0),
            Grants(0, 10),
            Grants(2, 10),
            Frees(1),
            Counts(&[(0, 0, 1)]),
            Grows(0, 11, false),
            Shrinks(2, 1, true),
            Is(12, 4, true),
            Shrinks(0, 4, true),
            Is(12, 4, true),
            Counts(&[(1, 1, 1), (6, 6, 1)]),
        ],
    },
    Case {
        name: "the largest range shrinks and grows",
        size: 4_294_967_295,
        limit: Limited(4),
        steps: &[
            Grants(4_026_531_840, 0),
            Grows(0, 4_294_967_295, true),
            Is(4_294_967_295, 1, false),
            Reports(0, 0),
            Shrinks(0, 0, true),
            Reports(4_294_967_295, 4_026_531_840),
        ],
    },
];

#[test]
fn ranges_shrink_and_grow_in_place() {
    expect_all(&RESIZED);
}
