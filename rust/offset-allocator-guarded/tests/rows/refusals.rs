//! Why requests are refused.

use super::steps::Limit::{Few, Limited};
use super::steps::Step::{
    Aligns, Extends, Frees, Grants, Is, Lacks, LacksAligned, Reports, Resets,
};
use super::steps::{expect_all, Case};
use offset_allocator::Refusal::{Fragmented, Nodes, Space, TooLarge};

const REFUSED: [Case; 7] = [
    // A block of 100 units is of the class from 96 on, so no fresh space of this size grants more.
    Case {
        name: "too large or too few units",
        size: 100,
        limit: Few,
        steps: &[
            Is(100, 1, false),
            Lacks(101, TooLarge),
            Lacks(100, TooLarge),
            Lacks(97, TooLarge),
            Lacks(4294967295, TooLarge),
            Grants(96, 0),
            Lacks(5, Space),
            Lacks(96, Space),
            Lacks(97, TooLarge),
            Extends(1, true),
            Grants(5, 96),
            Is(101, 2, false),
            Lacks(1, Space),
            Lacks(0, Space),
            Lacks(97, TooLarge),
            Extends(3, true),
            Lacks(97, Space),
            Lacks(104, Space),
            Lacks(105, TooLarge),
        ],
    },
    // Two free pieces of 24 units: 48 units would be of the class from 48 on, which grants 48.
    Case {
        name: "enough units in two pieces",
        size: 72,
        limit: Limited(6),
        steps: &[
            Grants(24, 0),
            Grants(24, 24),
            Frees(0),
            Reports(48, 24),
            Is(72, 3, false),
            Lacks(25, Fragmented),
            Lacks(40, Fragmented),
            Lacks(48, Fragmented),
            Lacks(49, Space),
            Lacks(72, Space),
            Lacks(73, TooLarge),
            LacksAligned(47, 2, Fragmented),
            LacksAligned(48, 2, Space),
            Grants(24, 0),
        ],
    },
    // 25 and 25 free units: 50 would be of the class from 48 on, so 49 are refused after `compact` too.
    Case {
        name: "rounding leaves too little",
        size: 150,
        limit: Few,
        steps: &[
            Grants(25, 0),
            Grants(100, 25),
            Frees(0),
            Reports(50, 24),
            Lacks(48, Fragmented),
            Lacks(49, Space),
            Lacks(50, Space),
        ],
    },
    // A space of no unit has one free block.
    Case {
        name: "a space of no unit",
        size: 0,
        limit: Few,
        steps: &[
            Lacks(1, TooLarge),
            Grants(0, 0),
            Lacks(0, Space),
            Lacks(1, TooLarge),
        ],
    },
    // The largest space: its class begins at 4026531840.
    Case {
        name: "the largest space",
        size: 4294967295,
        limit: Few,
        steps: &[
            Lacks(4026531841, TooLarge),
            Lacks(4294967295, TooLarge),
            LacksAligned(4294967295, 2, TooLarge),
            Grants(4026531840, 0),
            Lacks(4026531840, Space),
        ],
    },
    Case {
        name: "no further block",
        size: 100,
        limit: Limited(3),
        steps: &[
            Grants(10, 0),
            Is(100, 2, true),
            Lacks(10, Nodes),
            Lacks(0, Nodes),
            Lacks(1000, Nodes),
            Resets,
            Is(100, 1, false),
            Grants(96, 0),
        ],
    },
    // An aligned request needs two more blocks, and padding.
    Case {
        name: "aligned requests",
        size: 70,
        limit: Limited(5),
        steps: &[
            LacksAligned(64, 8, TooLarge),
            LacksAligned(58, 8, TooLarge),
            LacksAligned(4294967295, 2, TooLarge),
            LacksAligned(4294967295, 2147483648, TooLarge),
            Aligns(57, 8, 0),
            Grants(1, 57),
            Is(70, 3, false),
            LacksAligned(1, 2, Nodes),
            Grants(1, 58),
            Is(70, 4, true),
            LacksAligned(1, 1, Nodes),
        ],
    },
];

#[test]
fn requests_are_refused_for_a_reason() {
    expect_all(&REFUSED);
}
