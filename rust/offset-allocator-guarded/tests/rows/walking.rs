//! The blocks of a space, and where the ranges of handles begin.

use super::steps::Limit::Limited;
use super::steps::Step::{Aligns, Begins, Extends, Frees, Gone, Grants, Resets, Walks};
use super::steps::{expect_all, Case};

const WALKED: [Case; 5] = [
    // Two ranges of 10 and of 30 units, with 20 free units between them and 40 after them.
    Case {
        name: "blocks come from the end",
        size: 100,
        limit: Limited(5),
        steps: &[
            Walks(&[(0, 100, None)]),
            Grants(10, 0),
            Grants(20, 10),
            Grants(30, 30),
            Frees(1),
            Walks(&[
                (60, 40, None),
                (30, 30, Some(2)),
                (10, 20, None),
                (0, 10, Some(0)),
            ]),
            Begins(0, 0),
            Gone(1),
            Begins(2, 30),
            Resets,
            Walks(&[(0, 100, None)]),
            Gone(2),
        ],
    },
    Case {
        name: "empty ranges are blocks",
        size: 0,
        limit: Limited(4),
        steps: &[Grants(0, 0), Begins(0, 0), Walks(&[(0, 0, Some(0))])],
    },
    // The padding is free, and so are the units that `extend` adds.
    Case {
        name: "padding and added units are blocks",
        size: 64,
        limit: Limited(8),
        steps: &[
            Grants(3, 0),
            Aligns(16, 16, 16),
            Extends(36, true),
            Walks(&[
                (32, 68, None),
                (16, 16, Some(1)),
                (3, 13, None),
                (0, 3, Some(0)),
            ]),
        ],
    },
    Case {
        name: "a changed handle has its true offset",
        size: 100,
        limit: Limited(8),
        steps: &[Grants(7, 0), Grants(8, 7), Begins(1, 7)],
    },
    Case {
        name: "a walk counts its accesses",
        size: 100,
        limit: Limited(8),
        steps: &[
            Grants(7, 0),
            Walks(&[(7, 93, None), (0, 7, Some(0))]),
            Begins(0, 0),
        ],
    },
];

#[test]
fn walks_yield_all_blocks_from_the_end() {
    expect_all(&WALKED);
}
