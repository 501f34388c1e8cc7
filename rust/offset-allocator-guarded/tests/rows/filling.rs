//! Requests that any free block may serve that is large enough.

use super::steps::Limit::Limited;
use super::steps::Step::{
    Compacts, Counts, Fills, FillsAligned, FillsAlignedNot, FillsNot, Frees, Grants, Lacks, Lives,
    Refuses, RefusesAligned, Reports, Resets, Walks,
};
use super::steps::{expect_all, Case};
use offset_allocator::Refusal::{Fragmented, Nodes, Space, TooLarge};

const FILLED: [Case; 8] = [
    Case {
        name: "a fresh space of 100 grants 100",
        size: 100,
        limit: Limited(8),
        steps: &[
            Reports(100, 96),
            Refuses(97),
            Lacks(100, TooLarge),
            FillsNot(101, TooLarge),
            Fills(100, 0),
            Lives(0, 100),
            FillsNot(1, Space),
            FillsNot(0, Space),
            Frees(0),
            Fills(97, 0),
            // the remainder of 3 units
            Counts(&[(3, 3, 1)]),
            Fills(3, 97),
            Walks(&[(97, 3, Some(2)), (0, 97, Some(1))]),
        ],
    },
    Case {
        // blocks of 64 to 71 units are of one class
        name:
            "takes the newest of the class that is large enough, and leaves the order of the others",
        size: 1003,
        limit: Limited(24),
        steps: &[
            Grants(65, 0),
            Grants(1, 65),
            Grants(71, 66),
            Grants(1, 137),
            Grants(70, 138),
            Grants(1, 208),
            Grants(64, 209),
            Grants(1, 273),
            Grants(704, 274),
            Grants(24, 978),
            Grants(1, 1002),
            Frees(0),
            Frees(2),
            Frees(4),
            Frees(6),
            // newest first: 64, 70, 71, 65
            Refuses(65),
            Fills(66, 138),
            // of 70 units, 4 remain at 204
            Fills(4, 204),
            Fills(68, 66),
            FillsNot(66, Fragmented),
            // 64, 65
            Fills(65, 0),
            Fills(64, 209),
            FillsNot(64, Space),
        ],
    },
    Case {
        name: "takes what `allocate` takes where that grants",
        size: 100,
        limit: Limited(12),
        steps: &[
            Grants(17, 0),
            Grants(1, 17),
            Grants(18, 18),
            Grants(1, 36),
            Frees(0),
            Frees(2),
            // 17, 18 and 63 units are free, of the classes of 16, 18 and 60: `allocate` passes over that of 17
            Fills(17, 18),
            Fills(17, 37),
            // 46 units are left
            Grants(44, 54),
            Fills(17, 0),
        ],
    },
    Case {
        name: "is refused without a node",
        size: 100,
        limit: Limited(3),
        steps: &[
            Grants(10, 0),
            FillsNot(1, Nodes),
            FillsAlignedNot(1, 2, Nodes),
            Frees(0),
            FillsAlignedNot(1, 2, Nodes),
            Fills(100, 0),
        ],
    },
    Case {
        name: "says when the space has to be compacted",
        size: 96,
        limit: Limited(12),
        steps: &[
            Grants(24, 0),
            Grants(24, 24),
            Grants(48, 48),
            Frees(0),
            FillsNot(25, Space),
            Frees(2),
            FillsNot(49, Fragmented),
            FillsNot(73, Space),
            FillsNot(97, TooLarge),
            Compacts(&[(1, 24, 0, 24)]),
            Fills(71, 24),
            Fills(1, 95),
        ],
    },
    Case {
        name: "finds the place that an alignment leaves",
        size: 160,
        limit: Limited(16),
        steps: &[
            Grants(30, 0),
            Grants(34, 30),
            Grants(96, 64),
            // 34 units from 30 on hold 32 at 32, but a block for 63 units does not exist
            Frees(1),
            RefusesAligned(32, 32),
            FillsAligned(32, 32, 32),
            // the padding of 2 units stays free
            Counts(&[(2, 2, 1)]),
            FillsAlignedNot(2, 4, Fragmented),
            FillsAligned(2, 2, 30),
            Frees(2),
            // 96 units from 64 on hold 96 at 64, and nothing more of them is left
            FillsAlignedNot(96, 128, Fragmented),
            FillsAligned(96, 64, 64),
            FillsAlignedNot(1, 1, Space),
        ],
    },
    Case {
        name: "looks through larger classes for a place",
        size: 1000,
        limit: Limited(16),
        steps: &[
            Grants(8, 0),
            Grants(60, 8),
            Grants(60, 68),
            Grants(60, 128),
            Grants(60, 188),
            Refuses(752),
            Fills(752, 248),
            Frees(1),
            Frees(3),
            // 60 units from 8 and from 128 on: the newer one holds 40 at 128, and 68 to 127 none
            FillsAligned(40, 64, 128),
            // 20 units from 168 on are left; 8 to 67 holds 4 at 64
            FillsAligned(4, 64, 64),
            FillsAlignedNot(5, 64, Fragmented),
        ],
    },
    Case {
        name: "grants ranges of no units",
        size: 5,
        limit: Limited(6),
        steps: &[
            Fills(0, 0),
            Fills(5, 0),
            FillsNot(0, Space),
            Resets,
            FillsAligned(0, 4, 0),
            FillsAligned(1, 4, 0),
            FillsAlignedNot(1, 8, Fragmented),
            Fills(4, 1),
        ],
    },
];

// A tight request is granted where some free block holds it.
#[test]
fn any_free_block_serves_that_is_large_enough() {
    expect_all(&FILLED);
}
