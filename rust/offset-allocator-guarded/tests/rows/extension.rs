//! Spaces that grow, and node limits that are raised.

use super::steps::Limit::Limited;
use super::steps::Step::{
    Begins, Counts, Extends, Fills, Frees, Gone, Grants, Lacks, Lives, Raises, Refuses, Reports, Resets, Sums, Undoes,
};
use super::steps::{expect_all, Case};
use offset_allocator::Refusal::Nodes;

const EXTENDED: [Case; 6] = [
    // A free last block grows also where no further block may exist.
    Case {
        name: "widens a free last block at the block limit",
        size: 10,
        limit: Limited(4),
        steps: &[
            Grants(8, 0),
            Extends(20, true),
            Grants(20, 8),
            Reports(0, 0),
            Extends(5, true),
            Counts(&[(7, 7, 1)]),
        ],
    },
    Case {
        name: "refuses after a used last block at the block limit",
        size: 20,
        limit: Limited(4),
        steps: &[
            Grants(12, 0),
            Grants(8, 12),
            Frees(0),
            Grants(5, 0),
            Extends(1, false),
            Extends(0, true),
            Frees(1),
            Extends(1, true),
            Counts(&[(16, 16, 1)]),
        ],
    },
    // A block that grows within its class is pushed anew, and so is the newest.
    Case {
        name: "a grown block is the newest",
        size: 66,
        limit: Limited(8),
        steps: &[
            Grants(32, 0),
            Grants(1, 32),
            Frees(0),
            Extends(1, true),
            Grants(32, 33),
        ],
    },
    Case {
        name: "a reset keeps the present size",
        size: 10,
        limit: Limited(4),
        steps: &[
            Grants(10, 0),
            Extends(6, true),
            Resets,
            Gone(0),
            Reports(16, 16),
        ],
    },
    Case {
        name: "the largest space does not grow",
        size: 4_294_967_295,
        limit: Limited(4),
        steps: &[Extends(1, false), Extends(0, true)],
    },
    // A space may grow to 4294967295 units.
    Case {
        name: "an empty space grows to the largest",
        size: 0,
        limit: Limited(4),
        steps: &[
            Refuses(1),
            Extends(4_294_967_295, true),
            Reports(4_294_967_295, 4_026_531_840),
            Grants(4_026_531_840, 0),
        ],
    },
];

#[test]
fn spaces_grow() {
    expect_all(&EXTENDED);
}

const RAISED: [Case; 6] = [
    // Two live ranges and the block before them are three blocks, and there may be three.
    Case {
        name: "a request that was refused for nodes is granted",
        size: 100,
        limit: Limited(4),
        steps: &[
            Grants(10, 0),
            Grants(20, 10),
            Frees(0),
            Lacks(5, Nodes),
            Raises(5),
            Gone(0),
            Lives(1, 20),
            Begins(1, 10),
            Sums([1, 20, 2, 80, 70, 64, 2]),
            // of the smallest block that is large enough
            Grants(5, 0),
            Lacks(5, Nodes),
            Frees(1),
            Frees(2),
            Reports(100, 96),
        ],
    },
    Case {
        name: "the same limit admits no more",
        size: 100,
        limit: Limited(3),
        steps: &[Grants(10, 0), Lacks(5, Nodes), Raises(3), Lacks(5, Nodes), Lives(0, 10)],
    },
    Case {
        name: "a space with no range, and once more",
        size: 10,
        limit: Limited(2),
        steps: &[
            Lacks(1, Nodes),
            Raises(3),
            Undoes(1, true),
            Grants(10, 0),
            Raises(5),
            Extends(6, true),
            Grants(6, 10),
            Resets,
            Reports(16, 16),
        ],
    },
    // Free blocks of 4 units at 0 and at 8: the one at 8 became free last.
    Case {
        name: "the newest of a bin stays the newest",
        size: 20,
        limit: Limited(8),
        steps: &[
            Grants(4, 0),
            Grants(4, 4),
            Grants(4, 8),
            Grants(4, 12),
            Frees(0),
            Frees(2),
            Raises(100),
            Grants(4, 8),
            Grants(4, 0),
        ],
    },
    // The three ranges are one block, which keeps the name of the second; the names of the first and of the third are unused.
    // The last of them is taken next: so its old handle is that of the next block, once this is granted. The block of 12
    // units is split, since that at the end is larger.
    Case {
        name: "the names that come next stay",
        size: 40,
        limit: Limited(8),
        steps: &[
            Grants(4, 0),
            Grants(4, 4),
            Grants(4, 8),
            Grants(4, 12),
            Frees(0),
            Frees(2),
            Frees(1),
            Raises(100),
            Grants(5, 0),
            Lives(1, 5),
            Gone(2),
            Grants(7, 5),
            Lives(2, 7),
            Gone(0),
        ],
    },
    // A tight request takes 11 of the 11 units at the end; and a class with a free block is found again.
    Case {
        name: "masks and bins are those that were",
        size: 31,
        limit: Limited(8),
        steps: &[
            Grants(20, 0),
            Raises(9),
            Counts(&[(11, 11, 1)]),
            Fills(11, 20),
            Refuses(0),
            Frees(0),
            Raises(10),
            Counts(&[(18, 20, 1)]),
            Grants(20, 0),
        ],
    },
];

#[test]
fn limits_are_raised() {
    expect_all(&RAISED);
}
