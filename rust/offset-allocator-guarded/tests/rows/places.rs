//! Requests at an offset that the caller names, and what is there.

use super::steps::Limit::Limited;
use super::steps::Step::{
    At, Compacts, Counts, Fills, FreeAt, Frees, Grants, HandleAt, Is, Named, NotAt, Sums, Walks, Way,
};
use super::steps::{expect_all, Case};

const PLACED: [Case; 7] = [
    Case {
        name: "takes all of a free block",
        size: 100,
        limit: Limited(8),
        steps: &[
            FreeAt(0, 100, true),
            NotAt(0, 101),
            NotAt(101, 0),
            At(0, 100),
            Is(100, 1, false),
            // no block is free, so none holds even no unit
            NotAt(0, 1),
            NotAt(0, 0),
            HandleAt(0, Some(0)),
            HandleAt(99, Some(0)),
            HandleAt(100, None),
            Way(0, 100, Some(0)),
            Way(99, 7, Some(0)),
            Way(100, 7, None),
            Frees(0),
            At(0, 100),
        ],
    },
    Case {
        name: "takes the middle, the start, and the end of a free block",
        size: 100,
        limit: Limited(8),
        steps: &[
            At(40, 20),
            Walks(&[(60, 40, None), (40, 20, Some(0)), (0, 40, None)]),
            FreeAt(0, 40, true),
            FreeAt(0, 41, false),
            FreeAt(59, 1, false),
            FreeAt(60, 40, true),
            FreeAt(60, 41, false),
            Way(0, 40, None),
            Way(0, 41, Some(0)),
            Way(59, 1, Some(0)),
            Way(60, 40, None),
            HandleAt(39, None),
            HandleAt(40, Some(0)),
            HandleAt(59, Some(0)),
            HandleAt(60, None),
            At(0, 10),
            At(90, 10),
            Walks(&[
                (90, 10, Some(2)),
                (60, 30, None),
                (40, 20, Some(0)),
                (10, 30, None),
                (0, 10, Some(1)),
            ]),
            // of several the last one is in the way
            Way(0, 100, Some(2)),
            Way(5, 80, Some(0)),
            Way(5, 35, Some(1)),
            NotAt(5, 10),
            NotAt(35, 10),
            Frees(0),
            At(10, 80),
            HandleAt(50, Some(3)),
            Sums([3, 100, 0, 0, 0, 0, 5]),
        ],
    },
    // 10 units are free, 10 live, and 80 free.
    Case {
        name: "takes nothing of two blocks",
        size: 100,
        limit: Limited(8),
        steps: &[
            Grants(10, 0),
            Grants(10, 10),
            Frees(0),
            NotAt(5, 10),
            NotAt(5, 20),
            NotAt(0, 100),
            NotAt(10, 1),
            NotAt(19, 2),
            Way(5, 10, Some(1)),
            Way(5, 20, Some(1)),
            Way(19, 2, Some(1)),
            // behind the end there is nothing, not even in the way
            FreeAt(95, 5, true),
            NotAt(95, 6),
            NotAt(100, 1),
            Way(95, 6, None),
            At(0, 10),
            At(20, 80),
        ],
    },
    Case {
        name: "takes ranges of no units",
        size: 20,
        limit: Limited(12),
        steps: &[
            Grants(5, 0),
            Grants(5, 5),
            Frees(0),
            // at the end of the first free block, since the other one begins at 10
            At(5, 0),
            Walks(&[
                (10, 10, None),
                (5, 5, Some(1)),
                (5, 0, Some(2)),
                (0, 5, None),
            ]),
            // at the start of the other one
            At(10, 0),
            NotAt(7, 0),
            Way(7, 0, Some(1)),
            Way(5, 0, None),
            // at the end of the space
            At(20, 0),
            NotAt(21, 0),
            // between two free blocks: over it there is no range, and beside it there is
            At(15, 0),
            Walks(&[
                (20, 0, Some(4)),
                (15, 5, None),
                (15, 0, Some(5)),
                (10, 5, None),
                (10, 0, Some(3)),
                (5, 5, Some(1)),
                (5, 0, Some(2)),
                (0, 5, None),
            ]),
            NotAt(12, 5),
            Way(12, 5, Some(5)),
            FreeAt(12, 3, true),
            FreeAt(15, 5, true),
            // the unit there is free
            HandleAt(15, None),
            // of the last free block that begins there or before, so it is behind the other one
            At(15, 0),
            Walks(&[
                (20, 0, Some(4)),
                (15, 5, None),
                (15, 0, Some(6)),
                (15, 0, Some(5)),
                (10, 5, None),
                (10, 0, Some(3)),
                (5, 5, Some(1)),
                (5, 0, Some(2)),
                (0, 5, None),
            ]),
            Frees(5),
            NotAt(12, 5),
            Way(12, 5, Some(6)),
            Frees(6),
            At(12, 5),
        ],
    },
    Case {
        name: "takes no unit of a space that has none",
        size: 0,
        limit: Limited(4),
        steps: &[
            NotAt(0, 1),
            At(0, 0),
            Is(0, 1, false),
            NotAt(0, 0),
            HandleAt(0, None),
            Way(0, 1, None),
        ],
    },
    Case {
        name: "takes the last unit of the largest space",
        size: 4_294_967_295,
        limit: Limited(4),
        steps: &[
            NotAt(1, 4_294_967_295),
            NotAt(4_294_967_295, 4_294_967_295),
            FreeAt(4_294_967_295, 0, true),
            At(4_294_967_294, 1),
            NotAt(4_294_967_295, 0),
            HandleAt(4_294_967_294, Some(0)),
            HandleAt(4_294_967_295, None),
            Way(1, 4_294_967_295, Some(0)),
            Way(4_294_967_295, 4_294_967_295, None),
            // more than any request without a place has
            At(0, 4_294_967_294),
        ],
    },
    // Handles have the offset of where their ranges are now.
    Case {
        name: "finds ranges that have moved",
        size: 100,
        limit: Limited(8),
        steps: &[
            At(20, 10),
            At(40, 10),
            Frees(0),
            Compacts(&[(1, 40, 0, 10)]),
            HandleAt(40, None),
            HandleAt(9, Some(1)),
            Way(0, 100, Some(1)),
            At(10, 90),
        ],
    },
];

// A limit of n admits n - 1 blocks. Each request needs room for one, also where none is added, and for two where units are
// left before it and after it.
const LIMITED: [Case; 3] = [
    Case {
        name: "with two blocks",
        size: 100,
        limit: Limited(3),
        steps: &[
            FreeAt(25, 50, true),
            NotAt(25, 50),
            At(0, 60),
            Is(100, 2, true),
            FreeAt(60, 40, true),
            NotAt(60, 40),
            Frees(0),
            At(40, 60),
            Frees(1),
            At(0, 100),
            Is(100, 1, false),
        ],
    },
    Case {
        name: "with three blocks",
        size: 100,
        limit: Limited(4),
        steps: &[
            At(25, 50),
            Is(100, 3, true),
            NotAt(0, 25),
            NotAt(80, 0),
            Frees(0),
            At(0, 50),
            FreeAt(60, 20, true),
            NotAt(60, 20),
            At(50, 50),
            Is(100, 2, false),
        ],
    },
    Case {
        name: "with four blocks",
        size: 100,
        limit: Limited(5),
        steps: &[
            At(25, 50),
            NotAt(5, 10),
            NotAt(80, 10),
            At(75, 10),
            Is(100, 4, true),
            NotAt(0, 25),
            Frees(0),
            // 75 units are free from 0 on, and 15 from 85 on
            At(0, 75),
            At(85, 15),
            Is(100, 3, false),
        ],
    },
];

// The range has the name of the free block. What is left before it takes its name first: the one that became unused last,
// else that of a new node.
const NAMED: [Case; 2] = [
    Case {
        name: "new nodes",
        size: 100,
        limit: Limited(5),
        steps: &[
            At(25, 50),
            Named(0, 0),
            At(0, 25),
            Named(1, 1),
            At(75, 25),
            Named(2, 2),
        ],
    },
    Case {
        name: "names that became unused",
        size: 100,
        limit: Limited(8),
        steps: &[
            Grants(10, 0),
            Grants(10, 10),
            Grants(10, 20),
            // with the 70 units at the end, which were named 3, and then with those, which are named 2 now
            Frees(2),
            Frees(1),
            At(40, 20),
            Named(3, 1),
            At(10, 30),
            Named(4, 2),
            At(60, 40),
            Named(5, 3),
            // none is unused: what is left before a range is named 4, what is left after another one 5
            Frees(3),
            At(50, 10),
            Named(6, 1),
            At(40, 10),
            Named(7, 4),
            Frees(6),
            At(50, 4),
            Named(8, 1),
            At(54, 6),
            Named(9, 5),
        ],
    },
];

// Blocks of 64 to 71 units are of one class, and so are those of 44 to 47.
const ORDERED: [Case; 7] = [
    Case {
        name: "what is left after a range is newer than what is left before it",
        size: 100,
        limit: Limited(8),
        steps: &[
            At(44, 12),
            Counts(&[(27, 44, 2)]),
            Grants(44, 56),
            Grants(44, 0),
        ],
    },
    Case {
        name: "what is left before a range is the newest of its bin",
        size: 100,
        limit: Limited(8),
        steps: &[
            Grants(10, 0),
            Grants(5, 10),
            Frees(0),
            At(25, 40),
            Grants(10, 15),
            Grants(10, 0),
        ],
    },
    Case {
        name: "what is left after a range is the newest of its bin",
        size: 100,
        limit: Limited(8),
        steps: &[
            Grants(10, 0),
            Grants(5, 10),
            Frees(0),
            At(15, 75),
            Grants(10, 90),
            Grants(10, 0),
        ],
    },
    // 65 units at 0, 66 at 66, and 67 at 133 are free, the last of them the newest
    Case {
        name: "the oldest of a bin is taken",
        size: 300,
        limit: Limited(16),
        steps: &[
            Grants(65, 0),
            Grants(1, 65),
            Grants(66, 66),
            Grants(1, 132),
            Grants(67, 133),
            Fills(100, 200),
            Frees(0),
            Frees(2),
            Frees(4),
            At(0, 65),
            Grants(64, 133),
            Grants(64, 66),
        ],
    },
    Case {
        name: "one between others of a bin is taken",
        size: 300,
        limit: Limited(16),
        steps: &[
            Grants(65, 0),
            Grants(1, 65),
            Grants(66, 66),
            Grants(1, 132),
            Grants(67, 133),
            Fills(100, 200),
            Frees(0),
            Frees(2),
            Frees(4),
            At(66, 66),
            Grants(64, 133),
            Grants(64, 0),
        ],
    },
    Case {
        name: "the newest of a bin is taken",
        size: 300,
        limit: Limited(16),
        steps: &[
            Grants(65, 0),
            Grants(1, 65),
            Grants(66, 66),
            Grants(1, 132),
            Grants(67, 133),
            Fills(100, 200),
            Frees(0),
            Frees(2),
            Frees(4),
            At(133, 67),
            Grants(64, 66),
            Grants(64, 0),
        ],
    },
    Case {
        name: "a part of the oldest of a bin is taken",
        size: 300,
        limit: Limited(16),
        steps: &[
            Grants(65, 0),
            Grants(1, 65),
            Grants(66, 66),
            Grants(1, 132),
            Grants(67, 133),
            Fills(100, 200),
            Frees(0),
            Frees(2),
            Frees(4),
            At(10, 5),
            // 10 units at 0 and 50 at 15 are left of it
            Grants(64, 133),
            Grants(64, 66),
            Grants(9, 0),
            Grants(48, 15),
        ],
    },
];

#[test]
fn a_range_begins_where_it_is_asked_for() {
    expect_all(&PLACED);
}

#[test]
fn a_request_at_a_place_needs_room_for_what_is_left() {
    expect_all(&LIMITED);
}

#[test]
fn what_is_left_has_its_names() {
    expect_all(&NAMED);
}

#[test]
fn bins_keep_their_order() {
    expect_all(&ORDERED);
}
