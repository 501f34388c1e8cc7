//! What has to move at least for a request.

use super::steps::Limit::{Few, Limited};
use super::steps::Step::{
    Begins, Costs, CostsNot, Counts, Frees, Grants, Is, Lacks, Lives, Makes, MakesNot, Walks,
};
use super::steps::{expect_all, Case};
use offset_allocator::Refusal::{Fragmented, Nodes, Space, TooLarge};

const COSTS: [Case; 7] = [
    // Above 48 units the classes begin at 52, 56, 60, 64 and 72. The last three blocks have 58 free units, all have 68.
    Case {
        name: "the run with the fewest units in ranges",
        size: 100,
        limit: Limited(8),
        steps: &[
            Grants(10, 0),
            Grants(20, 10),
            Grants(8, 30),
            Grants(12, 38),
            Frees(0),
            Frees(2),
            Walks(&[
                (50, 50, None),
                (38, 12, Some(3)),
                (30, 8, None),
                (10, 20, Some(1)),
                (0, 10, None),
            ]),
            Costs(0, 0, 0),
            Costs(48, 0, 0),
            Lacks(49, Fragmented),
            Costs(49, 12, 1),
            Costs(56, 12, 1),
            Costs(57, 32, 2),
            Costs(64, 32, 2),
            Lacks(65, Space),
            CostsNot(65),
            Lacks(100, TooLarge),
            CostsNot(100),
            CostsNot(4294967295),
        ],
    },
    // 4 free units, two ranges of 3, 4 free, one range of 6, 4 free.
    Case {
        name: "as many units in fewer ranges, at the end",
        size: 24,
        limit: Limited(8),
        steps: &[
            Grants(4, 0),
            Grants(3, 4),
            Grants(3, 7),
            Grants(4, 10),
            Grants(6, 14),
            Grants(4, 20),
            Frees(0),
            Frees(3),
            Frees(5),
            Costs(4, 0, 0),
            Costs(8, 6, 1),
            Costs(12, 12, 3),
            CostsNot(13),
        ],
    },
    Case {
        name: "as many units in fewer ranges, at the start",
        size: 24,
        limit: Limited(8),
        steps: &[
            Grants(4, 0),
            Grants(6, 4),
            Grants(4, 10),
            Grants(3, 14),
            Grants(3, 17),
            Grants(4, 20),
            Frees(0),
            Frees(2),
            Frees(5),
            Costs(8, 6, 1),
            Costs(9, 12, 3),
        ],
    },
    // The range of no units moves too.
    Case {
        name: "a range of no units",
        size: 16,
        limit: Limited(8),
        steps: &[
            Grants(8, 0),
            Grants(0, 8),
            Grants(8, 8),
            Frees(0),
            Frees(2),
            Costs(8, 0, 0),
            Costs(16, 0, 1),
        ],
    },
    // Ranges before the first free block and after the last one stay.
    Case {
        name: "ranges at both ends",
        size: 25,
        limit: Limited(8),
        steps: &[
            Grants(5, 0),
            Grants(5, 5),
            Grants(5, 10),
            Grants(5, 15),
            Grants(5, 20),
            CostsNot(0),
            CostsNot(1),
            Frees(1),
            CostsNot(6),
            Frees(3),
            Costs(5, 0, 0),
            Costs(6, 5, 1),
            Costs(10, 5, 1),
            CostsNot(11),
        ],
    },
    // At the limit a request is refused, though a block is large enough.
    Case {
        name: "at the node limit",
        size: 100,
        limit: Limited(4),
        steps: &[
            Grants(10, 0),
            Grants(10, 10),
            Is(100, 3, true),
            Lacks(50, Nodes),
            Costs(50, 0, 0),
            Frees(0),
            Is(100, 3, true),
            Lacks(88, Nodes),
            Costs(80, 0, 0),
            Costs(88, 10, 1),
            CostsNot(89),
        ],
    },
    Case {
        name: "a space of no units",
        size: 0,
        limit: Few,
        steps: &[Costs(0, 0, 0), CostsNot(1), Grants(0, 0), CostsNot(0)],
    },
];

const MADE: [Case; 4] = [
    // 10 free units, 20 live, 8 free, 12 live, 50 free. The last three blocks become 12 live and 58 free ones.
    Case {
        name: "slides the cheapest run alone",
        size: 100,
        limit: Limited(8),
        steps: &[
            Grants(10, 0),
            Grants(20, 10),
            Grants(8, 30),
            Grants(12, 38),
            Frees(0),
            Frees(2),
            MakesNot(65),
            Makes(48, 0, 0, &[]),
            Makes(52, 12, 1, &[(3, 38, 30, 12)]),
            Walks(&[
                (42, 58, None),
                (30, 12, Some(3)),
                (10, 20, Some(1)),
                (0, 10, None),
            ]),
            Counts(&[(10, 10, 1), (30, 56, 1)]),
            Lives(3, 12),
            Begins(3, 30),
            Makes(64, 32, 2, &[(1, 10, 0, 20), (3, 30, 20, 12)]),
            Counts(&[(32, 64, 1)]),
            Grants(64, 32),
            Frees(1),
            Begins(3, 20),
        ],
    },
    // Blocks before and after the run stay, free ones too. Of the free blocks of 4 units the new one is of another class.
    Case {
        name: "leaves what is before and after",
        size: 27,
        limit: Limited(10),
        steps: &[
            Grants(4, 0),
            Grants(5, 4),
            Grants(4, 9),
            Grants(1, 13),
            Grants(4, 14),
            Grants(5, 18),
            Grants(4, 23),
            Frees(0),
            Frees(2),
            Frees(4),
            Frees(6),
            Makes(8, 1, 1, &[(3, 13, 9, 1)]),
            Walks(&[
                (23, 4, None),
                (18, 5, Some(5)),
                (10, 8, None),
                (9, 1, Some(3)),
                (4, 5, Some(1)),
                (0, 4, None),
            ]),
            Counts(&[(4, 4, 2), (8, 8, 1)]),
            Grants(8, 10),
            Grants(4, 23),
            Grants(4, 0),
        ],
    },
    // Two free blocks become one, so the request is granted.
    Case {
        name: "at the node limit",
        size: 100,
        limit: Limited(4),
        steps: &[
            Grants(10, 0),
            Grants(10, 10),
            Makes(50, 0, 0, &[]),
            Lacks(50, Nodes),
            Frees(0),
            Lacks(88, Nodes),
            Makes(88, 10, 1, &[(1, 10, 0, 10)]),
            Is(100, 2, false),
            Grants(88, 10),
            Is(100, 3, true),
        ],
    },
    // A free block within the run goes into the one after it, and a range of no units moves.
    Case {
        name: "a run of several free blocks",
        size: 18,
        limit: Limited(10),
        steps: &[
            Grants(3, 0),
            Grants(0, 3),
            Grants(3, 3),
            Grants(2, 6),
            Grants(10, 8),
            Frees(0),
            Frees(2),
            Frees(4),
            Makes(16, 2, 2, &[(1, 3, 0, 0), (3, 6, 0, 2)]),
            Walks(&[(2, 16, None), (0, 2, Some(3)), (0, 0, Some(1))]),
            Makes(16, 0, 0, &[]),
            Grants(16, 2),
        ],
    },
];

#[test]
fn room_is_made() {
    expect_all(&MADE);
}

#[test]
fn the_least_units_move() {
    expect_all(&COSTS);
}
