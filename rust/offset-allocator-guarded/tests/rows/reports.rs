//! Reports.

use super::steps::Limit::{Few, Limited};
use super::steps::Step::{Counts, Frees, Grants, Refuses, Reports, Resets, Sums, Undoes};
use super::steps::{expect_all, Case};

const REPORTED: [Case; 6] = [
    Case {
        name: "reports the value of a class",
        size: 17,
        limit: Few,
        steps: &[Reports(17, 16), Refuses(17), Grants(16, 0)],
    },
    Case {
        name: "reports free blocks at the block limit",
        size: 100,
        limit: Limited(3),
        steps: &[
            Grants(10, 0),
            Refuses(10),
            Reports(0, 0),
            Counts(&[(35, 88, 1)]),
        ],
    },
    Case {
        name: "reports a space that grants nothing",
        size: 100,
        limit: Limited(2),
        steps: &[
            Refuses(1),
            Refuses(0),
            Reports(0, 0),
            Counts(&[(36, 96, 1)]),
        ],
    },
    Case {
        name: "reports an empty space",
        size: 0,
        limit: Few,
        steps: &[Reports(0, 0), Refuses(1), Grants(0, 0), Refuses(0)],
    },
    Case {
        name: "reports the largest space",
        size: 4_294_967_295,
        limit: Limited(8),
        steps: &[
            Reports(4_294_967_295, 4_026_531_840),
            Refuses(4_026_531_841),
            Grants(4_026_531_840, 0),
            Reports(268_435_455, 251_658_240),
        ],
    },
    Case {
        name: "predicts requests",
        size: 143,
        limit: Limited(3),
        steps: &[
            Reports(143, 128),
            Refuses(129),
            Undoes(128, true),
            Reports(143, 128),
            Grants(128, 0),
            Undoes(0, false),
        ],
    },
];

// Of live ranges, their units, free blocks, their units, the largest free block, the largest region, and unused nodes.
const SUMS: [Case; 5] = [
    Case {
        name: "sums up a space",
        size: 100,
        limit: Limited(8),
        steps: &[
            Sums([0, 0, 1, 100, 100, 96, 7]),
            Grants(10, 0),
            Grants(20, 10),
            Grants(30, 30),
            Sums([3, 60, 1, 40, 40, 40, 4]),
            Frees(1),
            // the free blocks of 20 and 40 units
            Sums([2, 40, 2, 60, 40, 40, 4]),
            Frees(2),
            Sums([1, 10, 1, 90, 90, 88, 6]),
            Frees(0),
            Sums([0, 0, 1, 100, 100, 96, 7]),
        ],
    },
    Case {
        name: "sums up a space at the block limit",
        size: 100,
        limit: Limited(4),
        steps: &[
            Grants(10, 0),
            Grants(20, 10),
            // three blocks: a report has 0 and 0 here
            Reports(0, 0),
            Sums([2, 30, 1, 70, 70, 64, 1]),
            Frees(0),
            Reports(0, 0),
            Sums([1, 20, 2, 80, 70, 64, 1]),
            Resets,
            Sums([0, 0, 1, 100, 100, 96, 3]),
        ],
    },
    Case {
        name: "sums up a space that grants nothing",
        size: 17,
        limit: Limited(2),
        steps: &[Reports(0, 0), Sums([0, 0, 1, 17, 17, 16, 1])],
    },
    Case {
        name: "finds the largest of a class, the second of three",
        size: 1000,
        limit: Limited(20),
        steps: &[
            Grants(65, 0),
            Grants(1, 65),
            Grants(71, 66),
            Grants(1, 137),
            Grants(64, 138),
            Grants(1, 202),
            // 797 units are left, and taken
            Grants(768, 203),
            Grants(28, 971),
            Grants(1, 999),
            Frees(0),
            Frees(2),
            Frees(4),
            Sums([6, 800, 3, 200, 71, 64, 11]),
        ],
    },
    Case {
        name: "a range of no units is live",
        size: 0,
        limit: Limited(4),
        steps: &[
            Sums([0, 0, 1, 0, 0, 0, 3]),
            Grants(0, 0),
            Sums([1, 0, 0, 0, 0, 0, 3]),
            Frees(0),
            Sums([0, 0, 1, 0, 0, 0, 3]),
        ],
    },
];

#[test]
fn statistics_are_exact() {
    expect_all(&SUMS);
}

// The largest region is the value of a class, not the size of the block.
#[test]
fn reports_predict_requests() {
    expect_all(&REPORTED);
}
