//! The original's tests of its allocator, under their names there.

use super::steps::Limit::{Ample, Few, Limited};
use super::steps::Step::{Counts, Frees, Grants, Reports};
use super::steps::{expect, expect_all, Case, Step};

const SPACE: u32 = 268_435_456;

const PIECE: u32 = 1_048_576;

const SIMPLE: [Step; 10] = [
    Grants(0, 0),
    Grants(1, 0),
    Grants(123, 1),
    Grants(1_234, 124),
    Frees(0),
    Frees(1),
    Frees(2),
    Frees(3),
    Grants(SPACE, 0),
    Frees(4),
];

const TESTS: [Case; 6] = [
    Case {
        name: "basic_offset_allocator",
        size: SPACE,
        limit: Few,
        steps: &[Grants(1_337, 0), Frees(0)],
    },
    Case {
        name: "allocate_offset_allocator_simple",
        size: SPACE,
        limit: Ample,
        steps: &SIMPLE,
    },
    Case {
        name: "allocate_offset_allocator_simple",
        size: SPACE,
        limit: Limited(8),
        steps: &SIMPLE,
    },
    Case {
        name: "allocate_offset_allocator_merge_trivial",
        size: SPACE,
        limit: Few,
        steps: &[
            Grants(1_337, 0),
            Frees(0),
            Grants(1_337, 0),
            Frees(1),
            Grants(SPACE, 0),
            Frees(2),
        ],
    },
    Case {
        name: "allocate_offset_allocator_reuse_trivial",
        size: SPACE,
        limit: Few,
        steps: &[
            Grants(1_024, 0),
            Grants(3_456, 1_024),
            Frees(0),
            Grants(1_024, 0),
            Frees(2),
            Frees(1),
            Grants(SPACE, 0),
            Frees(3),
        ],
    },
    Case {
        name: "allocate_offset_allocator_reuse_complex",
        size: SPACE,
        limit: Ample,
        steps: &[
            Grants(1_024, 0),
            Grants(3_456, 1_024),
            Frees(0),
            Grants(2_345, 4_480),
            Grants(456, 0),
            Grants(512, 456),
            Reports(268_428_687, 251_658_240),
            Counts(&[(30, 56, 1), (207, 251_658_240, 1)]),
            Frees(2),
            Frees(3),
            Frees(1),
            Frees(4),
            Grants(SPACE, 0),
            Frees(5),
        ],
    },
];

// After the whole space is granted in equal pieces: four lone pieces and four neighbours are freed and granted again.
const ANEW: [Step; 14] = [
    Reports(0, 0),
    Frees(243),
    Frees(5),
    Frees(123),
    Frees(95),
    Frees(151),
    Frees(152),
    Frees(153),
    Frees(154),
    Grants(PIECE, 99_614_720),
    Grants(PIECE, 128_974_848),
    Grants(PIECE, 5_242_880),
    Grants(PIECE, 254_803_968),
    Grants(4_194_304, 158_334_976),
];

// After all grants are freed.
const AT_LAST: [Step; 3] = [Reports(SPACE, SPACE), Grants(SPACE, 0), Frees(261)];

// The number of the live grant that begins at this piece, or `None` where the piece is within a larger grant.
fn grant_at(place: usize) -> Option<usize> {
    match place {
        243 => Some(256),
        5 => Some(257),
        123 => Some(258),
        95 => Some(259),
        151 => Some(260),
        152..=154 => None,
        _ => Some(place),
    }
}

// Grants of all pieces, in order.
fn grant_pieces(steps: &mut Vec<Step>) {
    for place in 0..256u32 {
        steps.push(Grants(PIECE, place * PIECE));
    }
}

// Frees of all live grants, in the order of their places.
fn free_pieces(steps: &mut Vec<Step>) {
    for place in 0..256usize {
        if let Some(number) = grant_at(place) {
            steps.push(Frees(number));
        }
    }
}

fn zero_fragmentation_steps() -> Vec<Step> {
    let mut steps = Vec::new();
    grant_pieces(&mut steps);
    steps.extend_from_slice(&ANEW);
    free_pieces(&mut steps);
    steps.extend_from_slice(&AT_LAST);
    steps
}

#[test]
fn tests_of_the_original() {
    expect_all(&TESTS);
    let name = "allocate_offset_allocator_zero_fragmentation";
    let steps = zero_fragmentation_steps();
    expect(name, SPACE, Ample, &steps);
}
