//! Requests that are granted or refused.

use super::asserts::{assert_same, assert_that};
use super::steps::Limit::{Few, Least, Limited};
use super::steps::Step::{Grants, Refuses};
use super::steps::{expect_all, Case};
use super::tiny::Tiny;
use offset_allocator::{NodeIndex, NonMaxU16, NonMaxU32};

const REQUESTS: [Case; 8] = [
    Case {
        name: "the block limit refuses",
        size: 100,
        limit: Limited(3),
        steps: &[Grants(10, 0), Refuses(10), Refuses(0)],
    },
    Case {
        name: "a limit of two grants nothing",
        size: 100,
        limit: Limited(2),
        steps: &[Refuses(1), Refuses(0)],
    },
    Case {
        name: "only a class that is sure to fit grants",
        size: 17,
        limit: Limited(4),
        steps: &[Refuses(17), Grants(16, 0), Grants(1, 16)],
    },
    Case {
        name: "an empty space grants nothing once",
        size: 0,
        limit: Limited(8),
        steps: &[Refuses(1), Grants(0, 0), Refuses(0)],
    },
    Case {
        name: "the largest sizes",
        size: 4_294_967_295,
        limit: Limited(8),
        steps: &[
            Refuses(4_294_967_295),
            Refuses(4_026_531_841),
            Grants(4_026_531_840, 0),
            Refuses(268_435_455),
            Grants(251_658_240, 4_026_531_840),
        ],
    },
    Case {
        name: "offsets exceed a narrow index",
        size: 100_000,
        limit: Limited(8),
        steps: &[Grants(70_000, 0), Grants(1_000, 70_000)],
    },
    Case {
        name: "a narrow index type needs no limit",
        size: 10,
        limit: Few,
        steps: &[Grants(10, 0)],
    },
    // Without a limit, a space has the largest that its index type admits.
    Case {
        name: "a third index type admits five nodes",
        size: 40,
        limit: Least,
        steps: &[Grants(10, 0), Grants(10, 10), Grants(10, 20), Refuses(10)],
    },
];

#[test]
fn requests_are_granted_or_refused() {
    expect_all(&REQUESTS);
}

#[test]
fn the_numbers_of_indices() {
    assert_that(NonMaxU16::new(65_535).is_none());
    assert_that(NonMaxU32::new(4_294_967_295).is_none());
    assert_same(&NonMaxU16::new(65_534).map(|n| n.get()), &Some(65_534));
    assert_same(
        &NonMaxU32::new(4_294_967_294).map(|n| n.get()),
        &Some(4_294_967_294),
    );
    assert_same(&(<u16 as NodeIndex>::from_u32(65_536)), &0);
    assert_same(&Tiny::from_u32(12).to_usize(), &4);
}
