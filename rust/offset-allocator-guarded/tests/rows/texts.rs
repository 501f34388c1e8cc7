//! The `Debug` texts of allocators, handles and reports, and what `Display` prints of names and reasons.

use super::asserts::{assert_shown, assert_text, assert_that, text_of};
use super::layouts::{check_each, Expectation, ALL};
use super::steps::Limit::Limited;
use super::steps::Step::{Grants, Shows};
use super::steps::{expect_all, make_allocator, Case};
use offset_allocator::{
    NonMaxU16, NonMaxU32, Refusal, StorageReport, StorageReportFull, StorageReportFullRegion,
    Tables,
};

const SHOWN: [Case; 2] = [
    Case {
        name: "a space of 17 units",
        size: 17,
        limit: Limited(4),
        steps: &[
            Grants(5, 0),
            Shows(
                "Allocator { size: 17, max_allocs: 4, statistics: Statistics { live_ranges: 1, live_units: 5, \
                 free_blocks: 1, free_units: 12, largest_free_block: 12, largest_free_region: 12, unused_nodes: 2 } }",
            ),
        ],
    },
    Case {
        name: "a space at its block limit",
        size: 17,
        limit: Limited(2),
        steps: &[Shows(
            "Allocator { size: 17, max_allocs: 2, statistics: Statistics { live_ranges: 0, live_units: 0, \
             free_blocks: 1, free_units: 17, largest_free_block: 17, largest_free_region: 16, unused_nodes: 1 } }",
        )],
    },
];

#[test]
fn allocators_have_the_texts_of_their_statistics() {
    expect_all(&SHOWN);
}

// Class 3 alone has free blocks: two.
fn text_of_class_3() -> String {
    let mut text = String::new();
    text.push_str("StorageReportFull { free_regions: [");
    for class in 0..256u32 {
        let (size, count) = if class == 3 { (3, 2) } else { (0, 0) };
        let end = if class < 255 { ", " } else { "] }" };
        text.push_str(&format!(
            "StorageReportFullRegion {{ size: {size}, count: {count} }}{end}"
        ));
    }
    text
}

#[test]
fn reports_name_their_fields() {
    let report = StorageReport {
        total_free_space: 4_294_967_295,
        largest_free_region: 0,
    };
    let wanted = "StorageReport { total_free_space: 4294967295, largest_free_region: 0 }";
    assert_text(&report, wanted);
    let region = StorageReportFullRegion {
        size: 88,
        count: 4_294_967_295,
    };
    let wanted = "StorageReportFullRegion { size: 88, count: 4294967295 }";
    assert_text(&region, wanted);
    let copy = report;
    assert_that(report == copy);
    let mut report = StorageReportFull::default();
    report.free_regions[3] = StorageReportFullRegion { size: 3, count: 2 };
    let wanted = text_of_class_3();
    assert_text(&report, &wanted);
}

#[test]
fn names_and_reasons_have_a_text() {
    for (value, wanted) in [(0u16, "Some(0)"), (65_534, "Some(65534)"), (65_535, "None")] {
        assert_text(&NonMaxU16::new(value), wanted);
    }
    for (value, wanted) in [
        (0u32, "Some(0)"),
        (4_294_967_294, "Some(4294967294)"),
        (4_294_967_295, "None"),
    ] {
        assert_text(&NonMaxU32::new(value), wanted);
    }
    for (reason, wanted) in [
        (Refusal::Nodes, "Nodes"),
        (Refusal::TooLarge, "TooLarge"),
        (Refusal::Space, "Space"),
        (Refusal::Fragmented, "Fragmented"),
    ] {
        assert_text(&reason, wanted);
    }
}

#[test]
fn names_and_reasons_are_printed() {
    for (value, wanted) in [(0u16, "0"), (65_534, "65534")] {
        let name = NonMaxU16::new(value).expect("a name");
        assert_shown(&name, wanted);
        assert_text(&name, wanted);
    }
    for (value, wanted) in [(0u32, "0"), (4_294_967_294, "4294967294")] {
        let name = NonMaxU32::new(value).expect("a name");
        assert_shown(&name, wanted);
        assert_text(&name, wanted);
    }
    for (reason, wanted) in [
        (Refusal::Nodes, "too few nodes are left"),
        (Refusal::TooLarge, "the request is too large for the space"),
        (Refusal::Space, "too few units are free"),
        (
            Refusal::Fragmented,
            "no free block is large enough until the space is compacted",
        ),
    ] {
        assert_shown(&reason, wanted);
    }
}

struct Handles;

impl Expectation for Handles {
    // Of two ranges of one allocator. The text has the offset and the node index, which is one of three.
    fn check<T: Tables>(&self) {
        let made = make_allocator::<T>(17, Limited(4)).expect("memory");
        let mut space = made.expect("a lawful limit");
        let first = space.allocate(5).expect("room");
        let second = space.allocate(6).expect("room");
        let text = text_of(&second);
        let mut found = false;
        for wanted in [
            "Allocation { offset: 5, metadata: 0 }",
            "Allocation { offset: 5, metadata: 1 }",
            "Allocation { offset: 5, metadata: 2 }",
            "Allocation { offset: 5, metadata: 3 }",
        ] {
            found = found || text == wanted;
        }
        assert_that(found);
        let mut moved = first;
        assert_that(first == moved && first != second);
        moved.offset = 5;
        assert_that(first != moved && second != moved);
    }
}

#[test]
fn handles_have_a_text_and_are_compared() {
    check_each(&ALL, &Handles);
}
