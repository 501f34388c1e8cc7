//! Pictures of courses that no script has: ranges that were moved and resized, and each reason of a refusal.

use offset_allocator::{Refusal, StorageReport};
use offset_pictures::{course_of, picture, picture_of, Asked, Course, Global, Life, Reason, Refused};

/// One grant of 40 calls, whose range was moved and resized after the first of the two that are shown.
fn course(refused: Vec<Refused>) -> Course {
    let life = Life { number: 1, offset: 50, size: 10, first: 0, last: 1, lived: 40 };
    let report = StorageReport { total_free_space: 90, largest_free_region: 80 };
    Course {
        max_allocs: 16,
        grants: 1,
        lives: vec![life, Life { offset: 0, size: 20, first: 1, last: 2, ..life }].into(),
        reports: vec![report; 3].into(),
        sizes: vec![100; 3].into(),
        refused: refused.into(),
    }
}

fn drawn(course: &Course) -> String {
    picture_of(Global, "A <course>", course).unwrap().into()
}

#[test]
fn a_life_for_each_range() {
    let text = drawn(&course(vec![]));
    for (wanted, count) in [
        ("<title>A &lt;course&gt;</title>", 1),
        (">1 grant, 0 refusals; at most 1 live at once. ", 1),
        // the highest unit is 60, and the plot ends a twentieth and 1 above, at 64: so 10 units are 62.5 of 400 pixels;
        // 2 calls are at 120 and thirds of 1050. The third age is that of 31 to 100 calls
        ("<g class='age3'>\n<rect x='470' y='175' width='350' height='62.5' class='edge'><title>grant 1, offset 50, size 10, calls 1-2</title></rect>\n", 1),
        ("<rect x='820' y='425' width='350' height='125' class='edge'><title>grant 1, offset 0, size 20, calls 2-end</title></rect>\n</g>\n", 1),
        ("<g class='age1'>\n</g>\n", 1),
        ("class='why'", 0),
    ] {
        assert_eq!(text.matches(wanted).count(), count, "{wanted}");
    }
}

#[test]
fn each_reason() {
    let free = "; largest free region 80, of 90 free";
    for (asked, why, said) in [
        (Asked::Alloc(17), Reason::Request(Refusal::Fragmented), format!("alloc 17, rounded up to 18: no free block is large enough until the space is compacted{free}")),
        (Asked::Alloc(4_026_531_840), Reason::Request(Refusal::TooLarge), format!("alloc 4026531840, rounded up to 4026531840: the request is too large for the space{free}")),
        (Asked::Alloc(4_026_531_841), Reason::Request(Refusal::TooLarge), format!("alloc 4026531841: the request is too large for the space{free}")),
        (Asked::Align(3, 2), Reason::Request(Refusal::Space), format!("align 3 2, rounded up to 4: too few units are free{free}")),
        (Asked::Align(u32::MAX, 1 << 31), Reason::Request(Refusal::Nodes), "align 4294967295 2147483648: too few nodes are left".to_owned()),
        (Asked::Extend(7), Reason::TooManyUnits, "extend 7: a space has at most 4294967295 units".to_owned()),
        (Asked::Shrink(1, 11), Reason::Smaller, "shrink 1 11: the range has fewer units".to_owned()),
        (Asked::Grow(1, 5), Reason::Larger, "grow 1 5: the range has more units".to_owned()),
        (Asked::Grow(1, 95), Reason::NoRoom, "grow 1 95: too few units directly after the range are free".to_owned()),
    ] {
        let text = drawn(&course(vec![Refused { call: 1, asked, why }]));
        let wanted = format!("<g class='why'>\n<rect x='819' y='550' width='3' height='12'><title>call 2: {said}</title></rect>\n</g>\n");
        assert!(text.contains(&wanted), "{wanted}");
    }
}

#[test]
fn calls_of_one_pixel_have_one_title() {
    let at = |call, n| Refused { call, asked: Asked::Extend(n), why: Reason::TooManyUnits };
    let text = drawn(&course(vec![at(0, 1), at(0, 2), at(0, 3), at(1, 4), at(9, 5)]));
    // a call beyond the axis is at its end
    for wanted in ["<rect x='469' y='550' width='3' height='12'><title>call 1: extend 1: a space has at most 4294967295 units; 2 more refused here</title></rect>\n",
        "<rect x='819' y='550' width='3' height='12'><title>call 2: extend 4: a space has at most 4294967295 units</title></rect>\n",
        "<rect x='1169' y='550' width='3' height='12'><title>call 10: extend 5: a space has at most 4294967295 units</title></rect>\n</g>\n"] {
        assert!(text.contains(wanted), "{wanted}");
    }
}

#[test]
fn the_course_of_a_script() {
    let script = offset_script::parse(Global, b"space 100 nodes 16 index 32\nalloc 10\nalloc 200\nfree 1\n").unwrap();
    let course = course_of(Global, &script).unwrap();
    assert_eq!(course.lives[..], [Life { number: 1, offset: 0, size: 10, first: 0, last: 2, lived: 2 }]);
    assert_eq!(course.refused[..], [Refused { call: 1, asked: Asked::Alloc(200), why: Reason::Request(Refusal::TooLarge) }]);
    assert_eq!((course.grants, &course.sizes[..], course.reports.len()), (1, &[100; 4][..], 4));
    assert_eq!(picture_of(Global, "t", &course).unwrap()[..], picture(Global, "t", &script).unwrap()[..]);
}

#[test]
#[should_panic = "no life may end before it begins"]
fn a_life_that_ends_before_it_begins() {
    let mut course = course(vec![]);
    course.lives[1].last = 0;
    drawn(&course);
}
