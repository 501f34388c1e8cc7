//! Size classes, against tables of their values.

use super::asserts::{assert_same, assert_same_at, assert_that};
use super::groups::value_of;
use super::layouts::{check, Expectation};
use super::steps::expect;
use super::steps::Limit::{Few, Limited};
use super::steps::Step::Grants;
use offset_allocator::ext::min_allocator_size;
use offset_allocator::small_float::{
    float_to_uint, uint_to_float_round_down, uint_to_float_round_up,
};
use offset_allocator::Global;
use offset_allocator::{
    AllocatorOf, NodeIndex, StorageReportFull, StorageReportFullRegion, Tables,
};

// Sizes, each with the smallest size of a fresh space that grants it.
const SMALLEST_SIZES: [(u32, u32); 43] = [
    (0, 0),
    (1, 1),
    (2, 2),
    (3, 3),
    (4, 4),
    (5, 5),
    (8, 8),
    (17, 18),
    (23, 24),
    (36, 36),
    (51, 52),
    (68, 72),
    (87, 88),
    (151, 160),
    (165, 176),
    (167, 176),
    (201, 208),
    (223, 224),
    (306, 320),
    (346, 352),
    (394, 416),
    (411, 416),
    (806, 832),
    (969, 1_024),
    (1_404, 1_408),
    (1_798, 1_920),
    (2_236, 2_304),
    (4_281, 4_608),
    (4_745, 5_120),
    (13_989, 14_336),
    (21_095, 22_528),
    (26_594, 26_624),
    (27_146, 28_672),
    (29_679, 30_720),
    (144_685, 147_456),
    (153_878, 163_840),
    (495_127, 524_288),
    (727_999, 786_432),
    (1_377_073, 1_441_792),
    (9_440_387, 10_485_760),
    (41_994_490, 46_137_344),
    (68_520_116, 75_497_472),
    (4_026_531_840, 4_026_531_840),
];

#[test]
fn small_float_uint_to_float() {
    for i in 0..17u32 {
        assert_same(&uint_to_float_round_up(i), &i);
        assert_same(&uint_to_float_round_down(i), &i);
    }
    for (size, up, down) in [
        (17, 17, 16),
        (118, 39, 38),
        (1_024, 64, 64),
        (65_536, 112, 112),
        (529_445, 137, 136),
        (1_048_575, 144, 143),
        (4_026_531_840, 239, 239),
        (4_026_531_841, 240, 239),
        (4_294_967_295, 240, 239),
    ] {
        assert_same_at(&size, &uint_to_float_round_up(size), &up);
        assert_same_at(&size, &uint_to_float_round_down(size), &down);
    }
}

#[test]
fn small_float_float_to_uint() {
    for i in 0..17u32 {
        assert_same(&float_to_uint(i), &i);
    }
    for class in 0..240u32 {
        let value = float_to_uint(class);
        assert_same(&uint_to_float_round_up(value), &class);
        assert_same(&uint_to_float_round_down(value), &class);
    }
}

fn full_report<T: Tables>() -> StorageReportFull {
    assert_that(2 < T::Index::MAX - 1);
    let space = AllocatorOf::<T>::with_max_allocs(Global, 100, 2).expect("memory");
    space.storage_report_full()
}

// The values of the largest classes lose their high bits.
fn expect_values(report: &StorageReportFull) {
    for class in 0..256u32 {
        let value = value_of(class as usize) % 4_294_967_296;
        assert_same_at(&class, &u64::from(float_to_uint(class)), &value);
        let region = report.free_regions[class as usize];
        assert_same_at(&class, &u64::from(region.size), &value);
    }
}

// A default report has no size and no block.
fn expect_defaults() {
    let region = StorageReportFullRegion::default();
    assert_same(&region.size, &0);
    assert_same(&region.count, &0);
    let report = StorageReportFull::default();
    for class in 0..256usize {
        let region = report.free_regions[class];
        assert_same_at(&class, &region.size, &0);
        assert_same_at(&class, &region.count, &0);
    }
}

struct Values;

impl Expectation for Values {
    fn check<T: Tables>(&self) {
        expect_values(&full_report::<T>());
    }
}

#[test]
fn reports_have_the_values_of_all_classes() {
    check(&Values);
    expect_defaults();
}

// A space of the smallest size grants the request, also with a limit of three nodes.
#[test]
fn ext_min_allocator_size() {
    for (size, smallest) in SMALLEST_SIZES {
        assert_that(size <= 4_026_531_840);
        assert_same_at(&size, &min_allocator_size(size), &smallest);
        let name = "the smallest space";
        expect(name, smallest, Few, &[Grants(size, 0)]);
        expect(name, smallest, Limited(3), &[Grants(size, 0)]);
    }
}
