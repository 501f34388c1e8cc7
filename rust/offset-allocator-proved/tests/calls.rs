//! Each public call, with values computed by hand.
use offset_allocator_proved::ext::min_allocator_size;
use offset_allocator_proved::small_float::{float_to_uint, uint_to_float_round_down, uint_to_float_round_up};
use offset_allocator_proved::{laws, Accesses, AllocError, Allocator, Global, NodeIndex, NonMaxU16, NonMaxU32, Refusal, Statistics, StorageReport};

fn space(size: u32, max_allocs: u32) -> Allocator {
    Allocator::with_max_allocs(Global, size, max_allocs).unwrap()
}

#[test]
fn grants_and_releases() {
    let mut a = space(100, 16);
    let first = a.allocate(10).unwrap();
    let second = a.allocate(20).unwrap();
    assert_eq!((first.offset, second.offset), (0, 10));
    assert_eq!((a.allocation_size(first), a.allocation_size(second)), (10, 20));
    // 70 units are of the class of 64
    assert_eq!(a.storage_report().total_free_space, 70);
    assert_eq!(a.storage_report().largest_free_region, 64);
    assert!(a.allocate(71).is_none());
    a.free(first);
    assert!(!a.is_live(first));
    assert_eq!(a.allocation_size(first), 0);
    assert_eq!(a.storage_report().largest_free_region, 64);
    a.free(second);
    // 100 units are of the class of 96
    assert_eq!(a.storage_report().largest_free_region, 96);
    assert_eq!(
        format!("{a:?}"),
        "Allocator { size: 100, max_allocs: 16, statistics: Statistics { live_ranges: 0, live_units: 0, free_blocks: 1, \
         free_units: 100, largest_free_block: 100, largest_free_region: 96, unused_nodes: 15 } }"
    );
}

#[test]
fn statistics_at_the_node_limit() {
    let mut a = space(100, 4);
    assert!(a.is_empty());
    let first = a.allocate(10).unwrap();
    a.allocate(20).unwrap();
    // three blocks: a report has 0 and 0 here
    assert!(a.is_full() && a.storage_report() == StorageReport { total_free_space: 0, largest_free_region: 0 });
    assert_eq!((a.free_units(), a.live_units(), a.is_empty()), (70, 30, false));
    a.free(first);
    let wanted = Statistics {
        live_ranges: 1,
        live_units: 20,
        free_blocks: 2,
        free_units: 80,
        largest_free_block: 70,
        largest_free_region: 64,
        unused_nodes: 1,
    };
    assert_eq!(a.statistics(), wanted);
    assert_eq!(laws::statistics_counted(&a, &mut Accesses::new()), wanted);
    assert!(!laws::is_empty_counted(&a, &mut Accesses::new()));
    // a range of no units is live
    let mut none = space(0, 3);
    none.allocate(0).unwrap();
    assert!(!none.is_empty() && none.statistics().live_ranges == 1);
}

#[test]
fn any_free_block_serves_that_is_large_enough() {
    let mut a = space(100, 16);
    assert!(a.allocate(97).is_none());
    assert_eq!((a.refusal_tight(101), a.refusal_tight(100)), (Some(Refusal::TooLarge), None));
    let all = a.allocate_tight(100).unwrap();
    assert_eq!((all.offset, a.refusal_tight(1)), (0, Some(Refusal::Space)));
    a.free(all);
    let first = a.allocate(30).unwrap();
    a.allocate(34).unwrap();
    let last = a.allocate_tight(36).unwrap();
    a.free(first);
    a.free(last);
    // 30 units from 0 on, and 36 from 64 on
    assert_eq!((a.refusal_tight(37), a.allocate_tight(37)), (Some(Refusal::Fragmented), None));
    assert!(a.allocate_aligned(36, 64).is_none());
    assert_eq!(a.refusal_tight_aligned(36, 64), None);
    assert_eq!(a.allocate_tight_aligned(36, 64).unwrap().offset, 64);
    let mut count = Accesses::new();
    assert_eq!(laws::refusal_tight_counted(&a, 31, &mut count), Some(Refusal::Space));
    assert_eq!(laws::refusal_tight_aligned_counted(&a, 30, 2, &mut count), None);
    assert_eq!(a.allocate_tight(30).unwrap().offset, 0);
}

#[test]
fn blocks_and_reports_are_compared_and_copied() {
    let mut a = space(100, 16);
    a.allocate(10).unwrap();
    let blocks: Vec<_> = a.blocks().collect();
    assert!(blocks.iter().eq(&a.blocks().collect::<Vec<_>>()) && blocks[0] != blocks[1]);
    let report = a.storage_report_full();
    assert!(report.clone() == a.storage_report_full() && report != space(100, 16).storage_report_full());
    fn equal<T: Eq + Clone>(value: T) -> bool {
        value.clone() == value
    }
    assert!(equal(blocks[0]) && equal(a.storage_report()) && equal(report) && equal(a.statistics()));
}

#[test]
fn a_small_gap_is_filled_first() {
    let mut a = space(1024, 16);
    let first = a.allocate(16).unwrap();
    let _second = a.allocate(16).unwrap();
    a.free(first);
    assert_eq!(a.allocate(16).unwrap().offset, 0);
    assert_eq!(a.allocate(16).unwrap().offset, 32);
}

#[test]
fn reports_by_class() {
    let mut a = space(100, 16);
    let first = a.allocate(10).unwrap();
    a.allocate(20).unwrap();
    a.free(first);
    let report = a.storage_report_full();
    let rows: Vec<_> = (0..256).filter(|c| report.free_regions[*c].count > 0).collect();
    // 10 units are of class 10, and 70 of class 32 = 8 * 4, whose value is 8 << 3
    assert_eq!(rows, [10, 32]);
    assert_eq!((report.free_regions[10].size, report.free_regions[10].count), (10, 1));
    assert_eq!((report.free_regions[32].size, report.free_regions[32].count), (64, 1));
    assert_eq!((report.free_regions[239].size, report.free_regions[240].size), (4_026_531_840, 0));
}

#[test]
fn aligned_grants() {
    let mut a = space(1000, 16);
    a.allocate(3).unwrap();
    let b = a.allocate_aligned(10, 64).unwrap();
    assert_eq!((b.offset, a.allocation_size(b)), (64, 10));
    assert_eq!(a.allocate_aligned(5, 1).unwrap().offset, 3);
    assert!(a.allocate_aligned(1, 1 << 31).is_none());
    assert!(a.allocate_aligned(u32::MAX, 2).is_none());
}

#[test]
fn grows_and_resets() {
    let mut a = space(10, 16);
    let whole = a.allocate(10).unwrap();
    assert!(a.allocate(1).is_none());
    assert!(a.extend(6));
    assert_eq!(a.allocate(6).unwrap().offset, 10);
    assert!(a.extend(0));
    assert!(!a.extend(u32::MAX));
    a.reset();
    assert!(!a.is_live(whole));
    assert_eq!(a.allocate(16).unwrap().offset, 0);
}

#[test]
fn blocks_from_the_end() {
    let mut a = space(100, 16);
    let first = a.allocate(10).unwrap();
    let second = a.allocate(20).unwrap();
    a.free(first);
    let found: Vec<_> = a.blocks().map(|block| (block.offset, block.size, block.allocation)).collect();
    assert_eq!(found, [(30, 70, None), (10, 20, Some(second)), (0, 10, None)]);
    let mut left = a.blocks();
    left.next();
    assert_eq!((left.len(), left.clone().count(), left.size_hint()), (2, 2, (2, Some(2))));
    assert_eq!(format!("{left:?}"), "Blocks { remaining: 2 }");
    assert_eq!((a.allocation_offset(first), a.allocation_offset(second)), (None, Some(10)));
}

#[test]
fn compacts() {
    let mut a = space(100, 16);
    let first = a.allocate(10).unwrap();
    let second = a.allocate(20).unwrap();
    let third = a.allocate(30).unwrap();
    a.free(first);
    let mut moves = Vec::new();
    a.compact(|range| moves.push((range.from, range.to, range.size, range.allocation())));
    let [mut second_now, mut third_now] = [second, third];
    (second_now.offset, third_now.offset) = (0, 20);
    assert_eq!(moves, [(10, 0, 20, second_now), (30, 20, 30, third_now)]);
    assert_eq!((a.allocation_offset(second), a.allocation_offset(third)), (Some(0), Some(20)));
    // 50 units are of the class of 48
    assert_eq!((a.storage_report().total_free_space, a.storage_report().largest_free_region), (50, 48));
    assert_eq!(a.allocate(48).unwrap().offset, 50);
}

#[test]
fn resizes_in_place() {
    let mut a = space(100, 16);
    let first = a.allocate(10).unwrap();
    let second = a.allocate(20).unwrap();
    assert!(a.shrink(first, 4) && !a.shrink(first, 5));
    assert_eq!((a.allocation_size(first), a.allocation_offset(first)), (4, Some(0)));
    assert!(!a.grow_in_place(first, 11) && a.grow_in_place(first, 10));
    assert!(!a.grow_in_place(second, 91) && a.grow_in_place(second, 90));
    assert_eq!((a.allocation_size(second), a.storage_report().total_free_space), (90, 0));
}

#[test]
fn node_limits() {
    // a limit of 4 admits 3 blocks: two ranges and the remainder
    let mut a = space(100, 4);
    let first = a.allocate(1).unwrap();
    a.allocate(1).unwrap();
    assert!(a.allocate(1).is_none());
    assert_eq!(a.storage_report().total_free_space, 0);
    assert_eq!(a.storage_report().largest_free_region, 0);
    a.free(first);
    assert!(a.allocate(1).is_none(), "there are three blocks: a free one, a used one, the rest");
    assert!(Allocator::<u16>::with_max_allocs(Global, u32::MAX, 65_533).is_ok());
    assert!(Allocator::<u16>::new(Global, 5).unwrap().allocate(5).is_some());
}

#[test]
fn refusals() {
    // 4 blocks may exist; 100 units are of the class of 96
    let mut a = space(100, 5);
    assert_eq!((a.size(), a.max_allocs(), a.block_count(), a.is_full()), (100, 5, 1, false));
    assert_eq!((a.refusal(96), a.refusal(97), a.refusal(101)), (None, Some(Refusal::TooLarge), Some(Refusal::TooLarge)));
    // with 31 units more for the alignment
    assert_eq!((a.refusal_aligned(65, 32), a.refusal_aligned(66, 32)), (None, Some(Refusal::TooLarge)));
    a.allocate(1).unwrap();
    a.allocate(1).unwrap();
    assert_eq!((a.refusal(1), a.refusal_aligned(1, 1), a.refusal_aligned(1, 2)), (None, None, Some(Refusal::Nodes)));
    a.allocate(1).unwrap();
    assert_eq!((a.block_count(), a.is_full(), a.refusal(0), a.refusal(1)), (4, true, Some(Refusal::Nodes), Some(Refusal::Nodes)));
}

#[test]
fn a_fragmented_request_fits_after_one_compaction() {
    // free pieces of 24, 1 and 23 units: 48 in all
    let mut a = space(96, 16);
    let first = a.allocate(24).unwrap();
    a.allocate(24).unwrap();
    let third = a.allocate(1).unwrap();
    a.allocate(24).unwrap();
    a.free(first);
    a.free(third);
    assert_eq!((a.refusal(24), a.refusal(25), a.refusal(48)), (None, Some(Refusal::Fragmented), Some(Refusal::Fragmented)));
    assert_eq!((a.refusal(49), a.refusal(96), a.refusal(97)), (Some(Refusal::Space), Some(Refusal::Space), Some(Refusal::TooLarge)));
    assert_eq!((a.refusal_aligned(33, 16), a.refusal_aligned(34, 16)), (Some(Refusal::Fragmented), Some(Refusal::Space)));
    a.compact(|_| ());
    assert_eq!((a.refusal(48), a.refusal(49), a.refusal_aligned(33, 16)), (None, Some(Refusal::Space), None));
    // nothing is fragmented in a fresh space, so compaction is not advised
    assert_eq!(space(u32::MAX, 16).refusal(4_026_531_841), Some(Refusal::TooLarge));
}

#[test]
fn offsets_have_32_bits_for_every_index_type() {
    let mut a = Allocator::<u16>::with_max_allocs(Global, u32::MAX, 16).unwrap();
    a.allocate(1 << 30).unwrap();
    assert_eq!(a.allocate(1).unwrap().offset, 1 << 30);
}

#[test]
fn classes() {
    assert_eq!((uint_to_float_round_up(118), uint_to_float_round_down(118)), (39, 38));
    assert_eq!((float_to_uint(38), float_to_uint(39)), (112, 120));
    assert_eq!(min_allocator_size(118), 120);
    assert_eq!(min_allocator_size(4_026_531_840), 4_026_531_840);
}

#[test]
fn names() {
    assert_eq!(NonMaxU32::new(u32::MAX), None);
    assert_eq!(NonMaxU16::new(u16::MAX), None);
    assert_eq!(NonMaxU32::new(7).unwrap().get(), 7);
    assert_eq!(NonMaxU16::new(7).unwrap().get(), 7);
    assert_eq!(format!("{} {:?}", NonMaxU32::default(), NonMaxU16::default()), "0 0");
    assert_eq!(u32::of_nonmax(9u32.to_name()), 9);
    assert_eq!(u16::of_nonmax(9u16.to_nonmax().unwrap()), 9);
    assert_eq!((<u32 as NodeIndex>::MAX, <u16 as NodeIndex>::MAX), (u32::MAX, 65_535));
}

#[test]
fn the_calls_of_laws_change_nothing() {
    let mut a = space(100, 16);
    let h = a.allocate(10).unwrap();
    let mut count = Accesses::new();
    assert!(laws::is_live_counted(&a, h, &mut count));
    assert_eq!(laws::allocation_size_counted(&a, h, &mut count), 10);
    assert_eq!(laws::allocation_offset_counted(&a, h, &mut count), Some(0));
    assert_eq!(laws::next_block_counted(&mut a.blocks(), &mut count).unwrap().offset, 10);
    assert_eq!(laws::storage_report_counted(&a, &mut count).total_free_space, 90);
    // 90 units are of the class of 88
    assert_eq!((laws::refusal_counted(&a, 88, &mut count), laws::refusal_counted(&a, 89, &mut count)), (None, Some(Refusal::Space)));
    assert_eq!(laws::refusal_aligned_counted(&a, 85, 8, &mut count), Some(Refusal::Space));
    assert_eq!(laws::storage_report_full_counted(&a, &mut count).free_regions[35].count, 1);
    assert!(laws::undo(&mut a, 88));
    assert!(!laws::undo(&mut a, 89));
    assert_eq!(a.storage_report().total_free_space, 90);
    assert_eq!(std::mem::size_of::<Accesses>(), 0);
}

#[test]
fn what_it_is() {
    fn is_free_to_move<T: Send + Sync + 'static>() {}
    is_free_to_move::<Allocator<u16>>();
    fn is_an_error<T: std::error::Error>() {}
    is_an_error::<AllocError>();
}
