//! The public surface, as a user of the original uses it, and the faults of the original that are fixed.
use offset_allocator::ext::min_allocator_size;
use offset_allocator::{Allocation, Allocator, NodeIndex, NodeIndexNonMax, StorageReport, StorageReportFull, StorageReportFullRegion};

/// Code over any index type, as in an engine.
struct Pool<NI: NodeIndex> {
    space: Allocator<NI>,
    live: Vec<Allocation<NI>>,
}

impl<NI: NodeIndex> Pool<NI> {
    fn new(size: u32) -> Self {
        Pool { space: Allocator::new(size), live: Vec::new() }
    }

    fn take(&mut self, size: u32) -> Option<usize> {
        let allocation = self.space.allocate(size)?;
        self.live.push(allocation);
        Some(allocation.offset.to_usize())
    }
}

#[test]
fn for_both_index_types() {
    let mut wide = Pool::<u32>::new(100);
    let mut narrow = Pool::<u16>::new(100);
    assert_eq!((wide.take(10), narrow.take(10)), (Some(0), Some(0)));
    assert_eq!((wide.take(10), narrow.take(10)), (Some(10), Some(10)));
    assert_eq!((wide.take(81), narrow.take(81)), (None, None));
    wide.space.free(wide.live[0]);
    narrow.space.free(narrow.live[0]);
    assert_eq!((wide.take(10), narrow.take(10)), (Some(0), Some(0)));
}

#[test]
fn reports() {
    let mut a: Allocator = Allocator::with_max_allocs(100, 16);
    let StorageReport { total_free_space, largest_free_region } = a.storage_report();
    assert_eq!((total_free_space, largest_free_region), (100, 96));
    let report: StorageReportFull = a.storage_report_full();
    let StorageReportFullRegion { size, count } = report.free_regions[36];
    assert_eq!((size, count), (96, 1));
    assert_eq!(StorageReportFull::default().free_regions[3].count, StorageReportFullRegion::default().size);
    assert_eq!(format!("{a:?}"), "StorageReport { total_free_space: 100, largest_free_region: 96 }");
    assert_eq!(format!("{a:#?}").lines().count(), 4);
    let b = a.allocate(33).unwrap();
    assert_eq!(a.allocation_size(b), 33);
    a.reset();
    assert_eq!(a.allocation_size(b), 0);
    assert!(a.allocate(97).is_none());
    assert_eq!(a.allocate(96).unwrap().offset, 0);
}

#[test]
fn names() {
    type Name = <u32 as NodeIndex>::NonMax;
    assert!(Name::try_from(u32::MAX).is_err());
    let name = Name::try_from(7).ok().unwrap();
    assert_eq!((u32::from(name), name.to_usize()), (7, 7));
    assert_eq!(format!("{name} {name:?} {}", Name::default()), "7 7 0");
    assert_eq!(std::mem::size_of::<Option<Name>>(), 4);
    type Narrow = <u16 as NodeIndex>::NonMax;
    assert!(Narrow::try_from(u16::MAX).is_err());
    assert_eq!(u16::from(Narrow::try_from(65_534).ok().unwrap()), 65_534);
}

#[test]
fn sizes() {
    assert_eq!(min_allocator_size(118), 120);
    assert_eq!(min_allocator_size(4_026_531_840), 4_026_531_840);
    assert_eq!(min_allocator_size(u32::MAX), 0);
}

#[test]
fn new_has_as_many_allocations_as_it_says() {
    let mut wide: Allocator = Allocator::new(1 << 20);
    assert_eq!((0..200_000).take_while(|_| wide.allocate(1).is_some()).count(), 131_070);
    let mut narrow = Allocator::<u16>::new(1 << 20);
    assert_eq!((0..200_000).take_while(|_| narrow.allocate(1).is_some()).count(), 65_535 - 4);
}

#[test]
fn handles_are_as_small_as_the_originals() {
    use std::mem::size_of;
    assert_eq!((size_of::<Allocation>(), size_of::<Option<Allocation>>()), (8, 8));
    assert_eq!((size_of::<Allocation<u16>>(), size_of::<Option<Allocation<u16>>>()), (4, 4));
}

#[test]
fn only_the_name_counts() {
    let mut a = Allocator::<u16>::with_max_allocs(1 << 20, 16);
    let first = a.allocate(70_000).unwrap();
    let mut second = a.allocate(10).unwrap();
    assert_eq!(second.offset, 4_464);
    second.offset = 0;
    assert_eq!((a.allocation_size(second), a.allocation_size(first)), (10, 70_000));
    a.free(second);
    assert_eq!((a.allocation_size(second), a.allocation_size(first)), (0, 70_000));
}

#[test]
fn a_narrow_offset_is_cut() {
    let mut a = Allocator::<u16>::with_max_allocs(1 << 20, 16);
    a.allocate(65_536).unwrap();
    assert_eq!(a.allocate(1).unwrap().offset, 0);
}

#[test]
fn moves_to_threads() {
    fn is_free_to_move<T: Send + Sync>() {}
    is_free_to_move::<Allocator<u16>>();
    is_free_to_move::<Allocation>();
}

#[test]
#[should_panic(expected = "max_allocs must be at least 2")]
fn one_node() {
    Allocator::<u32>::with_max_allocs(10, 1);
}

#[test]
#[should_panic(expected = "max_allocs must be at most NI::MAX - 2")]
fn too_many_nodes() {
    Allocator::<u16>::with_max_allocs(10, 65_534);
}

#[test]
#[should_panic(expected = "the handle must be live: Allocation { offset: 0, metadata: 0 }")]
fn freed_twice() {
    let mut a: Allocator = Allocator::new(10);
    let h = a.allocate(1).unwrap();
    a.free(h);
    a.free(h);
}
