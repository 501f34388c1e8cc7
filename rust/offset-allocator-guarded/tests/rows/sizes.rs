//! Every call that may return out of memory, at sizes in powers of two, and with as many nodes made: no clause says when
//! memory is out, so a body that gives up at some sizes is proved, and refused here. Large spaces and node limits that are
//! reached grant and report what they have to.

use super::layouts::{check_each, Expectation, ALL};
use offset_allocator::{json_of, vma_json_of};
use offset_allocator::{AllocError, Allocation, AllocatorOf, Global, NodeIndex, ReadError, StorageReport, Tables};
use offset_allocator_guarded::{GuardedOf, Ticket};
use offset_script::full_answer;

// Whether the index type admits a node limit.
fn is_admitted<T: Tables>(limit: u32) -> bool {
    (2..T::Index::MAX - 1).contains(&limit)
}

// Twice this limit, or the largest that the index type admits.
fn limit_above<T: Tables>(limit: u32) -> u32 {
    limit.saturating_mul(2).min(T::Index::MAX - 2)
}

// What is read of a state, where memory is not out.
fn read<T, F: core::fmt::Debug>(read: Result<T, ReadError<F>>) -> Result<T, AllocError> {
    read.map_err(|error| match error {
        ReadError::Memory => AllocError,
        ReadError::Fault(fault) => panic!("{fault:?}"),
    })
}

// Every call of a space and of a guarded one, with requests of `units` units, where the limit is admitted.
fn use_of<T: Tables>(max_allocs: u32, units: u32) -> Result<u32, AllocError> {
    if !is_admitted::<T>(max_allocs) {
        return Ok(0);
    }
    let mut space = AllocatorOf::<T>::with_max_allocs(Global, units, max_allocs)?;
    space.allocate(units);
    space.extend(units);
    space.allocate_aligned(1, units);
    space.compact(|_| {});
    space.try_clone(Global)?;
    space.raised(Global, limit_above::<T>(max_allocs))?;
    let bytes = space.write_state(Global)?;
    read(AllocatorOf::<T>::read_state(Global, &bytes, max_allocs))?;
    space.reset();
    let mut guarded = GuardedOf::<T>::with_realm(Global, units, max_allocs, 1)?;
    if let Some(ticket) = guarded.allocate(units) {
        guarded.extend(units);
        guarded.grow_in_place(ticket, units.saturating_add(1));
        assert_eq!(guarded.shrink(ticket, 1), Some(true));
        assert!(guarded.free(ticket));
    }
    guarded.try_clone(Global)?;
    guarded.raised(Global, limit_above::<T>(max_allocs))?;
    let bytes = guarded.write_state(Global)?;
    read(GuardedOf::<T>::read_state(Global, &bytes, max_allocs))?;
    guarded.reset();
    Ok(1)
}

struct Spaces;

impl Expectation for Spaces {
    fn check<T: Tables>(&self) {
        AllocatorOf::<T>::new(Global, u32::MAX).expect("memory");
        GuardedOf::<T>::new(Global, u32::MAX).expect("memory");
        let mut count = 0;
        for power in 1..23 {
            count += use_of::<T>(1 << power, 1 << (3 * power % 32)).expect("memory");
        }
        assert_eq!(count, (1..23).filter(|power| is_admitted::<T>(1 << power)).count() as u32);
        for power in 0..32 {
            let made = use_of::<T>(100, 1 << power).expect("memory");
            assert_eq!(made, u32::from(is_admitted::<T>(100)));
        }
    }
}

// Sizes of spaces, each with the largest class value that is no larger.
const SIZES: [(u32, u32); 7] = [
    (600_000_000, 536_870_912),
    (1_073_741_823, 1_006_632_960),
    (1_073_741_824, 1_073_741_824),
    (1_073_741_825, 1_073_741_824),
    (2_147_483_648, 2_147_483_648),
    (4_026_531_841, 4_026_531_840),
    (4_294_967_295, 4_026_531_840),
];

const WHOLE: StorageReport = StorageReport {
    total_free_space: u32::MAX,
    largest_free_region: 4_026_531_840,
};

// Grants as many ranges of one unit as the limit admits, each at the next offset, and then none.
fn fill<T: Tables>(space: &mut AllocatorOf<T>) -> Vec<Allocation<T::Index>> {
    let handles: Vec<_> = (0..space.max_allocs() - 2)
        .map(|offset| {
            let handle = space.allocate(1).expect("room");
            assert_eq!(handle.offset, offset);
            handle
        })
        .collect();
    assert!(space.allocate(1).is_none());
    handles
}

struct Limits;

impl Expectation for Limits {
    fn check<T: Tables>(&self) {
        for (size, largest) in SIZES {
            let mut space = AllocatorOf::<T>::new(Global, size).expect("memory");
            assert_eq!(space.storage_report(), StorageReport { total_free_space: size, largest_free_region: largest });
            assert!(space.allocate(largest + 1).is_none());
            assert_eq!(space.allocate(largest).expect("room").offset, 0);
        }
        let default = T::Index::MAX.saturating_sub(2).min(131_072);
        for limit in [3, 65_533, default, 131_073, 300_000] {
            if !is_admitted::<T>(limit) {
                continue;
            }
            let mut space = match limit == default {
                true => AllocatorOf::<T>::new(Global, u32::MAX),
                false => AllocatorOf::<T>::with_max_allocs(Global, u32::MAX, limit),
            }
            .expect("memory");
            assert_eq!(space.max_allocs(), limit);
            for handle in fill(&mut space) {
                assert!(space.is_live(handle));
                assert_eq!(space.allocation_size(handle), 1);
                space.free(handle);
                assert!(!space.is_live(handle));
            }
            assert_eq!(space.storage_report(), WHOLE);
            fill(&mut space);
            space.reset();
            assert_eq!(space.storage_report(), WHOLE);
        }
    }
}

// A space with as many nodes made as its limit admits. A quarter of its ranges is live, each beside a free block; the
// others were freed, and coalesced: so there are as many unused names.
fn filled<T: Tables>(max_allocs: u32) -> Result<AllocatorOf<T>, AllocError> {
    let mut space = AllocatorOf::<T>::with_max_allocs(Global, u32::MAX, max_allocs)?;
    let handles = fill(&mut space);
    for (place, handle) in handles.iter().enumerate() {
        if place % 2 == 0 || place > handles.len() / 2 {
            space.free(*handle);
        }
    }
    assert_eq!(space.node_count(), max_allocs - 1);
    Ok(space)
}

// The same with tickets.
fn filled_guarded<T: Tables>(max_allocs: u32) -> Result<GuardedOf<T>, AllocError> {
    let mut guarded = GuardedOf::<T>::with_realm(Global, u32::MAX, max_allocs, 1)?;
    let tickets: Vec<Ticket> = (0..max_allocs - 2).map(|_| guarded.allocate(1).expect("room")).collect();
    for (place, ticket) in tickets.iter().enumerate() {
        if place % 2 == 0 || place > tickets.len() / 2 {
            assert!(guarded.free(*ticket));
        }
    }
    assert_eq!(guarded.allocator().node_count(), max_allocs - 1);
    Ok(guarded)
}

// A call that takes memory, of a space and of a guarded one whose nodes are all made.
type Row<T> = (&'static str, fn(&AllocatorOf<T>, &GuardedOf<T>) -> Result<(), AllocError>);

// Each such call.
fn rows<T: Tables>() -> [Row<T>; 11] {
    [
        ("try_clone", |space, _| {
            let copy = space.try_clone(Global)?;
            assert_eq!(copy.statistics(), space.statistics());
            assert_eq!(copy.node_count(), space.node_count());
            Ok(())
        }),
        ("raised", |space, _| {
            let larger = limit_above::<T>(space.max_allocs());
            let raised = space.raised(Global, larger)?;
            assert_eq!((raised.free_units(), raised.live_units()), (space.free_units(), space.live_units()));
            assert_eq!((raised.max_allocs(), raised.node_count()), (larger, space.node_count()));
            Ok(())
        }),
        ("write_state", |space, _| {
            let sums = space.statistics();
            let unused = space.node_count() - space.block_count();
            let words = 8 + 2 * space.block_count() + sums.free_blocks + unused;
            assert_eq!(space.write_state(Global)?.len(), 4 * words as usize);
            Ok(())
        }),
        ("read_state", |space, _| {
            let bytes = space.write_state(Global)?;
            let read = read(AllocatorOf::<T>::read_state(Global, &bytes, space.max_allocs()))?;
            assert_eq!(read.statistics(), space.statistics());
            assert_eq!(read.node_count(), space.node_count());
            Ok(())
        }),
        ("json_of", |space, _| {
            assert!(json_of(Global, space)?.len() > 20 * space.block_count() as usize);
            Ok(())
        }),
        ("vma_json_of", |space, _| {
            assert!(vma_json_of(Global, space)?.len() > 20 * space.block_count() as usize);
            Ok(())
        }),
        ("full_answer", |space, _| full_answer(Global, space).map(|_| ())),
        ("try_clone with tickets", |_, guarded| {
            let copy = guarded.try_clone(Global)?;
            assert_eq!(copy.allocator().statistics(), guarded.allocator().statistics());
            Ok(())
        }),
        ("raised with tickets", |_, guarded| {
            let larger = limit_above::<T>(guarded.allocator().max_allocs());
            let raised = guarded.raised(Global, larger)?;
            assert_eq!((raised.realm(), raised.allocator().max_allocs()), (guarded.realm(), larger));
            assert_eq!(raised.allocator().live_units(), guarded.allocator().live_units());
            Ok(())
        }),
        ("write_state with tickets", |space, guarded| {
            // a serial for each name, which is in 64 bits
            let length = guarded.write_state(Global)?.len();
            assert_eq!(length, space.write_state(Global)?.len() + 56 + 8 * space.node_count() as usize);
            Ok(())
        }),
        ("read_state with tickets", |_, guarded| {
            let bytes = guarded.write_state(Global)?;
            let limit = guarded.allocator().max_allocs();
            let read = read(GuardedOf::<T>::read_state(Global, &bytes, limit))?;
            assert_eq!(read.allocator().statistics(), guarded.allocator().statistics());
            Ok(())
        }),
    ]
}

struct Filled;

impl Expectation for Filled {
    fn check<T: Tables>(&self) {
        for power in 2..19 {
            let max_allocs = (1 << power) + 2;
            if !is_admitted::<T>(max_allocs) {
                break;
            }
            let space = filled::<T>(max_allocs).expect("memory");
            let guarded = filled_guarded::<T>(max_allocs).expect("memory");
            for (name, row) in rows::<T>() {
                assert!(row(&space, &guarded).is_ok(), "{name} with {max_allocs} nodes");
            }
        }
    }
}

#[test]
fn each_size_has_memory() {
    check_each(&ALL, &Spaces);
}

#[test]
fn each_number_of_nodes_has_memory() {
    check_each(&ALL, &Filled);
}

#[test]
fn large_spaces_and_limits_are_used_up() {
    check_each(&ALL, &Limits);
}
