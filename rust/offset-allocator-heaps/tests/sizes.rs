//! Every call that may return out of memory, with units, alignments, node limits, made nodes and numbers of heaps in powers
//! of two: no clause says when memory is out, so a body that gives up at some sizes is proved, and refused here.

use offset_allocator::{AllocError, ByField, ByNode, Global, NodeIndex, Tables};
use offset_allocator_heaps::{HeapsOf, Limits, ReadError, Refusal};

// Makes a request, and returns whether a heap was made for it.
fn is_made<T: Tables>(heaps: &mut HeapsOf<T>, size: u32, align: u32) -> Result<bool, AllocError> {
    match heaps.allocate_aligned(size, align) {
        Ok(granted) => Ok(granted.is_new),
        Err(Refusal::Memory) => Err(AllocError),
        Err(_) => Ok(false),
    }
}

// What is read of a state, where memory is not out.
fn read<T, F: core::fmt::Debug>(read: Result<T, ReadError<F>>) -> Result<T, AllocError> {
    read.map_err(|error| match error {
        ReadError::Memory => AllocError,
        ReadError::Fault(fault) => panic!("{fault:?}"),
    })
}

// Every call of heaps of which as many are usual, and as many larger, as there may be.
fn use_of<T: Tables>(size: u32, max_allocs: u32, most: u32) -> Result<(), AllocError> {
    if max_allocs >= T::Index::MAX - 1 {
        return Ok(());
    }
    let limits = Limits {
        size,
        first_size: size,
        max_allocs,
        first_allocs: max_allocs,
        most,
        most_larger: most,
    };
    let mut heaps = HeapsOf::<T>::with_realm(Global, limits, 1)?;
    for _ in 0..most {
        assert!(is_made(&mut heaps, size, 1)?);
        assert!(is_made(&mut heaps, size + 1, 1)?);
    }
    assert_eq!(heaps.totals().heaps, 2 * most);
    assert!(!is_made(&mut heaps, 1, 8)?);
    let copy = heaps.try_clone(Global)?;
    let bytes = copy.write_state(Global)?;
    read(HeapsOf::<T>::read_state(Global, &bytes, 2 * most, max_allocs))?;
    heaps.reset();
    assert!(!is_made(&mut heaps, 1, 8)?);
    if let Ok(granted) = heaps.allocate(1) {
        assert!(heaps.free(granted.place));
    }
    assert!(heaps.give_up(0));
    heaps.reset();
    for _ in 0..2 * most - 1 {
        assert!(heaps.drop_empty(0).is_some());
    }
    assert_eq!(heaps.totals().heaps, 0);
    // their numbers are free again
    assert!(is_made(&mut heaps, size, 1)?);
    assert!(is_made(&mut heaps, size + 1, 1)?);
    Ok(())
}

fn heaps_of_each_size<T: Tables>() {
    for power in 0..32 {
        use_of::<T>(1 << power, 100, 2).expect("memory");
    }
    for power in 2..23 {
        use_of::<T>(1 << (3 * power % 32), 1 << power, 1).expect("memory");
    }
    for power in 0..12 {
        use_of::<T>(64, 4, 1 << power).expect("memory");
    }
}

// The first request of each heap, at each alignment.
fn first_requests<T: Tables>() -> Result<(), AllocError> {
    let limits = Limits { size: u32::MAX, first_size: u32::MAX, max_allocs: 100, first_allocs: 100, most: 1, most_larger: 0 };
    for power in 0..31 {
        for size in [1, 3, 1 << 30] {
            let mut heaps = HeapsOf::<T>::with_realm(Global, limits, 1)?;
            assert!(is_made(&mut heaps, size, 1 << power)?);
            assert!(!is_made(&mut heaps, size, 1 << power)?);
        }
    }
    Ok(())
}

// Copies and states of two heaps with so many nodes made, of which a quarter is live.
fn filled<T: Tables>(nodes: u32) -> Result<(), AllocError> {
    let limits = Limits { size: nodes, first_size: nodes, max_allocs: nodes + 2, first_allocs: nodes + 2, most: 2, most_larger: 0 };
    let mut heaps = HeapsOf::<T>::with_realm(Global, limits, 1)?;
    let mut places = Vec::new();
    for _ in 0..2 * nodes {
        match heaps.allocate(1) {
            Ok(granted) => places.push(granted.place),
            Err(why) => panic!("{why:?}"),
        }
    }
    for (at, place) in places.iter().enumerate() {
        if at % 2 == 0 || at % nodes as usize > nodes as usize / 2 {
            assert!(heaps.free(*place));
        }
    }
    let copy = heaps.try_clone(Global)?;
    assert_eq!(copy.totals(), heaps.totals());
    let bytes = heaps.write_state(Global)?;
    let read = read(HeapsOf::<T>::read_state(Global, &bytes, 2, nodes + 2))?;
    assert_eq!(read.totals(), heaps.totals());
    for place in places {
        assert_eq!(read.is_live(place), heaps.is_live(place));
    }
    Ok(())
}

fn filled_heaps<T: Tables>() {
    for power in 2..18 {
        if (1 << power) + 3 < T::Index::MAX {
            filled::<T>(1 << power).expect("memory");
        }
    }
}

#[test]
fn the_first_request_has_memory_at_each_alignment() {
    first_requests::<ByNode<u32>>().expect("memory");
    first_requests::<ByField<u16>>().expect("memory");
}

#[test]
fn each_number_of_nodes_has_memory() {
    filled_heaps::<ByNode<u32>>();
    filled_heaps::<ByNode<u16>>();
    filled_heaps::<ByField<u32>>();
}

#[test]
fn each_size_has_memory() {
    heaps_of_each_size::<ByNode<u32>>();
    heaps_of_each_size::<ByField<u32>>();
    heaps_of_each_size::<ByNode<u16>>();
    heaps_of_each_size::<ByField<u16>>();
}
