//! States: their bytes, each fault, and that a copy and a space that was read go on alike.

use super::asserts::{assert_same, assert_same_at, assert_that};
use super::layouts::{check, check_each, Expectation, ALL};
use offset_allocator::Global;
use offset_allocator::StateFaultKind::{
    Block, Checksum, Counts, Form, Free, Length, Limit, Neighbours, Unused,
};
use offset_allocator::{Allocation, AllocatorOf, NodeIndex, ReadError, StateFault, StateFaultKind, Tables};

// The first number of each state: "OAST".
pub(super) const FORM: u32 = 0x5453_414F;

// The bytes of numbers and their checksum.
pub(super) fn bytes_of(words: &[u32]) -> Vec<u8> {
    bytes_from(words, 0)
}

// The same with a checksum that begins at another number than 0.
fn bytes_from(words: &[u32], start: u32) -> Vec<u8> {
    let mut bytes = Vec::new();
    let mut sum = start;
    for word in words {
        bytes.extend_from_slice(&word.to_le_bytes());
        sum = sum.wrapping_mul(16_777_619).wrapping_add(*word);
    }
    bytes.extend_from_slice(&sum.to_le_bytes());
    bytes
}

// Numbers before a checksum, and what is wrong with them: where, and what.
struct Case {
    words: &'static [u32],
    fault: Option<(usize, StateFaultKind)>,
}

const CASES: [Case; 17] = [
    // one free block of 100 units, and a limit of 5
    Case {
        words: &[FORM, 1, 100, 5, 1, 1, 0, 0, 100, 0],
        fault: None,
    },
    // the same with an unused node
    Case {
        words: &[FORM, 1, 100, 5, 1, 1, 1, 0, 100, 0, 1],
        fault: None,
    },
    // used, free, used; the block at the end is first
    Case {
        words: &[FORM, 1, 100, 5, 3, 1, 0, 2, 50, 1, 20, 0, 30, 1],
        fault: None,
    },
    Case {
        words: &[FORM, 1, 100, 5, 1, 1],
        fault: Some((28, Length)),
    },
    Case {
        words: &[FORM, 1, 100, 5, 1, 1, 0, 0, 100, 0, 0],
        fault: Some((48, Length)),
    },
    Case {
        words: &[FORM - 1, 1, 100, 5, 1, 1, 0, 0, 100, 0],
        fault: Some((0, Form)),
    },
    Case {
        words: &[FORM, 2, 100, 5, 1, 1, 0, 0, 100, 0],
        fault: Some((0, Form)),
    },
    Case {
        words: &[FORM, 1, 100, 11, 1, 1, 0, 0, 100, 0],
        fault: Some((12, Limit)),
    },
    Case {
        words: &[FORM, 1, 0, 5, 0, 0, 0],
        fault: Some((16, Counts)),
    },
    // no free block, and no node for another
    Case {
        words: &[FORM, 1, 100, 2, 1, 0, 0, 0, 100],
        fault: Some((16, Counts)),
    },
    Case {
        words: &[FORM, 1, 100, 5, 1, 1, 0, 1, 100, 1],
        fault: Some((28, Block)),
    },
    Case {
        words: &[FORM, 1, 100, 5, 1, 1, 0, 0, 101, 0],
        fault: Some((32, Block)),
    },
    Case {
        words: &[FORM, 1, 100, 5, 2, 1, 0, 0, 50, 0, 50, 0],
        fault: Some((36, Block)),
    },
    Case {
        words: &[FORM, 1, 100, 5, 1, 1, 1, 0, 100, 0, 0],
        fault: Some((40, Unused)),
    },
    Case {
        words: &[FORM, 1, 100, 5, 1, 1, 1, 0, 100, 1, 1],
        fault: Some((36, Free)),
    },
    Case {
        words: &[FORM, 1, 100, 5, 1, 2, 0, 0, 100, 0, 0],
        fault: Some((36, Free)),
    },
    Case {
        words: &[FORM, 1, 100, 5, 2, 2, 0, 1, 50, 0, 50, 0, 1],
        fault: Some((36, Neighbours)),
    },
];

struct Faults;

impl Expectation for Faults {
    fn check<T: Tables>(&self) {
        for case in &CASES {
            let bytes = bytes_of(case.words);
            match AllocatorOf::<T>::read_state(Global, &bytes, 10) {
                Err(ReadError::Memory) => panic!("memory"),
                Err(ReadError::Fault(StateFault { at, kind })) => {
                    assert_same_at(&case.words, &Some((at, kind)), &case.fault)
                }
                Ok(space) => {
                    assert_same_at(&case.words, &None, &case.fault);
                    let written = space.write_state(Global).expect("memory");
                    assert_same_at(&case.words, &*written, &*bytes);
                }
            }
        }
    }
}

#[test]
fn each_fault() {
    check(&Faults);
}

struct Checksums;

impl Expectation for Checksums {
    // Another checksum than that of the numbers is a fault in its place, in the same bytes that are read with
    // the right one.
    fn check<T: Tables>(&self) {
        let words = [FORM, 1, 100, 5, 1, 1, 0, 0, 100, 0];
        for start in [1, 2, u32::MAX] {
            let bytes = bytes_from(&words, start);
            let read = AllocatorOf::<T>::read_state(Global, &bytes, 10);
            let fault = StateFault {
                at: 40,
                kind: Checksum,
            };
            assert_same_at(&start, &read.err(), &Some(ReadError::Fault(fault)));
        }
    }
}

#[test]
fn another_checksum() {
    check(&Checksums);
}

struct ExactBytes;

impl Expectation for ExactBytes {
    // The bytes of a fresh space, each worked out by hand: eight numbers, name and size of its block, the
    // free name, and the checksum.
    fn check<T: Tables>(&self) {
        let wanted = [
            b'O', b'A', b'S', b'T', 1, 0, 0, 0, 100, 0, 0, 0, 5, 0, 0, 0, 1, 0, 0, 0, 1, 0, 0, 0,
            0, 0, 0, 0, 0, 0, 0, 0, 100, 0, 0, 0, 0, 0, 0, 0, 71, 235, 117, 192,
        ];
        assert_that(5 < T::Index::MAX - 1);
        let space = AllocatorOf::<T>::with_max_allocs(Global, 100, 5).expect("memory");
        let written = space.write_state(Global).expect("memory");
        assert_same(&*written, &wanted[..]);
    }
}

#[test]
fn exact_bytes() {
    check(&ExactBytes);
}

// The answers of a space to 40 requests, between which ranges are freed.
fn answers<T: Tables>(
    space: &mut AllocatorOf<T>,
    held: &[Allocation<T::Index>],
) -> Vec<Option<Allocation<T::Index>>> {
    let mut found = Vec::new();
    for i in 0..40usize {
        let size = (i as u32).wrapping_mul(37) % 90;
        found.push(space.allocate(size));
        if let Some(handle) = held.get(i / 2) {
            if space.is_live(*handle) {
                space.free(*handle);
            }
        }
    }
    found
}

struct GoesOn;

impl Expectation for GoesOn {
    // A copy, and a space that was read, give the same handles as the space itself.
    fn check<T: Tables>(&self) {
        let limit = if T::Index::MAX > 13 { 12 } else { 5 };
        assert_that(limit < T::Index::MAX - 1);
        let mut space = AllocatorOf::<T>::with_max_allocs(Global, 1_000, limit).expect("memory");
        let mut held = Vec::new();
        for i in 0..10u32 {
            if let Some(handle) = space.allocate(i.wrapping_mul(29) % 70) {
                held.push(handle);
            }
        }
        for place in [2usize, 7, 4] {
            if let Some(handle) = held.get(place) {
                if space.is_live(*handle) {
                    space.free(*handle);
                }
            }
        }
        let bytes = space.write_state(Global).expect("memory");
        let mut copy = space.try_clone(Global).expect("memory");
        let same = copy.write_state(Global).expect("memory");
        assert_same(&*same, &*bytes);
        let mut read = match AllocatorOf::<T>::read_state(Global, &bytes, 12) {
            Ok(read) => read,
            Err(_) => return assert_that(false),
        };
        let wanted = answers(&mut space, &held);
        let copied = answers(&mut copy, &held);
        let found = answers(&mut read, &held);
        assert_that(wanted.iter().any(|it| it.is_some()));
        assert_same(&*copied, &*wanted);
        assert_same(&*found, &*wanted);
    }
}

#[test]
fn goes_on() {
    check_each(&ALL, &GoesOn);
}
