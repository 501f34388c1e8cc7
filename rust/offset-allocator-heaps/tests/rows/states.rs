//! The state of many heaps: its bytes, each fault of its numbers, and that the same places are live in heaps
//! that were read or copied.

use super::{granted, in_each_layout, limits, new};
use offset_allocator::{Global, ReadError, Tables};
use offset_allocator_heaps::StateFaultKind::{Checksum, Counts, Form, Heap, Length, Place as OfPlace, Realm, Size};
use offset_allocator_heaps::StateFaultKind::Limits as OfLimits;
use offset_allocator_heaps::{HeapsOf, Place, StateFault, StateFaultKind};
use offset_guarded::StateFaultKind as HeapFault;

// The first numbers of the states: "OAHS", "OATK" and "OAST".
const HEAPS: u64 = 0x5348_414F;

const TICKETS: u64 = 0x4B54_414F;

const SPACE: u32 = 0x5453_414F;

// The numbers of many heaps, the number that their checksum begins with, and what is wrong with them before
// the state of one heap, of 72 + 52 bytes.
struct Case {
    numbers: &'static [u64],
    start: u64,
    fault: Option<(usize, StateFaultKind)>,
}

// The limits, the realm of the heap that was made last, the realm, and the places: of one usual heap, and of a
// larger one that is not there. The state of the heap begins behind 8 * 14 bytes.
const CASES: [Case; 32] = [
    Case {
        numbers: &[HEAPS, 3, 100, 100, 4, 4, 1, 1, 1, 9, 0, 124, 124],
        start: 0,
        fault: None,
    },
    // it may be a larger heap, whose units are those of any request
    Case {
        numbers: &[
            HEAPS,
            3,
            0xFFFF_FFFF,
            0xFFFF_FFFF,
            5,
            5,
            0,
            2,
            0xFFFF_FFFF,
            0,
            0,
            0,
            124,
        ],
        start: 0,
        fault: None,
    },
    Case {
        numbers: &[HEAPS + 1, 3, 100, 100, 4, 4, 1, 1, 1, 9, 0, 124, 124],
        start: 0,
        fault: Some((0, Form)),
    },
    Case {
        numbers: &[HEAPS, 2, 100, 100, 4, 4, 1, 1, 1, 9, 0, 124, 124],
        start: 0,
        fault: Some((0, Form)),
    },
    Case {
        numbers: &[
            HEAPS,
            3,
            0x1_0000_0000,
            0x1_0000_0000,
            4,
            4,
            1,
            1,
            1,
            9,
            0,
            124,
            124,
        ],
        start: 0,
        fault: Some((16, OfLimits)),
    },
    Case {
        numbers: &[HEAPS, 3, 100, 100, 3, 3, 1, 1, 1, 9, 0, 124, 124],
        start: 0,
        fault: Some((32, OfLimits)),
    },
    // a node limit of 21, and 41 numbers, are more than the caller admits
    Case {
        numbers: &[HEAPS, 3, 100, 100, 21, 21, 1, 1, 1, 9, 0, 124, 124],
        start: 0,
        fault: Some((32, OfLimits)),
    },
    Case {
        numbers: &[HEAPS, 3, 100, 100, 4, 4, 1, 40, 1, 9, 0, 124, 124],
        start: 0,
        fault: Some((56, OfLimits)),
    },
    Case {
        numbers: &[HEAPS, 3, 100, 100, 4, 4, u64::MAX, 2, 1, 9, 0, 124, 124],
        start: 0,
        fault: Some((48, OfLimits)),
    },
    Case {
        numbers: &[
            HEAPS,
            3,
            100,
            100,
            4,
            4,
            1,
            1,
            1,
            0x1_0000_0000,
            0,
            124,
            124,
        ],
        start: 0,
        fault: Some((72, Counts)),
    },
    // 236 bytes have 96 and those of 17 numbers, and not of 18
    Case {
        numbers: &[HEAPS, 3, 100, 100, 4, 4, 1, 17, 1, 9, 0, 124, 124],
        start: 0,
        fault: Some((236, Length)),
    },
    Case {
        numbers: &[HEAPS, 3, 100, 100, 4, 4, 1, 1, 1, 9, 0, 124, 124],
        start: 1,
        fault: Some((104, Checksum)),
    },
    // the heap has 100 units, and the node limit 4: it may have more units than the usual one of its number
    Case {
        numbers: &[HEAPS, 3, 101, 101, 4, 4, 1, 1, 1, 9, 0, 124, 124],
        start: 0,
        fault: Some((112, Size)),
    },
    Case {
        numbers: &[HEAPS, 3, 99, 99, 4, 4, 1, 1, 1, 9, 0, 124, 124],
        start: 0,
        fault: None,
    },
    // the size of the usual heap of number 0 is at least 1, and at most the largest one, or both are 0
    Case {
        numbers: &[HEAPS, 3, 100, 0, 4, 4, 1, 1, 1, 9, 0, 124, 124],
        start: 0,
        fault: Some((24, OfLimits)),
    },
    Case {
        numbers: &[HEAPS, 3, 100, 101, 4, 4, 1, 1, 1, 9, 0, 124, 124],
        start: 0,
        fault: Some((24, OfLimits)),
    },
    Case {
        numbers: &[HEAPS, 3, 0, 0, 4, 4, 1, 1, 1, 9, 0, 124, 124],
        start: 0,
        fault: None,
    },
    // each usual heap has twice the units of the one before it
    Case {
        numbers: &[HEAPS, 3, 400, 100, 4, 4, 2, 0, 1, 9, 0, 124, 124],
        start: 0,
        fault: None,
    },
    Case {
        numbers: &[HEAPS, 3, 400, 50, 4, 4, 2, 0, 1, 9, 0, 0, 124],
        start: 0,
        fault: None,
    },
    Case {
        numbers: &[HEAPS, 3, 400, 51, 4, 4, 2, 0, 1, 9, 0, 0, 124],
        start: 0,
        fault: Some((112, Size)),
    },
    Case {
        numbers: &[HEAPS, 3, 101, 101, 4, 4, 0, 2, 1, 9, 0, 124, 124],
        start: 0,
        fault: None,
    },
    Case {
        numbers: &[HEAPS, 3, 100, 100, 5, 5, 1, 1, 1, 9, 0, 124, 124],
        start: 0,
        fault: Some((112, Size)),
    },
    // heaps may begin with the largest limit, or with at least 8 nodes and no more than the largest limit
    Case {
        numbers: &[HEAPS, 3, 100, 100, 4, 5, 1, 1, 1, 9, 0, 124, 124],
        start: 0,
        fault: Some((40, OfLimits)),
    },
    Case {
        numbers: &[HEAPS, 3, 100, 100, 5, 4, 1, 1, 1, 9, 0, 124, 124],
        start: 0,
        fault: Some((40, OfLimits)),
    },
    Case {
        numbers: &[HEAPS, 3, 100, 100, 20, 7, 1, 1, 1, 9, 0, 124, 124],
        start: 0,
        fault: Some((40, OfLimits)),
    },
    // the heap has fewer nodes than one begins with, and may be a larger heap
    Case {
        numbers: &[HEAPS, 3, 100, 100, 20, 8, 1, 1, 1, 9, 0, 124, 124],
        start: 0,
        fault: Some((112, Size)),
    },
    Case {
        numbers: &[HEAPS, 3, 100, 100, 20, 8, 0, 2, 1, 9, 0, 124, 124],
        start: 0,
        fault: None,
    },
    // the second number is that of a usual heap too
    Case {
        numbers: &[HEAPS, 3, 100, 100, 5, 5, 2, 0, 1, 9, 0, 0, 124],
        start: 0,
        fault: Some((112, Size)),
    },
    // a heap of the first realm, where none was made
    Case {
        numbers: &[HEAPS, 3, 100, 100, 4, 4, 1, 1, 0, 9, 0, 124, 124],
        start: 0,
        fault: Some((112 + 32, Realm)),
    },
    Case {
        numbers: &[HEAPS, 3, 100, 100, 4, 4, 1, 1, 1, 9, 0, 125, 124],
        start: 0,
        fault: Some((88, OfPlace)),
    },
    Case {
        numbers: &[HEAPS, 3, 100, 100, 4, 4, 1, 1, 1, 9, 0, 124, 123],
        start: 0,
        fault: Some((96, OfPlace)),
    },
    // 8 bytes are no state of a heap
    Case {
        numbers: &[HEAPS, 3, 100, 100, 4, 4, 1, 1, 1, 9, 0, 8, 124],
        start: 0,
        fault: Some((112 + 8, Heap(HeapFault::Length))),
    },
];

// Numbers of 64 bits, and their checksum, which begins with `start`.
fn add_numbers(bytes: &mut Vec<u8>, numbers: &[u64], start: u64) {
    let mut sum = start;
    for number in numbers {
        bytes.extend_from_slice(&number.to_le_bytes());
        sum = sum.wrapping_mul(1_099_511_628_211).wrapping_add(*number);
    }
    bytes.extend_from_slice(&sum.to_le_bytes());
}

fn add_words(bytes: &mut Vec<u8>, words: &[u32]) {
    let mut sum = 0u32;
    for word in words {
        bytes.extend_from_slice(&word.to_le_bytes());
        sum = sum.wrapping_mul(16_777_619).wrapping_add(*word);
    }
    bytes.extend_from_slice(&sum.to_le_bytes());
}

// These numbers, and a heap of 100 units with the first realm: a free block of 40 with the name 1 is at the
// end, behind a used one of 60 with the name 0, which has the first serial.
fn state_of(numbers: &[u64], start: u64) -> Vec<u8> {
    let mut bytes = Vec::new();
    add_numbers(&mut bytes, numbers, start);
    add_numbers(&mut bytes, &[TICKETS, 2, 2, 1, 1, 1, 1, 0], 0);
    add_words(&mut bytes, &[SPACE, 1, 100, 4, 2, 1, 0, 1, 40, 0, 60, 1]);
    bytes
}

// What is wrong with each case; what is read is written back.
fn expect_faults<T: Tables>() {
    for case in &CASES {
        let bytes = state_of(case.numbers, case.start);
        match HeapsOf::<T>::read_state(Global, &bytes, 40, 20) {
            Err(ReadError::Memory) => panic!("memory"),
            Err(ReadError::Fault(StateFault { at, kind })) => assert_eq!(Some((at, kind)), case.fault, "{:?}", case.numbers),
            Ok(heaps) => {
                assert_eq!(None, case.fault, "{:?}", case.numbers);
                let written = heaps.write_state(Global).expect("memory");
                assert_eq!(&*written, &*bytes);
            }
        }
    }
}

// The place of the used block is live, and the next heap has the second realm.
fn expect_place<T: Tables>(heaps: &mut HeapsOf<T>, place: Place) {
    assert_eq!(heaps.size_of(place), Some(60));
    assert_eq!(heaps.totals().free_units, 40);
    let next = granted(heaps, 97);
    assert_eq!(next.heap, 1);
    assert_eq!(next.heap_realm(), 2);
    assert!(heaps.free(place));
}

fn expect_state<T: Tables>() {
    let heaps: &mut HeapsOf<T> = &mut new(limits(100, 4, 4, 1, 1));
    let place = granted(heaps, 60);
    let bytes = state_of(CASES[0].numbers, 0);
    let written = heaps.write_state(Global).expect("memory");
    assert_eq!(&*written, &*bytes);
    let mut copy = heaps.try_clone(Global).expect("memory");
    expect_place(&mut copy, place);
    let mut read = HeapsOf::<T>::read_state(Global, &bytes, 2, 4).unwrap_or_else(|_| panic!("it is read"));
    expect_place(&mut read, place);
    // neither was a step of these
    expect_place(heaps, place);
}

#[test]
fn states() {
    in_each_layout!(expect_state);
    in_each_layout!(expect_faults);
}
