//! States with tickets: their bytes, each fault of the tickets, and that the same tickets are live in a space
//! that was read.

use super::asserts::{assert_same, assert_same_at, assert_that};
use super::layouts::{check, check_each, Expectation, Layout};
use super::states::{bytes_of, FORM as SPACE_FORM};
use offset_allocator::Global;
use offset_allocator::{NodeIndex, ReadError, StateFaultKind as SpaceFault, Tables};
use offset_allocator_guarded::StateFaultKind::{Allocator, Checksum, Form, Length, Realm, Serial, Step};
use offset_allocator_guarded::{GuardedOf, StateFault, StateFaultKind};

// The first number of each state: "OATK".
const FORM: u64 = 0x4B54_414F;

// A space of 100 units, with a limit of 5: a free block of 60 with the name 1 is at the end, behind a used
// one of 40 with the name 0.
const SPACE: [u32; 12] = [SPACE_FORM, 1, 100, 5, 2, 1, 0, 1, 60, 0, 40, 1];

// The numbers of tickets, the number that their checksum begins with, and what is wrong with them before that
// space.
struct Case {
    numbers: &'static [u64],
    start: u64,
    fault: Option<(usize, StateFaultKind)>,
}

// How many serials are stored, how many were given, the realm, the step, and the serials by name: with as many serials
// as nodes, one more, which a space has after a reset, and one fewer, as no grant had the name 1.
const CASES: [Case; 15] = [
    Case {
        numbers: &[FORM, 2, 2, 1, 7, 1, 1, 0],
        start: 0,
        fault: None,
    },
    Case {
        numbers: &[FORM, 2, 3, 9, 7, 0, 4, 9, 2],
        start: 0,
        fault: None,
    },
    Case {
        numbers: &[FORM, 2, 1, u64::MAX, 0xFFFF_FFFF, 0xFFFF_FFFF, u64::MAX],
        start: 0,
        fault: None,
    },
    Case {
        numbers: &[FORM + 1, 2, 2, 1, 7, 1, 1, 0],
        start: 0,
        fault: Some((0, Form)),
    },
    Case {
        numbers: &[FORM, 1, 2, 1, 7, 1, 0],
        start: 0,
        fault: Some((0, Form)),
    },
    // 124 bytes have 56 and 8 serials, and not 9
    Case {
        numbers: &[FORM, 2, 9, 1, 7, 1, 1, 0],
        start: 0,
        fault: Some((124, Length)),
    },
    Case {
        numbers: &[FORM, 2, u64::MAX, 1, 7, 1, 1, 0],
        start: 0,
        fault: Some((124, Length)),
    },
    Case {
        numbers: &[FORM, 2, 2, 1, 0x1_0000_0000, 1, 1, 0],
        start: 0,
        fault: Some((32, Realm)),
    },
    Case {
        numbers: &[FORM, 2, 2, 1, 7, 0x1_0000_0000, 1, 0],
        start: 0,
        fault: Some((40, Step)),
    },
    Case {
        numbers: &[FORM, 2, 2, 1, 7, 1, 1, 0],
        start: 1,
        fault: Some((64, Checksum)),
    },
    // a serial of a later grant than the last
    Case {
        numbers: &[FORM, 2, 2, 1, 7, 1, 2, 0],
        start: 0,
        fault: Some((48, Serial)),
    },
    Case {
        numbers: &[FORM, 2, 2, 1, 7, 1, 1, 2],
        start: 0,
        fault: Some((56, Serial)),
    },
    // none for the name 0, which is live
    Case {
        numbers: &[FORM, 2, 2, 1, 7, 1, 0, 1],
        start: 0,
        fault: Some((48, Serial)),
    },
    Case {
        numbers: &[FORM, 2, 0, 1, 7, 1],
        start: 0,
        fault: Some((16, Serial)),
    },
    // the bytes behind the checksum begin with the last two numbers
    Case {
        numbers: &[FORM, 2, 0, 0, 7, 1, 0, 0],
        start: 0,
        fault: Some((48, Checksum)),
    },
];

// The bytes of numbers of tickets and their checksum, and of the space.
fn state_of(numbers: &[u64], start: u64) -> Vec<u8> {
    let mut bytes = Vec::new();
    let mut sum = start;
    for number in numbers {
        bytes.extend_from_slice(&number.to_le_bytes());
        sum = sum.wrapping_mul(1_099_511_628_211).wrapping_add(*number);
    }
    bytes.extend_from_slice(&sum.to_le_bytes());
    bytes.extend_from_slice(&bytes_of(&SPACE));
    bytes
}

struct Faults;

impl Expectation for Faults {
    fn check<T: Tables>(&self) {
        for case in &CASES {
            let bytes = state_of(case.numbers, case.start);
            match GuardedOf::<T>::read_state(Global, &bytes, 5) {
                Err(ReadError::Memory) => panic!("memory"),
                Err(ReadError::Fault(StateFault { at, kind })) => {
                    assert_same_at(&case.numbers, &Some((at, kind)), &case.fault)
                }
                Ok(space) => {
                    assert_same_at(&case.numbers, &None, &case.fault);
                    let written = space.write_state(Global).expect("memory");
                    assert_same_at(&case.numbers, &*written, &*bytes);
                }
            }
        }
        // a limit that is not admitted, 12 bytes behind the 72 of the tickets
        let bytes = state_of(&[FORM, 2, 2, 1, 7, 1, 1, 0], 0);
        let read = GuardedOf::<T>::read_state(Global, &bytes, 4);
        let fault = StateFault {
            at: 84,
            kind: Allocator(SpaceFault::Limit),
        };
        assert_same(&read.err(), &Some(ReadError::Fault(fault)));
    }
}

#[test]
fn each_fault() {
    check(&Faults);
}

struct ExactBytes;

impl Expectation for ExactBytes {
    // The bytes of a fresh space of realm 7, worked out by hand: six numbers, of which the third and the
    // fourth say that no serial is stored and none was given, their checksum, and the bytes of the space, as
    // `states` has them.
    fn check<T: Tables>(&self) {
        let wanted = [
            b'O', b'A', b'T', b'K', 0, 0, 0, 0, 2, 0, 0, 0, 0, 0, 0, 0, 0, 0, 0, 0, 0, 0, 0, 0, 0,
            0, 0, 0, 0, 0, 0, 0, 7, 0, 0, 0, 0, 0, 0, 0, 1, 0, 0, 0, 0, 0, 0, 0, 149, 124, 108, 107,
            56, 165, 66, 142, b'O', b'A', b'S', b'T', 1, 0, 0, 0, 100, 0, 0, 0, 5, 0, 0, 0, 1, 0, 0,
            0, 1, 0, 0, 0, 0, 0, 0, 0, 0, 0, 0, 0, 100, 0, 0, 0, 0, 0, 0, 0, 71, 235, 117, 192,
        ];
        assert_that(5 < T::Index::MAX - 1);
        let space = GuardedOf::<T>::with_realm(Global, 100, 5, 7).expect("memory");
        let written = space.write_state(Global).expect("memory");
        assert_same(&*written, &wanted[..]);
    }
}

#[test]
fn exact_bytes() {
    check(&ExactBytes);
}

struct GoesOn;

impl Expectation for GoesOn {
    // What is freed after the bytes were written is live in the space that is read, and what was freed before
    // is not.
    fn check<T: Tables>(&self) {
        let mut space = GuardedOf::<T>::with_realm(Global, 64, 16, 7).expect("memory");
        let first = space.allocate(8).expect("a grant");
        let second = space.allocate(8).expect("a grant");
        assert_that(space.free(first));
        let bytes = space.write_state(Global).expect("memory");
        assert_that(space.free(second));
        let mut read = match GuardedOf::<T>::read_state(Global, &bytes, u32::MAX) {
            Ok(read) => read,
            Err(_) => return assert_that(false),
        };
        assert_same(&read.realm(), &7);
        assert_that(!read.is_live(first));
        assert_same(&read.size_of(second), &Some(8));
        assert_same(&read.offset_of(second), &Some(8));
        let third = read.allocate(8).expect("a grant");
        assert_same(&third.serial(), &3);
        assert_that(read.free(second) && !read.free(second));
        assert_that(read.is_live(third) && !read.is_live(first));
    }
}

#[test]
fn goes_on() {
    check_each(&[Layout::Wide, Layout::Narrow], &GoesOn);
}
