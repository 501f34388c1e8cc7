//! Spaces whose end is emptied and taken off, and moves in pieces.

use super::asserts::{assert_same, assert_that};
use super::steps::Limit::{Few, Limited};
use super::steps::Step::{
    Beside, Compacts, Counts, Extends, First, Frees, Grants, Is, Last, Lives, Refuses, Relocates,
    RelocatesAligned, Reports, Retracts, Stays, StaysAligned,
};
use super::steps::{expect_all, Case};
use offset_allocator::Global;
use offset_allocator::{Allocator, MovePieces, Piece};

const ENDED: [Case; 9] = [
    Case {
        name: "takes units off a free last block",
        size: 100,
        limit: Limited(8),
        steps: &[
            Grants(10, 0),
            Retracts(91, false),
            Retracts(0, true),
            Is(100, 2, false),
            Retracts(30, true),
            Is(70, 2, false),
            Counts(&[(31, 60, 1)]),
            Grants(20, 10),
            Retracts(41, false),
            // nothing is left of the last block, which goes
            Retracts(40, true),
            Is(30, 2, false),
            Reports(0, 0),
            Retracts(1, false),
            Lives(0, 10),
            Lives(1, 20),
            Extends(5, true),
            Grants(5, 30),
        ],
    },
    // The only block stays, with no unit.
    Case {
        name: "takes all units off a space",
        size: 10,
        limit: Few,
        steps: &[
            Retracts(10, true),
            Is(0, 1, false),
            Refuses(1),
            Retracts(1, false),
            Extends(4, true),
            Grants(4, 0),
        ],
    },
    // What is left is the newest of its bin: the block before would be granted else.
    Case {
        name: "what is left is the newest",
        size: 100,
        limit: Limited(8),
        steps: &[
            Grants(32, 0),
            Grants(4, 32),
            Frees(0),
            Retracts(32, true),
            Counts(&[(24, 32, 2)]),
            Grants(32, 36),
            Grants(32, 0),
        ],
    },
    Case {
        name: "a range finds a place before it",
        size: 100,
        limit: Limited(8),
        steps: &[
            Grants(10, 0),
            Grants(10, 10),
            Grants(10, 20),
            // each request would be granted at the end
            Stays(0),
            Stays(2),
            Frees(0),
            Relocates(2, 0),
            Is(100, 4, false),
            Lives(2, 10),
            Stays(1),
            Frees(2),
            Retracts(80, true),
            Is(20, 2, false),
        ],
    },
    // The smallest class that fits is taken, though the block begins after the range and another one before it.
    Case {
        name: "a block after the range is not taken",
        size: 60,
        limit: Limited(12),
        steps: &[
            Grants(20, 0),
            Grants(10, 20),
            Grants(10, 30),
            Grants(20, 40),
            Frees(0),
            Frees(2),
            Stays(1),
            Relocates(3, 0),
        ],
    },
    // 64 units from a multiple of 256 need 319, which the block of 320 has; with 66 they need 321, which only the last
    // block has.
    Case {
        name: "a second range begins at a multiple",
        size: 1000,
        limit: Limited(10),
        steps: &[
            Grants(10, 0),
            Grants(320, 10),
            Grants(64, 330),
            Grants(66, 394),
            StaysAligned(2, 256),
            Frees(1),
            StaysAligned(3, 256),
            StaysAligned(2, 1 << 31),
            RelocatesAligned(2, 256, 256),
            Lives(2, 64),
            Is(1000, 7, false),
            // the remainder and the units after it are one block now
            Frees(2),
            RelocatesAligned(3, 1, 320),
            StaysAligned(0, 1),
        ],
    },
    // The block begins before the range, and has room for the padding alone: of no units, the second range begins where
    // the first one does.
    Case {
        name: "a second range of no units",
        size: 100,
        limit: Limited(10),
        steps: &[
            Grants(1, 0),
            Grants(3, 1),
            Grants(0, 4),
            Frees(1),
            Stays(0),
            RelocatesAligned(2, 4, 4),
        ],
    },
    Case {
        name: "a full space has no second range",
        size: 20,
        limit: Limited(4),
        steps: &[
            Grants(5, 0),
            Grants(5, 5),
            Frees(0),
            Stays(1),
            Is(20, 3, true),
        ],
    },
    Case {
        name: "live ranges have neighbours",
        size: 96,
        limit: Limited(12),
        steps: &[
            Last(None),
            First(None),
            Grants(10, 0),
            Grants(10, 10),
            Grants(10, 20),
            Last(Some(2)),
            First(Some(0)),
            Beside(0, None, Some(1)),
            Beside(1, Some(0), Some(2)),
            Beside(2, Some(1), None),
            // a free block is between, and a range that is freed has no neighbour
            Frees(1),
            Beside(0, None, Some(2)),
            Beside(1, None, None),
            Beside(2, Some(0), None),
            Frees(0),
            // over the free units at the start
            First(Some(2)),
            Beside(2, None, None),
            Frees(2),
            Last(None),
            Beside(2, None, None),
            // the last range ends the space
            Grants(96, 0),
            Last(Some(3)),
            First(Some(3)),
            Beside(3, None, None),
            Compacts(&[]),
        ],
    },
];

#[test]
fn ends_are_emptied() {
    expect_all(&ENDED);
}

// A piece, as a row of a table.
fn expect_piece(found: Option<Piece>, from: u32, to: u32, size: u32) {
    assert_same(&found, &Some(Piece { from, to, size }));
}

// 20 units go from 10 to 4: six at a time do not overlap.
#[test]
fn moves_are_made_in_pieces() {
    let mut pieces = MovePieces::of(10, 4, 20, 100);
    expect_piece(pieces.next(), 10, 4, 6);
    expect_piece(pieces.next(), 16, 10, 6);
    let mut copy = pieces.clone();
    expect_piece(copy.next(), 22, 16, 6);
    expect_piece(pieces.next(), 22, 16, 6);
    expect_piece(pieces.next(), 28, 22, 2);
    assert_that(pieces.next().is_none() && pieces.next().is_none());
    // at most five units in a piece; and a move that is apart is one piece
    let mut pieces = MovePieces::of(7, 1, 6, 5);
    expect_piece(pieces.next(), 7, 1, 5);
    expect_piece(pieces.next(), 12, 6, 1);
    assert_that(pieces.next().is_none());
    let mut pieces = MovePieces::of(4294967294, 0, 1, 4294967295);
    expect_piece(pieces.next(), 4294967294, 0, 1);
    assert_that(pieces.next().is_none());
    assert_that(MovePieces::of(1, 0, 0, 1).next().is_none());
}

// The first range moves by fewer units than it has, the second one by more.
#[test]
fn moves_say_whether_they_overlap() {
    let mut space = Allocator::<u32>::with_max_allocs(Global, 100, 16).expect("memory");
    let first = space.allocate(10).expect("room");
    assert_that(space.allocate(20).is_some());
    let third = space.allocate(10).expect("room");
    assert_that(space.allocate(20).is_some());
    assert_that(space.is_live(first) && space.is_live(third));
    space.free(first);
    assert_that(space.is_live(third));
    space.free(third);
    let mut apart = (0u32, 0u32);
    space.compact(|range| {
        let (yes, no) = apart;
        if range.is_apart() {
            apart = (yes.saturating_add(1), no);
        } else {
            apart = (yes, no.saturating_add(1));
        }
    });
    assert_same(&apart, &(1, 1));
}
