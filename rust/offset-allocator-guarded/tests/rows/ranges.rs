//! The `Debug` texts of handles, used blocks, moves and walks, and that blocks and moves are equal only where all their
//! fields are.

use super::asserts::{assert_same, assert_text, assert_that, assert_that_at, text_of};
use offset_allocator::Global;
use offset_allocator::{Allocation, AllocatorOf, Block, ByNode, Move, NodeIndex, Tables};
use std::fmt::Debug;

// A text with a number in it.
fn with_number(start: &str, number: usize, end: &str) -> String {
    format!("{start}{number}{end}")
}

// The name in the text of a handle, which has this offset.
fn name_of<NI: NodeIndex>(handle: Allocation<NI>, offset: usize) -> usize {
    let text = text_of(&handle);
    let start = with_number("Allocation { offset: ", offset, ", metadata: ");
    let name = text
        .strip_prefix(&start)
        .and_then(|rest| rest.strip_suffix(" }"))
        .expect("the text of a handle");
    name.parse::<u32>().expect("a number") as usize
}

// A new space of this size and limit.
fn made<T: Tables>(size: u32, limit: u32) -> AllocatorOf<T> {
    assert_that(2 <= limit && limit < T::Index::MAX - 1);
    AllocatorOf::with_max_allocs(Global, size, limit).expect("memory")
}

// More ranges than a number of one, two or three digits can name.
const COUNT: u32 = 1_200;

// A name that is below the node limit, and was not seen before.
fn see(is_seen: &mut [bool; 2_000], name: usize) {
    assert_that_at(&name, name < 2_000);
    assert_that_at(&name, !is_seen[name]);
    is_seen[name] = true;
}

// A space of `COUNT` ranges of one unit and one free unit. Its handles, in space order, have different names, below the
// node limit.
fn units<T: Tables>() -> AllocatorOf<T> {
    let mut space = made::<T>(COUNT + 1, 2_000);
    let mut is_seen = [false; 2_000];
    for offset in 0..COUNT {
        let handle = space.allocate(1).expect("room");
        let name = name_of(handle, offset as usize);
        see(&mut is_seen, name);
    }
    space
}

// What is left of the walk: as a number, and as a text.
fn many_ranges_have_names_and_are_counted<T: Tables>() {
    let space = units::<T>();
    let mut blocks = space.blocks();
    for left in [1_201usize, 1_200, 1_199] {
        assert_same(&blocks.len(), &left);
        let (least, most) = blocks.size_hint();
        assert_same(&least, &left);
        assert_same(&most, &Some(left));
        let wanted = with_number("Blocks { remaining: ", left, " }");
        assert_text(&blocks, &wanted);
        assert_that(blocks.next().is_some());
    }
}

fn a_free_block_has_a_text<T: Tables>()
where
    T::Index: Debug,
{
    let space = made::<T>(100, 8);
    let mut blocks = space.blocks();
    assert_text(&blocks, "Blocks { remaining: 1 }");
    let wanted = "Some(Block { offset: 0, size: 100, allocation: None })";
    assert_text(&blocks.next(), wanted);
}

// A block differs from one with these fields.
fn expect_other_block<NI: NodeIndex + Debug + PartialEq>(
    block: Block<NI>,
    offset: u32,
    size: u32,
    allocation: Option<Allocation<NI>>,
) {
    let changed = Block {
        offset,
        size,
        allocation,
    };
    assert_that_at(&changed, block != changed);
}

// Of a block of 64 units from 30 on.
fn expect_block_compared<NI: NodeIndex + Debug + PartialEq>(
    block: Block<NI>,
    handle: Allocation<NI>,
    other: Allocation<NI>,
) {
    let same = Block {
        offset: 30,
        size: 64,
        allocation: Some(handle),
    };
    assert_that(block == same);
    expect_other_block(block, 31, 64, Some(handle));
    expect_other_block(block, 286, 64, Some(handle));
    expect_other_block(block, 30, 65, Some(handle));
    expect_other_block(block, 30, 320, Some(handle));
    expect_other_block(block, 30, 64, None);
    expect_other_block(block, 30, 64, Some(other));
}

// The last block is one of 64 units from 30 on, used under a name.
fn used_blocks_have_a_text_and_differ_in_each_field<T: Tables>()
where
    T::Index: Debug + PartialEq,
{
    let mut space = made::<T>(94, 8);
    let other = space.allocate(30).expect("room");
    let handle = space.allocate(64).expect("room");
    let block = space.blocks().next().expect("a block");
    let start =
        "Block { offset: 30, size: 64, allocation: Some(Allocation { offset: 30, metadata: ";
    let name = name_of(handle, 30);
    let wanted = with_number(start, name, " }) }");
    assert_text(&block, &wanted);
    expect_block_compared(block, handle, other);
}

// The last move of a compaction.
fn last_move<T: Tables>(space: &mut AllocatorOf<T>) -> Move<T::Index> {
    let mut last = None;
    space.compact(|range: Move<T::Index>| last = Some(range));
    last.expect("a move")
}

// Of a range of 20 units, which moves from 10 to 0. The text begins with its name, its offsets and its size.
fn a_move_has_a_text<T: Tables>()
where
    T::Index: Debug,
{
    let mut space = made::<T>(100, 8);
    let first = space.allocate(10).expect("room");
    let second = space.allocate(20).expect("room");
    assert_that(space.is_live(first));
    space.free(first);
    let range = last_move(&mut space);
    let text = text_of(&range);
    let name = name_of(second, 10);
    let end = ", from: 10, to: 0, size: 20";
    let wanted = with_number("Move { name: ", name, end);
    assert_that_at(&text, text.starts_with(&wanted));
}

// The first move of a compaction.
fn first_move<T: Tables>(space: &mut AllocatorOf<T>) -> Move<T::Index> {
    let mut first = None;
    space.compact(|range: Move<T::Index>| {
        if first.is_none() {
            first = Some(range);
        }
    });
    first.expect("a move")
}

// A grant of this size.
fn granted<T: Tables>(space: &mut AllocatorOf<T>, size: u32) -> Allocation<T::Index> {
    space.allocate(size).expect("room")
}

// Frees a live range.
fn freed<T: Tables>(space: &mut AllocatorOf<T>, handle: Allocation<T::Index>) {
    assert_that(space.is_live(handle));
    space.free(handle);
}

// Two moves of units 1 and 2 to the start: of the second range, and later of the third one.
fn two_moves<T: Tables>() -> (Move<T::Index>, Move<T::Index>) {
    let mut space = made::<T>(5, 8);
    let first = granted(&mut space, 1);
    let second = granted(&mut space, 2);
    let _third = granted(&mut space, 2);
    freed(&mut space, first);
    let range = first_move(&mut space);
    let _unit = granted(&mut space, 1);
    freed(&mut space, second);
    let first = granted(&mut space, 1);
    let _ = first_move(&mut space);
    freed(&mut space, first);
    (range, first_move(&mut space))
}

fn expect_units_1_and_2<NI: NodeIndex>(range: Move<NI>) {
    assert_same(&range.from, &1);
    assert_same(&range.to, &0);
    assert_same(&range.size, &2);
}

// A move differs from one with these fields.
fn expect_other_move<NI: NodeIndex + Debug + PartialEq>(
    range: Move<NI>,
    from: u32,
    to: u32,
    size: u32,
) {
    let mut changed = range;
    changed.from = from;
    changed.to = to;
    changed.size = size;
    assert_that_at(&changed, range != changed);
}

fn moves_differ_in_each_field<T: Tables>()
where
    T::Index: Debug + PartialEq,
{
    let (range, of_another) = two_moves::<T>();
    expect_units_1_and_2(range);
    expect_units_1_and_2(of_another);
    let same = range;
    assert_that(range == same);
    assert_that(range != of_another);
    for (from, to, size) in [
        (2u32, 0u32, 2u32),
        (257, 0, 2),
        (1, 1, 2),
        (1, 256, 2),
        (1, 0, 3),
        (1, 0, 258),
    ] {
        expect_other_move(range, from, to, size);
    }
}

fn expect_ranges_and_moves<T: Tables>()
where
    T::Index: Debug + PartialEq,
{
    many_ranges_have_names_and_are_counted::<T>();
    a_free_block_has_a_text::<T>();
    used_blocks_have_a_text_and_differ_in_each_field::<T>();
    a_move_has_a_text::<T>();
    moves_differ_in_each_field::<T>();
}

#[test]
fn ranges_and_moves() {
    expect_ranges_and_moves::<ByNode<u32>>();
}
