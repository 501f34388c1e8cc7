//! One dependency is enough: what calls name of `offset-allocator-proved` is here too.

use offset_allocator_guarded::{json_of, AllocError, Global, Guarded, Move, Progress, RoomCost, Scale, SpaceRefusal, Statistics};

// What a frame may copy: `copy` gets addresses of a buffer, and how many units.
fn compact(meshes: &mut Guarded, scale: Scale, from: u32, mut copy: impl FnMut(Option<u64>, Option<u64>, u32)) -> Option<Progress> {
    meshes.compact_within(from, 1 << 16, 64, |it: Move| copy(scale.address_of(it.from), scale.address_of(it.to), it.size))
}

// Why a request would be refused, what would have to move for it, and the space as it is.
fn explain(meshes: &Guarded, size: u32) -> Result<(Option<SpaceRefusal>, Option<RoomCost>, Statistics, String), AllocError> {
    let space = meshes.allocator();
    Ok((space.refusal(size), meshes.room_cost(size), space.statistics(), String::from(json_of(Global, space)?)))
}

#[test]
fn one_dependency_is_enough() {
    let mut meshes = Guarded::new(Global, 1000).unwrap();
    let hole = meshes.allocate(300).unwrap();
    meshes.allocate(100).unwrap();
    meshes.free(hole);
    let (why, cost, statistics, json) = explain(&meshes, 800).unwrap();
    assert_eq!((why, cost), (Some(SpaceRefusal::Fragmented), Some(RoomCost { units: 100, ranges: 1 })));
    assert!(statistics.free_units == 900 && json.starts_with('{'));
    let mut copies = Vec::new();
    let progress = compact(&mut meshes, Scale { base: 1 << 40, unit: 256 }, 0, |from, to, units| copies.push((from, to, units)));
    assert!(progress.is_some_and(|it| it.next.is_none()));
    assert_eq!(copies, [(Some((1 << 40) + 300 * 256), Some(1 << 40), 100)]);
    assert_eq!(explain(&meshes, 800).unwrap().0, None);
}
