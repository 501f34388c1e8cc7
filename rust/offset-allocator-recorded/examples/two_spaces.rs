//! Records two spaces in one file, with names: one is refused a request for fragmentation, the other one since it is too small.
//!
//!     cargo run --release --example two_spaces -- heap.script

use offset_allocator_guarded::{Global, Guarded, RoomCost};
use offset_allocator_recorded::Recording;
use std::error::Error;
use std::fs::File;
use std::io::Write;

fn main() -> Result<(), Box<dyn Error>> {
    let file: Box<dyn Write> = match std::env::args().nth(1) {
        Some(path) => Box::new(File::create(path)?),
        None => Box::new(std::io::sink()),
    };
    let mut recording = Recording::new(file);
    // the units of a space, and its most nodes; vertices of 32 bytes, and tiles of 64 KiB
    let mut meshes = recording.name("meshes").guarded(Guarded::<u32>::with_max_allocs(Global, 1000, 1 << 10)?)?;
    let mut textures = recording.name("textures").guarded(Guarded::<u32>::with_max_allocs(Global, 4000, 1 << 10)?)?;
    meshes.unit(32);
    textures.unit(1 << 16);
    let mut all = Vec::new();
    for i in 0..8 {
        all.push(meshes.name(&format!("mesh: {i}")).allocate(112).ok_or("no room")?);
    }
    meshes.free(all[1]);
    meshes.free(all[4]);
    recording.frame_end()?;

    assert!(meshes.name("mesh: large").allocate(200).is_none());
    println!("no room for 200: {}", meshes.refusal(200).ok_or("a reason")?);
    let mut moves = Vec::new();
    let cost = meshes.make_room(200, |it| moves.push((it.from, it.to, it.size)));
    assert_eq!(cost, Some(RoomCost { units: 224, ranges: 2 }));
    assert_eq!(moves, [(224, 112, 112), (336, 224, 112)]);
    meshes.name("mesh: large").allocate(200).ok_or("no room")?;

    meshes.free(all[0]);
    let new = meshes.name("mesh: 7, again").relocate(all[7]).ok_or("no place before it")?;
    assert_eq!((meshes.offset_of(all[7]), new.offset), (Some(784), 0));
    meshes.free(all[7]);

    assert!(textures.name("texture: rock").allocate(3000).is_some());
    assert!(textures.name("texture: moss").allocate(2000).is_none());
    println!("no room for 2000: {}", textures.refusal(2000).ok_or("a reason")?);
    Ok(())
}
