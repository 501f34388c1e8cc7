//! Records a game of levels, the run that the page begins with: web/levels.script. Where a texture finds no room, the heap
//! is compacted; where that does not help, what the level before left is dropped.
//!
//!     cargo run --release --example levels > levels.script

use offset_allocator_guarded::{Global, Guarded, Ticket};
use offset_allocator_recorded::Recorded;

type Heap<'a> = Recorded<Guarded, std::io::StdoutLock<'a>>;

fn load(heap: &mut Heap, left: &mut Vec<Ticket>, name: &str, units: u32) -> Option<Ticket> {
    if let Some(found) = heap.name(name).allocate(units) {
        return Some(found);
    }
    // no range asks for an alignment
    heap.compact_unaligned(|_| ());
    if let Some(found) = heap.name(name).allocate(units) {
        return Some(found);
    }
    for old in left.drain(..) {
        heap.free(old);
    }
    heap.name(name).allocate(units)
}

fn main() -> Result<(), Box<dyn std::error::Error>> {
    // 64 MiB, counted in units of 256 bytes
    let heap = Guarded::<u32>::with_max_allocs(Global, 1 << 18, 1 << 9)?;
    let mut heap = Recorded::guarded(heap, std::io::stdout().lock())?;
    heap.unit(256);
    let (mut left, mut live) = (Vec::new(), Vec::new());
    for level in 1..=9u32 {
        heap.mark(&format!("level {level}"));
        // most of the level before is dropped, and the rest is left behind
        let mut place = 0;
        live.retain(|ticket: &Ticket| {
            place += 1;
            let stays = place % 4 == level % 4;
            if stays {
                left.push(*ticket);
            } else {
                heap.free(*ticket);
            }
            false
        });
        for i in 0..28u32 {
            let kind = ["texture", "mesh", "texture", "sound"][(i % 4) as usize];
            let side = 64 << ((i * 5 + level) % 5);
            let units = if kind == "texture" { side * side * 4 / 256 } else { 90 + (i * 389 + level * 173) % 1400 };
            if let Some(ticket) = load(&mut heap, &mut left, &format!("{kind}/level {level}, number {i}"), units) {
                live.push(ticket);
            }
            if i % 4 == 3 {
                heap.frame_end();
            }
        }
    }
    Ok(heap.finish().1.map(|_| ())?)
}
