//! Records a small program: textures are loaded and dropped, until one finds no room.
//!
//!     cargo run --release --example record > heap.script

use offset_allocator_proved::{Allocator, Global};
use offset_allocator_recorded::Recorded;

fn main() -> Result<(), Box<dyn std::error::Error>> {
    // a heap of 256 MiB, counted in units of 256 bytes
    let heap = Allocator::<u32>::with_max_allocs(Global, 1 << 20, 1 << 12)?;
    let mut heap = Recorded::new(heap, std::io::stdout())?;
    let mut textures = Vec::new();
    for level in 1.. {
        // what the level before last had is dropped, but for one texture
        while textures.len() > 40 {
            heap.free(textures.remove(1));
        }
        for i in 0..40u32 {
            let side = 64 << (i * 7 % 5);
            let units = side * side * 4 / 256 + level * 37;
            match heap.name(&format!("texture: level {level}, number {i}")).allocate(units) {
                Some(texture) => textures.push(texture),
                None => {
                    eprintln!("level {level}: no room for {units} units: {}", heap.refusal(units).unwrap());
                    return Ok(heap.finish().1.map(|_| ())?);
                }
            }
        }
    }
    Ok(())
}
