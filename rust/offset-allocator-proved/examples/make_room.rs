//! Meshes in one vertex buffer that is nearly full. Where an upload is refused since the free vertices are in pieces,
//! `room_cost` says how many vertices have to move for it; those are moved, if they are no more than a frame has time for.
//!
//! At the end every vertex of every mesh is checked, and what was copied is printed, beside what `compact` would have copied
//! at the same refusals.

use offset_allocator_proved::{AllocError, Allocation, Allocator, Global, Refusal};

const VERTICES: u32 = 100_000;
const BUDGET: u32 = 4_000;
const FRAMES: u64 = 20_000;

struct Mesh {
    range: Allocation,
    number: u64,
}

/// Vertex `i` of the mesh of this number.
fn vertex(number: u64, i: u32) -> u32 {
    (number as u32).wrapping_mul(0x9e37_79b9) ^ i
}

struct Pool {
    buffer: Vec<u32>,
    space: Allocator,
    meshes: Vec<Mesh>,
    copied: u64,
}

impl Pool {
    /// Whether a mesh was copied into the buffer.
    fn upload(&mut self, number: u64, vertices: u32) -> bool {
        let Some(range) = self.space.allocate(vertices) else {
            return false;
        };
        let start = range.offset as usize;
        for (i, v) in (0..).zip(&mut self.buffer[start..start + vertices as usize]) {
            *v = vertex(number, i);
        }
        self.meshes.push(Mesh { range, number });
        true
    }

    /// Whether no more than `BUDGET` vertices had to move for a mesh, and were moved.
    fn make_room(&mut self, vertices: u32) -> bool {
        if self.space.room_cost(vertices).is_none_or(|cost| cost.units > BUDGET) {
            return false;
        }
        self.space.make_room(vertices, |moved| {
            let from = moved.from as usize;
            self.buffer.copy_within(from..from + moved.size as usize, moved.to as usize);
            self.copied += u64::from(moved.size);
        });
        // the handles are live as they were; only their offsets are those of before
        for mesh in &mut self.meshes {
            mesh.range.offset = self.space.allocation_offset(mesh.range).expect("the handle of each mesh is live");
        }
        true
    }

    /// The vertices that `compact` would copy.
    fn copied_by_compact(&self) -> Result<u64, AllocError> {
        let mut copied = 0;
        self.space.try_clone(Global)?.compact(|moved| copied += u64::from(moved.size));
        Ok(copied)
    }

    fn check(&self) {
        for mesh in &self.meshes {
            let start = mesh.range.offset as usize;
            let end = start + self.space.allocation_size(mesh.range) as usize;
            assert!((0..).zip(&self.buffer[start..end]).all(|(i, v)| *v == vertex(mesh.number, i)), "mesh {}", mesh.number);
        }
    }
}

fn main() -> Result<(), AllocError> {
    let space = Allocator::new(Global, VERTICES)?;
    let mut pool = Pool { buffer: vec![0; VERTICES as usize], space, meshes: Vec::new(), copied: 0 };
    let mut random = 1u64;
    let (mut made, mut dear, mut by_compact) = (0, 0, 0);
    for frame in 0..FRAMES {
        random = random.wrapping_mul(0x5851_f42d_4c95_7f2d).wrapping_add(1);
        let chance = random >> 33;
        let vertices = 100 + (chance % 97) as u32 * (chance % 11) as u32;
        while !pool.upload(frame, vertices) {
            if pool.space.refusal(vertices) == Some(Refusal::Fragmented) {
                let would_copy = pool.copied_by_compact()?;
                if pool.make_room(vertices) {
                    by_compact += would_copy;
                    made += 1;
                    continue;
                }
                dear += 1;
            }
            // some mesh has to go
            let place = chance as usize % pool.meshes.len();
            let gone = pool.meshes.swap_remove(place);
            pool.space.free(gone.range);
        }
    }
    pool.check();
    println!("room was made {made} times, at most {BUDGET} vertices each, and was too dear {dear} times");
    println!("{} vertices were copied; by `compact` it would have been {by_compact}", pool.copied);
    Ok(())
}
