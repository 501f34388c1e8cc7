//! Meshes in one vertex buffer. They are uploaded and removed until the free vertices are in pieces too small for the next
//! mesh; then `compact` moves those that remain to the front of the buffer, while they stay in use, and the mesh is
//! uploaded after them.
//!
//! After each `compact`, and at the end, every vertex of every mesh is checked.

use offset_allocator_proved::{AllocError, Allocation, Allocator, Global, Refusal};

const VERTICES: u32 = 100_000;
const STEPS: u64 = 20_000;

struct Mesh {
    range: Allocation,
    number: u64,
}

struct Pool {
    buffer: Vec<u32>,
    space: Allocator,
    meshes: Vec<Mesh>,
}

/// Vertex `i` of the mesh of this number.
fn vertex(number: u64, i: u32) -> u32 {
    (number as u32).wrapping_mul(0x9e37_79b9) ^ i
}

impl Pool {
    /// Copies a mesh into the buffer, or returns why there is no place for it.
    fn upload(&mut self, number: u64, vertices: u32) -> Result<(), Refusal> {
        let Some(range) = self.space.allocate(vertices) else {
            return Err(self.space.refusal(vertices).expect("a request is refused for a reason"));
        };
        let start = range.offset as usize;
        for (i, v) in (0..).zip(&mut self.buffer[start..start + vertices as usize]) {
            *v = vertex(number, i);
        }
        self.meshes.push(Mesh { range, number });
        Ok(())
    }

    fn remove(&mut self, place: usize) {
        let mesh = self.meshes.swap_remove(place);
        self.space.free(mesh.range);
    }

    /// Moves all meshes to the front of the buffer, and returns how many vertices were copied.
    fn defragment(&mut self) -> u32 {
        let mut copied = 0;
        self.space.compact(|moved| {
            let from = moved.from as usize;
            self.buffer.copy_within(from..from + moved.size as usize, moved.to as usize);
            copied += moved.size;
        });
        // the handles are live as they were; only their offsets are those of before
        for mesh in &mut self.meshes {
            mesh.range.offset = self.space.allocation_offset(mesh.range).expect("the handle of each mesh is live");
        }
        copied
    }

    fn check(&self) {
        for mesh in &self.meshes {
            let start = mesh.range.offset as usize;
            let end = start + self.space.allocation_size(mesh.range) as usize;
            assert!((0..).zip(&self.buffer[start..end]).all(|(i, v)| *v == vertex(mesh.number, i)), "mesh {}", mesh.number);
        }
    }
}

fn main() -> Result<(), AllocError> {
    let mut pool = Pool { buffer: vec![0; VERTICES as usize], space: Allocator::new(Global, VERTICES)?, meshes: Vec::new() };
    let mut random = 1u64;
    let mut times = 0;
    for step in 0..STEPS {
        random = random.wrapping_mul(0x5851_f42d_4c95_7f2d).wrapping_add(1);
        let chance = random >> 33;
        let vertices = 3 + (chance % 97) as u32 * (chance % 11) as u32;
        match pool.upload(step, vertices) {
            Ok(()) => {}
            Err(Refusal::Fragmented) => {
                let before = pool.space.storage_report();
                let copied = pool.defragment();
                let after = pool.space.storage_report();
                assert_eq!(before.total_free_space, after.total_free_space);
                // what was refused as fragmented is granted now
                assert_eq!(pool.upload(step, vertices), Ok(()));
                if times % 400 == 0 {
                    println!(
                        "step {step}: {} meshes, {} vertices free, the largest free region {} before and {} after, {copied} vertices copied",
                        pool.meshes.len(),
                        after.total_free_space,
                        before.largest_free_region,
                        after.largest_free_region
                    );
                }
                times += 1;
                pool.check();
            }
            // most of the space is in use
            Err(_) => {
                for k in 0..10 {
                    pool.remove((chance / 97 + k * 7919) as usize % pool.meshes.len());
                }
            }
        }
    }
    pool.check();
    println!("{STEPS} steps, defragmented {times} times: no vertex was lost");
    Ok(())
}
