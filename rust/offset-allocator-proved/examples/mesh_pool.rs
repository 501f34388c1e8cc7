//! Meshes in one large buffer: they are uploaded, removed and uploaded again, and the buffer grows where a mesh does
//! not fit.
//!
//! After each step every byte of every live mesh is checked: no other mesh has touched it.

use offset_allocator_proved::ext::min_allocator_size;
use offset_allocator_proved::{Allocation, Allocator, Global, Refusal};
use std::error::Error;

/// The alignment that a graphics interface requires of a bound buffer.
const ALIGNMENT: u32 = 256;
const MESHES: u64 = 400;
const STEPS: u64 = 3_000;

struct Mesh {
    range: Allocation,
    number: u64,
}

struct Pool {
    buffer: Vec<u8>,
    space: Allocator,
    meshes: Vec<Mesh>,
}

/// Byte `i` of the mesh of this number.
fn vertex_byte(number: u64, i: u32) -> u8 {
    (number.wrapping_mul(0x9e37_79b9_7f4a_7c15) >> (i % 8 * 8)) as u8 ^ i as u8
}

impl Pool {
    fn new(bytes: u32, nodes: u32) -> Result<Self, Box<dyn Error>> {
        let space = Allocator::with_max_allocs(Global, bytes, nodes)?;
        Ok(Pool { buffer: vec![0; bytes as usize], space, meshes: Vec::new() })
    }

    /// Copies a mesh of `bytes` bytes into the buffer, which grows where more bytes help. Else the error says why not.
    fn upload(&mut self, number: u64, bytes: u32) -> Result<(), Refusal> {
        let range = loop {
            match self.space.refusal_aligned(bytes, ALIGNMENT) {
                None => break self.space.allocate_aligned(bytes, ALIGNMENT).expect("no reason to refuse it"),
                Some(Refusal::Nodes) => return Err(Refusal::Nodes),
                Some(why) => self.grow(bytes + ALIGNMENT - 1).ok_or(why)?,
            }
        };
        let start = range.offset as usize;
        for (i, byte) in self.buffer[start..start + bytes as usize].iter_mut().enumerate() {
            *byte = vertex_byte(number, i as u32);
        }
        self.meshes.push(Mesh { range, number });
        Ok(())
    }

    fn remove(&mut self, place: usize) {
        let mesh = self.meshes.swap_remove(place);
        self.space.free(mesh.range);
    }

    /// Makes the buffer longer, so that its last free block has at least `bytes` bytes of a large enough class. Live
    /// ranges stay where they are. `None` where the space cannot have that many more.
    fn grow(&mut self, bytes: u32) -> Option<()> {
        let more = (self.buffer.len() as u32 / 2).max(min_allocator_size(bytes));
        if !self.space.extend(more) {
            return None;
        }
        self.buffer.resize(self.buffer.len() + more as usize, 0);
        println!("grown to {} bytes, with {} meshes", self.buffer.len(), self.meshes.len());
        Some(())
    }

    fn check(&self) {
        for mesh in &self.meshes {
            let start = mesh.range.offset as usize;
            let bytes = self.space.allocation_size(mesh.range);
            assert_eq!(mesh.range.offset % ALIGNMENT, 0);
            for i in 0..bytes {
                assert_eq!(self.buffer[start + i as usize], vertex_byte(mesh.number, i), "mesh {}", mesh.number);
            }
        }
    }
}

fn main() -> Result<(), Box<dyn Error>> {
    let mut pool = Pool::new(1 << 16, 2 * MESHES as u32 + 2)?;
    let mut random = 1u64;
    for number in 0..STEPS {
        random = random.wrapping_mul(0x5851_f42d_4c95_7f2d).wrapping_add(1);
        let chance = random >> 33;
        if chance % MESHES < pool.meshes.len() as u64 {
            pool.remove((chance / MESHES) as usize % pool.meshes.len());
        } else {
            pool.upload(number, 12 * (1 + (chance % 97) as u32 * (chance % 11) as u32))?;
        }
        pool.check();
    }
    let report = pool.space.storage_report();
    println!("{STEPS} steps, {} meshes, {} of {} bytes free: no byte of a mesh was overwritten", pool.meshes.len(), report.total_free_space, pool.buffer.len());
    while !pool.meshes.is_empty() {
        pool.remove(0);
    }
    // with 16 nodes the pool stops at the limit, and does not grow without end
    let mut small = Pool::new(1 << 16, 16)?;
    let meshes = (0..).take_while(|number| small.upload(*number, 100) != Err(Refusal::Nodes)).count();
    println!("with 16 nodes: {meshes} meshes, then: {}", Refusal::Nodes);
    assert_eq!(small.buffer.len(), 1 << 16);
    assert_eq!(pool.space.storage_report().total_free_space, pool.buffer.len() as u32);
    Ok(())
}
