//! A mesh pool: the vertices and the indices of a mesh are ranges of two buffers, both or neither. A mesh that was removed is
//! refused, also where a newer one has its place.

use offset_allocator_guarded::{AllocError, Global, Guarded, Ticket};
use std::error::Error;

#[derive(Clone, Copy)]
struct Mesh {
    vertices: Ticket,
    indices: Ticket,
}

struct Pool {
    vertices: Guarded,
    indices: Guarded,
}

impl Pool {
    fn new(vertices: u32, indices: u32) -> Result<Self, AllocError> {
        Ok(Pool { vertices: Guarded::new(Global, vertices)?, indices: Guarded::new(Global, indices)? })
    }

    /// Ranges in both buffers, or in none.
    fn insert(&mut self, vertices: u32, indices: u32) -> Option<Mesh> {
        let vertices = self.vertices.allocate(vertices)?;
        let Some(indices) = self.indices.allocate(indices) else {
            self.vertices.free(vertices);
            return None;
        };
        Some(Mesh { vertices, indices })
    }

    /// What a draw call needs: the first vertex, the first index, and how many indices. `None` if the mesh was removed.
    fn draw(&self, mesh: Mesh) -> Option<(u32, u32, u32)> {
        let first_vertex = self.vertices.offset_of(mesh.vertices)?;
        Some((first_vertex, self.indices.offset_of(mesh.indices)?, self.indices.size_of(mesh.indices)?))
    }

    /// Whether the mesh was there.
    fn remove(&mut self, mesh: Mesh) -> bool {
        self.vertices.free(mesh.vertices) && self.indices.free(mesh.indices)
    }
}

fn main() -> Result<(), Box<dyn Error>> {
    let mut pool = Pool::new(1000, 3000)?;
    let cube = pool.insert(24, 36).ok_or("no room")?;
    let ball = pool.insert(482, 2560).ok_or("no room")?;
    assert_eq!(pool.draw(cube), Some((0, 0, 36)));
    assert_eq!(pool.draw(ball), Some((24, 36, 2560)));

    // there is room for these vertices, but not for the indices
    assert!(pool.insert(100, 600).is_none());
    assert_eq!(pool.vertices.live_units(), 24 + 482);

    assert!(pool.remove(cube));
    assert!(!pool.remove(cube));
    let plane = pool.insert(24, 36).ok_or("no room")?;
    assert_eq!(pool.draw(plane), Some((0, 0, 36)));
    assert_eq!(pool.draw(cube), None);
    println!("{} vertices and {} indices are live", pool.vertices.live_units(), pool.indices.live_units());
    Ok(())
}
