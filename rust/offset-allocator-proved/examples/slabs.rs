//! The mesh allocator of an engine: meshes of one vertex layout share slabs, large buffers with an allocator each. A
//! request goes to the first slab of its layout that has room; where none has, a larger slab is made.
//!
//! Each slab counts in vertices, and not in bytes: so every offset is a multiple of the stride, with no padding.

use offset_allocator_proved::ext::min_allocator_size;
use offset_allocator_proved::{AllocError, Allocation, Allocator, Global, Refusal};
use std::collections::{BTreeMap, HashMap};

/// The vertices of the first slab of a layout. Each next one has twice as many, 64 times at most.
const FIRST_SLAB: u32 = 1 << 12;
/// The meshes that a slab may have.
const MESHES_A_SLAB: u32 = 512;

/// A layout is known by the bytes of its vertices.
type Stride = u32;
type MeshId = u64;

struct Slab {
    space: Allocator,
    buffer: Vec<u8>,
}

/// Where a mesh is. It has 16 bytes, in an `Option` too.
#[derive(Clone, Copy, PartialEq, Eq, Hash, Debug)]
struct Place {
    stride: Stride,
    slab: u32,
    range: Allocation,
}

#[derive(Default)]
struct Meshes {
    slabs: BTreeMap<Stride, Vec<Slab>>,
    places: HashMap<MeshId, Place>,
}

impl Meshes {
    fn insert(&mut self, id: MeshId, stride: Stride, vertices: u32) -> Result<Place, AllocError> {
        let slabs = self.slabs.entry(stride).or_default();
        let found = slabs.iter_mut().enumerate().find_map(|(slab, s)| Some((slab, s.space.allocate(vertices)?)));
        let (slab, range) = match found {
            Some(found) => found,
            None => {
                // a mesh that is larger than any slab has one of its own
                let size = (FIRST_SLAB << slabs.len().min(6)).max(min_allocator_size(vertices));
                let mut space = Allocator::with_max_allocs(Global, size, 2 * MESHES_A_SLAB + 2)?;
                let range = space.allocate(vertices).expect("a fresh space of this size grants it");
                slabs.push(Slab { space, buffer: vec![0; size as usize * stride as usize] });
                (slabs.len() - 1, range)
            }
        };
        let place = Place { stride, slab: slab as u32, range };
        assert_eq!(self.places.insert(id, place), None, "mesh {id} is there");
        self.bytes(place).fill(id as u8);
        Ok(place)
    }

    fn remove(&mut self, id: MeshId) {
        let place = self.places.remove(&id).expect("the mesh is there");
        self.slab(place).space.free(place.range);
    }

    fn slab(&mut self, place: Place) -> &mut Slab {
        &mut self.slabs.get_mut(&place.stride).expect("the layout has slabs")[place.slab as usize]
    }

    /// The vertices of a mesh, as they would be written to the GPU.
    fn bytes(&mut self, place: Place) -> &mut [u8] {
        let slab = self.slab(place);
        let first = place.range.offset as usize * place.stride as usize;
        let bytes = slab.space.allocation_size(place.range) as usize * place.stride as usize;
        &mut slab.buffer[first..first + bytes]
    }
}

fn main() -> Result<(), AllocError> {
    let mut meshes = Meshes::default();
    let mut live = Vec::new();
    let mut random = 1u64;
    for id in 0..20_000 {
        random = random.wrapping_mul(0x5851_f42d_4c95_7f2d).wrapping_add(1);
        let chance = (random >> 33) as u32;
        let stride = [12, 32, 48][chance as usize % 3];
        meshes.insert(id, stride, 3 + chance % 700 * (chance % 13))?;
        live.push(id);
        if live.len() > 1_000 {
            meshes.remove(live.swap_remove(chance as usize % 1_000));
        }
    }
    // one that no slab of the usual sizes has room for
    let large = meshes.insert(u64::MAX, 12, 1_000_000)?;
    assert_eq!((large.range.offset, meshes.slab(large).space.refusal(1_000_000)), (0, Some(Refusal::Space)));
    let ids: Vec<_> = meshes.places.iter().map(|(id, place)| (*id, *place)).collect();
    for (id, place) in &ids {
        assert!(meshes.bytes(*place).iter().all(|byte| *byte == *id as u8), "mesh {id}");
    }
    for (stride, slabs) in &meshes.slabs {
        let sizes: Vec<_> = slabs.iter().map(|slab| slab.space.size()).collect();
        println!("vertices of {stride} bytes: slabs of {sizes:?}");
    }
    for (id, _) in ids {
        meshes.remove(id);
    }
    for slab in meshes.slabs.values().flatten() {
        assert_eq!((slab.space.block_count(), slab.space.storage_report().total_free_space), (1, slab.space.size()));
    }
    println!("20001 meshes in and out of their slabs: no vertex was overwritten");
    Ok(())
}
