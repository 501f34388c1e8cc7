//! The buffers of an engine: pages of one size, a buffer of its own for what is larger, and pages that are dropped.

use offset_allocator_heaps::{AllocError, Global, Heaps, Limits, Place, Refusal};
use std::collections::HashMap;

/// What would be the buffers of a device: here they are memory.
struct Store {
    heaps: Heaps,
    buffers: HashMap<u32, Vec<u8>>,
    // the device has no more
    most_bytes: usize,
}

impl Store {
    fn new(page: u32, most_bytes: usize) -> Result<Self, AllocError> {
        let limits = Limits { size: page, first_size: page, max_allocs: 65_536, first_allocs: 64, most: 16, most_larger: 4 };
        Ok(Store { heaps: Heaps::new(Global, limits)?, buffers: HashMap::new(), most_bytes })
    }

    /// Stores some bytes, from a multiple of 16 on.
    fn upload(&mut self, bytes: &[u8]) -> Result<Place, Refusal> {
        let granted = self.heaps.allocate_aligned(bytes.len() as u32, 16)?;
        let number = granted.place.heap;
        if granted.is_new {
            let size = self.heaps.heap(number).map_or(0, |heap| heap.allocator().size()) as usize;
            let used: usize = self.buffers.values().map(Vec::len).sum();
            if used + size > self.most_bytes {
                // the buffer can't be made: the heap is taken back, and all else is as it was
                self.heaps.give_up(number);
                return Err(Refusal::Memory);
            }
            self.buffers.insert(number, vec![0; size]);
        }
        let from = granted.offset as usize;
        self.buffers.get_mut(&number).unwrap()[from..from + bytes.len()].copy_from_slice(bytes);
        Ok(granted.place)
    }

    /// The bytes of a place, or `None` where it is not live.
    fn bytes(&self, place: Place) -> Option<&[u8]> {
        let from = self.heaps.offset_of(place)? as usize;
        let size = self.heaps.size_of(place)? as usize;
        Some(&self.buffers[&place.heap][from..from + size])
    }

    /// Drops the buffers of empty heaps, but for one: the next level may need it.
    fn tidy(&mut self) {
        while let Some(number) = self.heaps.drop_empty(1) {
            self.buffers.remove(&number);
        }
    }
}

fn main() -> Result<(), AllocError> {
    let mut store = Store::new(4096, 40_000)?;
    // a level: forty meshes of 300 bytes fill four pages, and a texture is larger than a page
    let meshes: Vec<Place> = (0..40u8).map(|k| store.upload(&[k; 300]).expect("room")).collect();
    let texture = store.upload(&[255; 10_000]).expect("a buffer of its own");
    assert_eq!((texture.heap, store.heaps.totals().heaps, store.buffers.len()), (16, 5, 5));
    assert_eq!(store.heaps.heap(16).unwrap().allocator().size(), 10_000);
    assert!(meshes.iter().zip(0..).all(|(&place, k)| store.bytes(place) == Some(&[k; 300][..])));
    // the device has no 20,000 bytes more
    assert_eq!(store.upload(&[1; 20_000]), Err(Refusal::Memory));
    // the level ends
    let kept = meshes[0];
    for &place in meshes[1..].iter().chain([&texture]) {
        assert!(store.heaps.free(place));
    }
    store.tidy();
    println!("{:?}", store.heaps.totals());
    assert_eq!(store.buffers.len(), 2);
    assert!(store.bytes(kept).is_some() && store.bytes(texture).is_none());
    Ok(())
}
