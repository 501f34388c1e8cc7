//! Many heaps, emptied: what is left after a level lies in many buffers. It is copied together, while a frame in flight reads the old
//! ranges, and the buffers that are empty then are dropped. Before each pass a copy of the heaps says what it would copy.

use offset_allocator_heaps::{AllocError, Global, Granted, Heaps, Limits, Place};
use std::collections::HashMap;
use std::error::Error;

/// Grants second ranges for what can leave the emptiest heap: each old place with its new one. Both are live.
fn relocated(heaps: &mut Heaps) -> Vec<(Place, Granted)> {
    let mut pairs = Vec::new();
    let mut next = heaps.emptiest().and_then(|number| heaps.last_live(number));
    while let Some(old) = next {
        next = heaps.live_before(old);
        if let Some(new) = heaps.relocate(old) {
            pairs.push((old, new));
        }
    }
    pairs
}

/// What a pass over the emptiest heap would copy, asked of a copy of the heaps: its number, the units, and whether it is
/// empty then. `None` where no heap has live units.
fn foretold(heaps: &Heaps) -> Result<Option<(u32, u64, bool)>, AllocError> {
    let Some(number) = heaps.emptiest() else { return Ok(None) };
    let mut trial = heaps.try_clone(Global)?;
    let pairs = relocated(&mut trial);
    let units = pairs.iter().filter_map(|(old, _)| trial.size_of(*old)).map(u64::from).sum();
    let goes = pairs.iter().all(|(old, _)| trial.free(*old)) && trial.drop_heap(number);
    Ok(Some((number, units, goes)))
}

/// What would be the buffers of a device: here they are memory.
struct Store {
    heaps: Heaps,
    buffers: HashMap<u32, Vec<u8>>,
}

impl Store {
    fn upload(&mut self, bytes: &[u8]) -> Result<Place, Box<dyn Error>> {
        let granted = self.heaps.allocate(bytes.len() as u32)?;
        let number = granted.place.heap;
        if granted.is_new {
            let units = self.heaps.units_of_heap(number).ok_or("a new heap")?;
            self.buffers.insert(number, vec![0; units as usize]);
        }
        self.buffers.get_mut(&number).ok_or("a buffer")?[granted.offset as usize..][..bytes.len()].copy_from_slice(bytes);
        Ok(granted.place)
    }

    /// The bytes of a place, or `None` where it is not live.
    fn bytes(&self, place: Place) -> Option<&[u8]> {
        let (from, size) = (self.heaps.offset_of(place)?, self.heaps.size_of(place)?);
        Some(&self.buffers[&place.heap][from as usize..][..size as usize])
    }

    /// Copies what it can out of the emptiest heap: each old place with its new one. Both are live.
    fn empty_one(&mut self) -> Vec<(Place, Place)> {
        let pairs = relocated(&mut self.heaps);
        for (old, new) in &pairs {
            let bytes = self.bytes(*old).expect("the old place is live").to_vec();
            let buffer = self.buffers.get_mut(&new.place.heap).expect("no heap was made");
            buffer[new.offset as usize..][..bytes.len()].copy_from_slice(&bytes);
        }
        pairs.into_iter().map(|(old, new)| (old, new.place)).collect()
    }
}

fn main() -> Result<(), Box<dyn Error>> {
    let limits = Limits { size: 1024, first_size: 1024, max_allocs: 64, first_allocs: 8, most: 8, most_larger: 0 };
    let mut store = Store { heaps: Heaps::new(Global, limits)?, buffers: HashMap::new() };
    let mut places = Vec::new();
    for number in 0..40 {
        places.push(store.upload(&[number; 100])?);
    }
    assert_eq!(store.buffers.len(), 4);
    // the level ends: one in five stays
    for (number, place) in places.iter().enumerate() {
        if number % 5 != 0 {
            store.heaps.free(*place);
        }
    }

    // a pass that drops no buffer is not worth its copies
    while let Some((number, units, true)) = foretold(&store.heaps)? {
        let copied = store.empty_one();
        assert_eq!(copied.iter().filter_map(|(old, _)| store.heaps.size_of(*old)).map(u64::from).sum::<u64>(), units);
        for (old, new) in copied {
            let at = places.iter_mut().find(|place| **place == old).ok_or("a place that was kept")?;
            *at = new;
            // the frame that read the old range is over
            assert!(store.heaps.free(old));
        }
        assert!(store.heaps.drop_heap(number));
        store.buffers.remove(&number);
    }
    assert_eq!(store.buffers.len(), 1);
    for (number, place) in places.iter().enumerate().step_by(5) {
        assert_eq!(store.bytes(*place), Some(&[number as u8; 100][..]));
    }
    println!("{} of 4 buffers is left, with {} units live", store.buffers.len(), store.heaps.totals().live_units);
    Ok(())
}
