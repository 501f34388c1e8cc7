//! An ideal best fit, to compare with: of the free blocks that are large enough a smallest one is taken, the first of them,
//! and from its front. Free neighbours are coalesced.
use crate::Space;
use std::collections::{BTreeMap, BTreeSet};

pub struct BestFit {
    /// The size of each free block by its offset, and the same the other way round.
    sizes: BTreeMap<u32, u32>,
    order: BTreeSet<(u32, u32)>,
}

impl BestFit {
    fn insert(&mut self, offset: u32, size: u32) {
        self.sizes.insert(offset, size);
        self.order.insert((size, offset));
    }

    fn remove(&mut self, offset: u32) -> u32 {
        let size = self.sizes.remove(&offset).unwrap();
        self.order.remove(&(size, offset));
        size
    }
}

impl Space for BestFit {
    type Range = (u32, u32);

    fn make(size: u32, _nodes: u32) -> Self {
        let mut made = BestFit { sizes: BTreeMap::new(), order: BTreeSet::new() };
        made.insert(0, size);
        made
    }

    fn take(&mut self, size: u32) -> Option<(Self::Range, u32)> {
        let (whole, offset) = *self.order.range((size, 0)..).next()?;
        self.remove(offset);
        if whole > size {
            self.insert(offset + size, whole - size);
        }
        Some(((offset, size), offset))
    }

    fn put(&mut self, (mut offset, mut size): Self::Range) {
        if self.sizes.contains_key(&(offset + size)) {
            size += self.remove(offset + size);
        }
        let before = self.sizes.range(..offset).next_back().map(|(before, size)| (*before, *size));
        if let Some((before, more)) = before.filter(|(before, more)| before + more == offset) {
            self.remove(before);
            (offset, size) = (before, size + more);
        }
        self.insert(offset, size);
    }
}
