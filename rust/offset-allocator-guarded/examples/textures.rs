//! Textures in one heap, at the alignments that a device asks for, come and go. Each frame may copy a little: then
//! `compact_within` moves the next ranges towards the front, and `Beside` says which texture moved. A request that is
//! refused all the same gets its room at once, by as few copies as make it.
//!
//! At the end of each frame the bytes of every texture are checked, and its alignment.

use offset_allocator_guarded::{AllocError, Beside, Global, Guarded, Move, Ticket};

const UNITS: u32 = 1 << 16;
const FRAMES: u32 = 2_000;
// what a frame may copy, in units and in ranges
const MOST: (u32, u32) = (2_000, 4);

struct Texture {
    ticket: Ticket,
    align: u32,
    number: u8,
}

struct Heap {
    bytes: Vec<u8>,
    space: Guarded,
    // the place in `textures` of each range
    places: Beside<usize>,
    textures: Vec<Texture>,
    // where the next frame goes on
    from: u32,
    copied: u64,
}

impl Heap {
    fn create(&mut self, size: u32, align: u32, number: u8) -> bool {
        let Heap { bytes, space, copied, .. } = self;
        let mut copy = |it: Move| {
            bytes.copy_within(it.from as usize..(it.from + it.size) as usize, it.to as usize);
            *copied += u64::from(it.size);
        };
        let granted = space.allocate_aligned(size, align).or_else(|| {
            space.make_room_aligned(size, align, &mut copy)?;
            space.allocate_aligned(size, align)
        });
        let Some(ticket) = granted else { return false };
        let at = ticket.offset as usize;
        self.bytes[at..at + size as usize].fill(number);
        assert!(self.places.put(&self.space, ticket, self.textures.len()).expect("memory for a place").is_none());
        self.textures.push(Texture { ticket, align, number });
        true
    }

    fn remove(&mut self, place: usize) {
        let gone = self.textures.swap_remove(place);
        self.places.take(gone.ticket);
        assert!(self.space.free(gone.ticket));
        if let Some(moved) = self.textures.get(place) {
            *self.places.get_mut(moved.ticket).expect("each texture has its place") = place;
        }
    }

    /// Copies what a frame may copy, and returns which textures a view has to be made anew of.
    fn compact(&mut self) -> Vec<usize> {
        let Heap { bytes, space, places, from, copied, .. } = self;
        let mut moved = Vec::new();
        let done = space.compact_within(*from, MOST.0, MOST.1, |it| {
            bytes.copy_within(it.from as usize..(it.from + it.size) as usize, it.to as usize);
            *copied += u64::from(it.size);
            moved.push(*places.under(it.allocation().name()).expect("each texture has its place").1);
        });
        *from = done.and_then(|it| it.next).unwrap_or(0);
        moved
    }

    fn check(&self) {
        for it in &self.textures {
            let (at, size) = (self.space.offset_of(it.ticket).unwrap(), self.space.size_of(it.ticket).unwrap());
            assert_eq!(at % it.align, 0);
            assert!(self.bytes[at as usize..(at + size) as usize].iter().all(|byte| *byte == it.number));
        }
    }
}

fn main() -> Result<(), AllocError> {
    let space = Guarded::new(Global, UNITS)?;
    let mut heap = Heap { bytes: vec![0; UNITS as usize], space, places: Beside::new(Global), textures: Vec::new(), from: 0, copied: 0 };
    let (mut random, mut refused, mut views) = (1u32, 0, 0);
    let mut next = |below: u32| {
        random = random.wrapping_mul(1_664_525).wrapping_add(1_013_904_223);
        (random >> 8) % below
    };
    for frame in 0..FRAMES {
        let align = [16, 64, 256][next(3) as usize];
        refused += u32::from(!heap.create(1 + next(3_000), align, frame as u8));
        while heap.space.free_units() < UNITS / 4 || next(3) == 0 && !heap.textures.is_empty() {
            heap.remove(next(heap.textures.len() as u32) as usize);
        }
        for place in heap.compact() {
            assert!(place < heap.textures.len());
            views += 1;
        }
        heap.check();
    }
    let step = heap.space.step().expect("256 at most");
    println!("{FRAMES} frames: {refused} refused, {} units copied, {views} views made anew; step {step}", heap.copied);
    Ok(())
}
