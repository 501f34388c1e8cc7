//! An engine's heap as a new user writes it, who passes no step anywhere: vertices of 12, 20 and 32 bytes and images at
//! multiples of 256 to 65,536 in one space of bytes. Every call that moves ranges is made, and the bytes are copied as the
//! moves say. After each call each range begins at a multiple of its alignment, and has its bytes.

#[path = "../../random.rs"]
mod random;

use offset_allocator_guarded::{Global, Guarded, Move, Ticket};
use random::Random;

struct Resource {
    ticket: Ticket,
    align: u32,
    size: u32,
    fill: u8,
}

struct Engine {
    heap: Guarded<u32>,
    memory: Vec<u8>,
    resources: Vec<Resource>,
    // where a compaction over frames goes on
    next: u32,
    moved: u64,
}

fn copy(memory: &mut [u8], it: &Move) {
    let (from, to, size) = (it.from as usize, it.to as usize, it.size as usize);
    memory.copy_within(from..from + size, to);
}

impl Engine {
    fn new(size: u32) -> Self {
        let heap = Guarded::with_max_allocs(Global, size, 512).unwrap();
        Engine { heap, memory: vec![0; size as usize], resources: Vec::new(), next: 0, moved: 0 }
    }

    // Makes room where there is none; what finds no room is left out.
    fn load(&mut self, size: u32, align: u32, fill: u8) -> bool {
        if self.heap.refusal_aligned(size, align).is_some() {
            let (memory, moved) = (&mut self.memory, &mut self.moved);
            let cost = self.heap.room_cost_aligned(size, align);
            let made = self.heap.make_room_aligned(size, align, |it: Move| {
                copy(memory, &it);
                *moved += 1;
            });
            assert_eq!(made, cost);
        }
        let Some(ticket) = self.heap.allocate_aligned(size, align) else { return false };
        self.memory[ticket.offset as usize..(ticket.offset + size) as usize].fill(fill);
        self.resources.push(Resource { ticket, align, size, fill });
        true
    }

    fn load_mesh(&mut self, random: &mut Random, fill: u8) -> bool {
        let stride = [12, 20, 32][random.below(3) as usize];
        self.load(stride * (1 + random.below(300)), stride, fill)
    }

    fn load_image(&mut self, random: &mut Random, fill: u8) -> bool {
        let align = 256 << random.below(9);
        self.load(align * (1 + random.below(3)), align, fill)
    }

    // Uploads of no alignment, as constants.
    fn load_constants(&mut self, random: &mut Random, fill: u8) -> bool {
        let size = 1 + random.below(500);
        let (memory, moved) = (&mut self.memory, &mut self.moved);
        if self.heap.refusal(size).is_some() {
            self.heap.make_room(size, |it: Move| {
                copy(memory, &it);
                *moved += 1;
            });
        }
        let Some(ticket) = self.heap.allocate(size) else { return false };
        self.memory[ticket.offset as usize..(ticket.offset + size) as usize].fill(fill);
        self.resources.push(Resource { ticket, align: 1, size, fill });
        true
    }

    fn compact(&mut self) {
        let (memory, moved) = (&mut self.memory, &mut self.moved);
        self.heap.compact(|it: Move| {
            copy(memory, &it);
            *moved += 1;
        });
    }

    fn compact_a_frame(&mut self) {
        let (memory, moved) = (&mut self.memory, &mut self.moved);
        let progress = self.heap.compact_within(self.next, 1 << 16, 4, |it: Move| {
            copy(memory, &it);
            *moved += 1;
        });
        self.next = progress.and_then(|it| it.next).unwrap_or(0);
    }

    // The last range goes to the front, where there is a place for it.
    fn empty_the_end(&mut self) {
        let Some(last) = self.heap.last_live() else { return };
        let Some(second) = self.heap.relocate(last) else { return };
        let (from, size) = (last.offset as usize, self.heap.size_of(last).unwrap() as usize);
        self.memory.copy_within(from..from + size, second.offset as usize);
        let is_it = |it: &&mut Resource| (it.ticket.name(), it.ticket.serial()) == (last.name(), last.serial());
        let resource = self.resources.iter_mut().find(is_it).unwrap();
        resource.ticket = second;
        assert!(self.heap.free(last));
        self.moved += 1;
    }

    fn save_and_load(&mut self) {
        let bytes = self.heap.write_state(Global).unwrap();
        self.heap = Guarded::read_state(Global, &bytes, 512).unwrap_or_else(|_| panic!("it is read"));
    }

    // Of each range the first and the last bytes are looked at, and now and then all.
    fn check(&self, all: bool) {
        for it in &self.resources {
            let offset = self.heap.offset_of(it.ticket).expect("it lives");
            assert_eq!(offset % it.align, 0, "a multiple of {}", it.align);
            let bytes = &self.memory[offset as usize..(offset + it.size) as usize];
            assert!(bytes[0] == it.fill && bytes[bytes.len() - 1] == it.fill, "its first and last byte");
            assert!(!all || bytes.iter().all(|byte| *byte == it.fill), "its bytes");
        }
    }
}

fn play(size: u32, images: bool, random: &mut Random) -> (u64, Option<u32>) {
    let mut engine = Engine::new(size);
    for step in 0..400 {
        let fill = 1 + (step % 255) as u8;
        match random.below(16) {
            0..=4 => drop(engine.load_mesh(random, fill)),
            5..=6 if images => drop(engine.load_image(random, fill)),
            5..=7 => drop(engine.load_constants(random, fill)),
            8..=10 if !engine.resources.is_empty() => {
                let place = random.below(engine.resources.len() as u32) as usize;
                assert!(engine.heap.free(engine.resources.swap_remove(place).ticket));
            }
            11 => engine.compact(),
            12 => engine.compact_a_frame(),
            13 => engine.empty_the_end(),
            14 => engine.save_and_load(),
            _ => engine.heap = engine.heap.try_clone(Global).unwrap(),
        }
        engine.check(step % 50 == 49);
    }
    (engine.moved, engine.heap.step())
}

#[test]
fn no_range_comes_to_a_wrong_offset() {
    let (mut meshes, mut both) = (0, 0);
    for seed in 0..20 {
        let (moved, step) = play(100_000, false, &mut Random(seed));
        // the least common multiple of 12, 20 and 32
        assert!(step.is_some_and(|it| 480 % it == 0));
        meshes += moved;
        let (moved, step) = play(600_000, true, &mut Random(seed + 1000));
        // and of 65,536: most of such a space stays where it is, and nothing goes to a wrong place
        assert!(step.is_some_and(|it| 983_040 % it == 0));
        both += moved;
    }
    assert!(meshes > 1000 && both > 100, "{meshes} and {both} moves");
}
