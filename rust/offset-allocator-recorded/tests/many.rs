//! Recordings of many heaps: each call with its heap, and played as the calls went.

use offset_allocator_guarded::Guarded;
use offset_allocator_heaps::{Heaps, HeapsOf, Limits, Place, Refusal};
use offset_allocator_proved::{Allocator, ByField, ByNode, Global, Tables};
use offset_allocator_recorded::{course, draw_heap, play, Recording, RecordedHeaps};

fn answers(text: &str) -> Vec<String> {
    let mut out = Vec::new();
    play(text.as_bytes(), &mut out).unwrap();
    String::from_utf8(out).unwrap().lines().map(str::to_owned).collect()
}

fn fault(text: &str) -> String {
    play(text.as_bytes(), &mut Vec::new()).unwrap_err().to_string()
}

#[test]
fn ranges_of_heaps_change_in_place() {
    let limits = Limits { size: 100, first_size: 100, max_allocs: 16, first_allocs: 8, most: 1, most_larger: 0 };
    let mut heaps = RecordedHeaps::new(Heaps::<u16>::with_realm(Global, limits, 1).unwrap(), Vec::new()).unwrap();
    let places: Vec<Place> = [20, 20, 10, 10, 20].map(|size| heaps.allocate(size).unwrap().place).to_vec();
    // six blocks of eight nodes, so one more may be added, and then none, though the limit may be raised
    assert_eq!((heaps.shrink(places[0], 10), heaps.shrink(places[1], 10)), (Some(true), Some(false)));
    assert_eq!((heaps.grow_in_place(places[4], 21), heaps.grow_in_place(places[4], 41)), (Some(true), Some(false)));
    let mut moves = Vec::new();
    assert!(heaps.make_room(0, 24, |it| moves.push((it.from, it.to, it.size))).is_some());
    let (moved, units) = (moves.len(), moves.iter().map(|it| it.2).sum::<u32>());
    assert!(heaps.free(places[1]) && heaps.compact_heap(0, |it| moves.push((it.from, it.to, it.size))));
    assert!(!heaps.compact_heap(7, |_| ()) && heaps.make_room(7, 1, |_| ()).is_none());
    assert_eq!(heaps.shrink(places[1], 1), None);
    assert_eq!((heaps.offset_of(places[0]), heaps.offset_of(places[4])), (Some(0), Some(30)));
    let text = String::from_utf8(heaps.finish().1.unwrap()).unwrap();
    assert_eq!(
        text,
        "heap 0 space 100 nodes 16 index 16\nheap 0 alloc 20\nheap 0 alloc 20\nheap 0 alloc 10\nheap 0 alloc 10\nheap 0 alloc 20\nheap 0 shrink 1 10\n\
         heap 0 grow 5 21\nheap 0 space 100 nodes 8 index 16\nheap 0 at 0 20\nheap 0 at 20 20\nheap 0 at 40 10\nheap 0 at 50 10\nheap 0 at 60 40\n\
         heap 0 shrink 5 21\nheap 0 shrink 1 10\n#! begun\nheap 0 room 24 1 1\nheap 0 free 2\nheap 0 compact 1\n"
    );
    // with eight nodes it is the room that it was
    assert_eq!(answers(&text).iter().filter(|line| line.starts_with("heap 0 ranges ")).collect::<Vec<_>>(), [&format!("heap 0 ranges {} units {}", moved, units)]);
    assert!(!answers(&text).iter().any(|line| line.ends_with("none") && !line.contains("room")), "{text}");
}

#[test]
fn heaps_become_larger_and_are_filled() {
    let limits = Limits { size: 100, first_size: 100, max_allocs: 16, first_allocs: 16, most: 2, most_larger: 0 };
    let mut heaps = RecordedHeaps::new(Heaps::<u16>::with_realm(Global, limits, 1).unwrap(), Vec::new()).unwrap();
    let [hole, rock] = [21, 70].map(|size| heaps.allocate(size).unwrap().place);
    // a request of 21 units is rounded up to 22, and of the last 9 units 4 begin at a multiple of 16
    assert!(heaps.free(hole) && heaps.name("fills").allocate_tight(21).unwrap().place.heap == 0);
    assert_eq!(heaps.allocate_tight_aligned(4, 16).unwrap().offset, 96);
    let other = heaps.allocate_tight(90).unwrap();
    assert_eq!((other.place.heap, other.is_new), (1, true));
    assert_eq!(heaps.allocate_tight(11), Err(Refusal::Full));
    assert_eq!(heaps.name("too large").allocate_tight_aligned(97, 8), Err(Refusal::TooLarge));
    assert_eq!((heaps.extend_heap(1, 30), heaps.extend_heap(7, 1), heaps.extend_heap(1, u32::MAX)), (Ok(true), Ok(false), Ok(false)));
    assert_eq!(heaps.allocate_tight(40).unwrap().place.heap, 1);
    assert!(heaps.free(rock) && heaps.free(other.place));
    let mut moves = Vec::new();
    // 4 units go by 16
    assert!(heaps.compact(|number, it| moves.push((number, it.from, it.to, it.size))));
    assert_eq!(moves, [(0, 96, 32, 4), (1, 90, 0, 40)]);
    let text = String::from_utf8(heaps.finish().1.unwrap()).unwrap();
    assert_eq!(
        text,
        "heap 0 space 100 nodes 16 index 16\nheap 0 alloc 21\nheap 0 alloc 70\nheap 0 free 1\n# fills\nheap 0 tight 21\n\
         heap 0 tight 4 16\nheap 1 space 100 nodes 16 index 16\nheap 1 alloc 90\nnone tight 11 full\n# too large\nnone tight 97 8 larger\n\
         heap 1 extend 30\nheap 1 tight 40\nheap 0 free 2\nheap 1 free 1\nheap 0 compact 16\nheap 1 compact 1\n"
    );
    let wanted = ["heap 0 grant 3 at 0", "heap 0 grant 4 at 96", "heap 1 grant 1 at 0", "none", "none", "heap 1 extended", "heap 1 grant 2 at 90"];
    assert_eq!(answers(&text)[3..10], wanted, "{text}");
}

#[test]
fn each_call_of_heaps_is_a_line() {
    let limits = Limits { size: 1000, first_size: 1000, max_allocs: 16, first_allocs: 16, most: 2, most_larger: 1 };
    let mut heaps = RecordedHeaps::new(Heaps::<u16>::with_realm(Global, limits, 1).unwrap(), Vec::new()).unwrap();
    let rock = heaps.name("mesh: rock\nand moss").allocate(300).unwrap();
    assert!(rock.is_new);
    let big = heaps.name("level").allocate_aligned(5001, 64).unwrap();
    assert_eq!((big.place.heap, big.is_new), (2, true));
    heaps.frame_end();
    assert_eq!(heaps.allocate(0), Err(Refusal::Empty));
    assert_eq!(heaps.name("too large").allocate_aligned(5001, 8), Err(Refusal::Full));
    // behind 300 units 24 from 320 on, and of the 656 units from 344 on none are granted to 660, rounded up to 704
    assert_eq!(heaps.allocate_aligned(24, 64).unwrap().offset, 320);
    let page = heaps.allocate(660).unwrap();
    assert_eq!((page.place.heap, page.is_new), (1, true));
    // 660 units are live in heap 1, and 324 in heap 0; behind them 340 units, 336 from a multiple of 8 on
    assert_eq!(heaps.relocate(page.place), None);
    let moved = heaps.relocate_aligned(rock.place, 8).unwrap();
    assert_eq!((moved.place.heap, moved.offset, moved.is_new), (1, 664, false));
    assert!(heaps.free(rock.place) && !heaps.free(rock.place));
    assert_eq!(heaps.relocate(rock.place), None);
    assert!(!heaps.drop_heap(1) && !heaps.drop_heap(7) && !heaps.give_up(7));
    assert!(heaps.free(big.place));
    assert_eq!((heaps.drop_empty(0), heaps.drop_empty(0)), (Some(2), None));
    assert!(heaps.give_up(1));
    // the number has another heap
    assert_eq!(heaps.allocate(900).unwrap().place.heap, 1);
    heaps.reset();
    heaps.unit(16);
    heaps.mark("end");
    assert_eq!(heaps.totals().heaps, 2);
    let text = String::from_utf8(heaps.finish().1.unwrap()).unwrap();
    assert_eq!(
        text,
        "heap 0 space 1000 nodes 16 index 16\n# mesh: rock and moss\nheap 0 alloc 300\nheap 2 space 5001 nodes 4 index 16\n# level\nheap 2 tight 5001\n\
         #! frame\nnone alloc 0 empty\n# too large\nnone align 5001 8 full\nheap 0 align 24 64\nheap 1 space 1000 nodes 16 index 16\nheap 1 alloc 660\n\
         none relocate 660 1\n# mesh: rock and moss (of grant 1, heap 0)\nheap 1 align 300 8\nheap 0 free 1\nnone free\nnone relocate\nheap 1 drop\n\
         heap 2 free 1\nheap 2 drop\nheap 1 give up\nheap 1 space 1000 nodes 16 index 16\nheap 1 alloc 900\nheap 0 reset\nheap 1 reset\n#! unit 16\n#! mark end\n"
    );
    assert_eq!(
        answers(&text),
        ["heap 0 grant 1 at 0", "heap 2 grant 1 at 0", "none", "none", "heap 0 grant 2 at 320", "heap 1 grant 1 at 0", "none",
            "heap 1 grant 2 at 664", "heap 0 freed", "gone", "gone", "heap 1 none", "heap 2 freed", "heap 2 dropped", "heap 1 given up",
            "heap 1 grant 1 at 0", "heap 0 reset", "heap 1 reset"]
    );
}

#[test]
fn allocators_of_ones_own() {
    let mut recording = Recording::new(Vec::new());
    let mut meshes = recording.guarded(Guarded::<u32>::with_realm(Global, 100, 8, 1).unwrap()).unwrap();
    let mut space = Allocator::<u16>::with_max_allocs(Global, 50, 8).unwrap();
    let old = space.allocate(9).unwrap();
    let mut textures = recording.name("the\ntextures").allocator(space).unwrap();
    meshes.name("mesh");
    textures.frame_end();
    textures.name("lost");
    assert!(std::panic::catch_unwind(std::panic::AssertUnwindSafe(|| textures.allocate_aligned(1, 0))).is_err());
    textures.allocate(5);
    // the name waits for its request, also where another heap has one before it
    meshes.allocate(20);
    textures.free(old);
    assert!(meshes.raise_limit(9).is_ok());
    assert!(meshes.make_room(70, |_| ()).is_some());
    let (_, part) = meshes.finish();
    assert_eq!(part.unwrap().heap(), 0);
    assert!(textures.failure().is_none());
    drop(textures);
    let text = String::from_utf8(recording.finish().unwrap()).unwrap();
    assert_eq!(
        text,
        "heap 0 space 100 nodes 8 index 32\n# the textures\nheap 1 space 50 nodes 8 index 16\nheap 1 at 0 50\nheap 1 shrink 1 9\n#! begun\n#! frame\n# lost\n\n\
         heap 1 alloc 5\n# mesh\nheap 0 alloc 20\nheap 1 free 1\nheap 0 space 100 nodes 9 index 32\nheap 0 at 0 100\nheap 0 shrink 1 20\n#! begun\n\
         heap 0 room 70 1 1\n"
    );
    assert_eq!(
        answers(&text),
        ["heap 1 grant 1 at 0", "heap 1 shrunk", "heap 1 grant 2 at 9", "heap 0 grant 1 at 0", "heap 1 freed", "heap 0 grant 1 at 0", "heap 0 shrunk",
            "heap 0 ranges 0 units 0"]
    );
}

#[test]
fn several_threads_write_whole_lines() {
    let mut recording = Recording::new(Vec::new());
    let mut heaps: Vec<_> = (0..4).map(|i| recording.guarded(Guarded::<u32>::with_realm(Global, 100_000, 5000, i).unwrap()).unwrap()).collect();
    std::thread::scope(|scope| {
        for heap in &mut heaps {
            scope.spawn(|| {
                for i in 1..1000 {
                    heap.thread(u64::from(i));
                    heap.name(&format!("range {i}")).allocate(i % 50);
                }
            });
        }
    });
    drop(heaps);
    let text = String::from_utf8(recording.finish().unwrap()).unwrap();
    assert_eq!(answers(&text).len(), 4 * 999);
    // each request has its thread and its name directly before it
    let lines: Vec<&str> = text.lines().skip(4).collect();
    for three in lines.chunks_exact(3) {
        let i: u32 = three[1].strip_prefix("# range ").unwrap().parse().unwrap();
        assert!(three[0] == format!("#! thread {i}") && three[2].ends_with(&format!("alloc {}", i % 50)), "{three:?}");
    }
}

// Who plays it has heaps that do not grow: so each has the largest limit from the start.
#[test]
fn a_heap_that_grows_has_its_largest_limit() {
    let limits = Limits { size: 1000, first_size: 1000, max_allocs: 100, first_allocs: 8, most: 1, most_larger: 0 };
    let mut heaps = RecordedHeaps::new(Heaps::<u32>::with_realm(Global, limits, 1).unwrap(), Vec::new()).unwrap();
    assert!((0..50).all(|_| heaps.allocate(1).is_ok()));
    assert_eq!(heaps.heap(0).unwrap().allocator().max_allocs(), 64);
    let (grown, text) = heaps.finish();
    let mut later = RecordedHeaps::new(grown, Vec::new()).unwrap();
    assert!((0..30).all(|_| later.allocate(1).is_ok()));
    for text in [text, later.finish().1] {
        let text = String::from_utf8(text.unwrap()).unwrap();
        assert!(text.starts_with("heap 0 space 1000 nodes 100 index 32\n"), "{text}");
        assert!(answers(&text).iter().all(|line| line != "none"), "{text}");
    }
}

#[test]
fn each_heap_has_the_thread_of_its_own_calls() {
    let mut recording = Recording::new(Vec::new());
    let mut meshes = recording.guarded(Guarded::<u32>::with_realm(Global, 100, 8, 1).unwrap()).unwrap();
    let mut textures = recording.guarded(Guarded::<u32>::with_realm(Global, 100, 8, 2).unwrap()).unwrap();
    let mut sounds = recording.guarded(Guarded::<u32>::with_realm(Global, 100, 8, 3).unwrap()).unwrap();
    // it never says its thread
    sounds.allocate(1);
    meshes.thread(1);
    let first = meshes.allocate(2).unwrap();
    textures.thread(2);
    textures.name("texture").allocate(3);
    // the calls of the meshes are still those of thread 1, and their marks too
    meshes.frame_end();
    meshes.free(first);
    meshes.allocate(4);
    sounds.allocate(5);
    textures.allocate(6);
    textures.thread(2);
    textures.allocate(7);
    meshes.thread(2);
    meshes.allocate(8);
    textures.allocate(9);
    drop((meshes, textures, sounds));
    let text = String::from_utf8(recording.finish().unwrap()).unwrap();
    assert_eq!(
        text.split_once("\nheap 2 space 100 nodes 8 index 32\n").unwrap().1,
        "heap 2 alloc 1\n#! thread 1\nheap 0 alloc 2\n#! thread 2\n# texture\nheap 1 alloc 3\n#! thread 1\n#! frame\nheap 0 free 1\nheap 0 alloc 4\n\
         heap 2 alloc 5\n#! thread 2\nheap 1 alloc 6\n#! thread 2\nheap 1 alloc 7\n#! thread 2\nheap 0 alloc 8\nheap 1 alloc 9\n"
    );
}

#[test]
fn each_heap_has_its_own_unit_and_the_file_its_marks() {
    let mut recording = Recording::new(Vec::new());
    let mut meshes = recording.guarded(Guarded::<u32>::with_realm(Global, 100, 8, 1).unwrap()).unwrap();
    let mut textures = recording.guarded(Guarded::<u32>::with_realm(Global, 50, 8, 2).unwrap()).unwrap();
    meshes.unit(32);
    textures.thread(7);
    textures.name("texture");
    textures.unit(65536);
    // a mark of the recording leaves the name that of the next request
    recording.frame_end().unwrap();
    recording.time(9).unwrap();
    recording.mark("a\nlevel").unwrap();
    textures.allocate(5);
    drop((meshes, textures));
    let text = String::from_utf8(recording.finish().unwrap()).unwrap();
    assert_eq!(
        text,
        "heap 0 space 100 nodes 8 index 32\nheap 1 space 50 nodes 8 index 32\n#! unit 32 heap 0\n#! thread 7\n#! unit 65536 heap 1\n\
         #! frame\n#! time 9\n#! mark a level\n# texture\nheap 1 alloc 5\n"
    );
    assert_eq!(answers(&text), ["heap 1 grant 1 at 0"]);
}

#[test]
fn a_recording_that_is_finished_too_early_goes_on() {
    let mut recording = Recording::new(Vec::new());
    let mut meshes = recording.guarded(Guarded::<u32>::with_realm(Global, 100, 8, 1).unwrap()).unwrap();
    recording.name("textures");
    let mut recording = recording.finish().unwrap_err();
    assert_eq!(format!("{recording:?}"), "Recording { heaps: 1, .. }");
    meshes.allocate(9);
    let textures = recording.guarded(Guarded::<u32>::with_realm(Global, 50, 8, 2).unwrap()).unwrap();
    let recording = recording.finish().unwrap_err();
    drop((meshes, textures));
    let text = String::from_utf8(recording.finish().unwrap()).unwrap();
    assert_eq!(text, "heap 0 space 100 nodes 8 index 32\nheap 0 alloc 9\n# textures\nheap 1 space 50 nodes 8 index 32\n");
}

#[test]
fn a_failure_ends_the_recording_alone() {
    let limits = Limits { size: 1000, first_size: 1000, max_allocs: 16, first_allocs: 16, most: 2, most_larger: 1 };
    let mut room = [0u8; 60];
    let mut heaps = RecordedHeaps::new(Heaps::<u32>::with_realm(Global, limits, 1).unwrap(), &mut room[..]).unwrap();
    assert!(heaps.allocate(300).is_ok() && heaps.failure().is_none());
    assert!(heaps.allocate(300).is_ok() && heaps.failure().is_some());
    let granted = heaps.allocate(300).unwrap();
    assert!(heaps.free(granted.place));
    assert!(heaps.finish().1.is_err());
    assert!(room.starts_with(b"heap 0 space 1000 nodes 16 index 32\nheap 0 alloc 300\n"));
}

struct Random(u64);

impl Random {
    fn below(&mut self, n: u32) -> u32 {
        self.0 = self.0.wrapping_mul(6_364_136_223_846_793_005).wrapping_add(1_442_695_040_888_963_407);
        ((self.0 >> 33) % u64::from(n)) as u32
    }
}

// Random calls on heaps; what each gave is answered when they are played. Half of them begin with heaps that there are.
fn random_heaps<T: Tables>(seed: u64) -> (usize, usize) {
    let mut random = Random(seed);
    let max_allocs = 4 + random.below(30);
    let first_allocs = if seed % 3 == 0 { max_allocs.min(8) } else { max_allocs };
    let size = 200 + random.below(2000);
    // of some the first heaps are small
    let first_size = if seed % 4 == 0 { 1 + size / 9 } else { size };
    let limits = Limits { size, first_size, max_allocs, first_allocs, most: random.below(5), most_larger: random.below(4) };
    let mut heaps = HeapsOf::<T>::with_realm(Global, limits, 3).unwrap();
    let mut places: Vec<Place> = Vec::new();
    if seed % 2 == 0 {
        for _ in 0..random.below(40) {
            match random.below(3) {
                0 if !places.is_empty() => {
                    heaps.free(places.swap_remove(random.below(places.len() as u32) as usize));
                }
                _ => places.extend(heaps.allocate_aligned(1 + random.below(limits.size / 4), 1 + random.below(9)).map(|it| it.place).ok()),
            }
        }
        heaps = HeapsOf::<T>::read_state(Global, &heaps.write_state(Global).unwrap(), 99, 99).unwrap();
    }
    let mut text = Vec::new();
    let mut expected: Vec<String> = Vec::new();
    let mut heaps = RecordedHeaps::new(heaps, &mut text).unwrap();
    for _ in 0..200 {
        let of = |random: &mut Random, places: &Vec<Place>| places.get(random.below(places.len() as u32 + 1) as usize).copied();
        match (random.below(12), of(&mut random, &places)) {
            (6..=8, Some(place)) => expected.push(if heaps.free(place) { format!("heap {} freed", place.heap) } else { "gone".to_owned() }),
            (9..=10, Some(place)) => {
                let is_live = heaps.is_live(place);
                expected.push(match heaps.relocate_aligned(place, 1 + random.below(20)) {
                    None => if is_live { "none" } else { "gone" }.to_owned(),
                    Some(second) => {
                        places.push(second.place);
                        assert_eq!(heaps.offset_of(second.place), Some(second.offset));
                        format!("heap {} at {}", second.place.heap, second.offset)
                    }
                });
            }
            (11, _) => {
                let number = random.below(9);
                let (has, live) = (heaps.heap(number).is_some(), heaps.heap(number).is_some_and(|heap| !heap.allocator().is_empty()));
                match random.below(6) {
                    4 => expected.extend(heaps.extend_heap(number, random.below(90)).unwrap().then(|| format!("heap {number} extended"))),
                    5 => {
                        let mut copy = heaps.try_clone(Global).unwrap();
                        let done: Vec<u32> = (0..9).filter(|number| copy.compact_heap(*number, |_| ())).collect();
                        let all = heaps.compact(|_, _| ());
                        assert_eq!(all, done.len() == (0..9).filter(|number| heaps.heap(*number).is_some()).count());
                        expected.extend(done.iter().map(|number| format!("heap {number} compacted")));
                    }
                    0 => expected.extend(heaps.give_up(number).then(|| format!("heap {number} given up"))),
                    1 => expected.extend(heaps.drop_empty(random.below(2)).map(|number| format!("heap {number} dropped"))),
                    2 if random.below(9) == 0 => {
                        heaps.reset();
                        expected.extend((0..9).filter(|number| heaps.heap(*number).is_some()).map(|number| format!("heap {number} reset")));
                    }
                    _ => {
                        heaps.drop_heap(number);
                        expected.extend(has.then(|| format!("heap {number} {}", if live { "none" } else { "dropped" })));
                    }
                }
            }
            _ => {
                let size = if random.below(20) == 0 { 0 } else { random.below(limits.size / 2) * (1 + random.below(3)) };
                let align = if random.below(2) == 0 { 1 } else { 1 + random.below(70) };
                let found = if random.below(4) == 0 { heaps.allocate_tight_aligned(size, align) } else { heaps.allocate_aligned(size, align) };
                expected.push(match found {
                    Err(_) => "none".to_owned(),
                    Ok(granted) => {
                        places.push(granted.place);
                        format!("heap {} at {}", granted.place.heap, heaps.offset_of(granted.place).unwrap())
                    }
                });
            }
        }
    }
    assert!(heaps.finish().1.is_ok());
    let text = String::from_utf8(text).unwrap();
    let answered = answers(&text);
    let first = answered.len() - expected.len();
    let found: Vec<String> = answered[first..]
        .iter()
        .map(|line| match (line.find(" grant "), line.find(" at ")) {
            (Some(from), Some(at)) => format!("{}{}", &line[..from], &line[at..]),
            _ => line.clone(),
        })
        .collect();
    assert_eq!(found, expected, "seed {seed}: {text}");
    (first, expected.iter().filter(|line| *line == "none").count())
}

#[test]
fn playing_gives_what_the_heaps_gave() {
    let (mut begun, mut refused) = (0, 0);
    for seed in 0..1500 {
        for (first, none) in [random_heaps::<ByNode<u32>>(seed), random_heaps::<ByField<u16>>(seed + 10_000)] {
            begun += first;
            refused += none;
        }
    }
    assert!(begun > 10_000 && refused > 20_000, "{begun} {refused}");
}

#[test]
fn faults() {
    let begin = "heap 3 space 100 nodes 16 index 32\n";
    for (line, why) in [
        ("alloc 1", "bad command"), ("space 100 nodes 16 index 32", "bad command"), ("heap 4 alloc 1", "bad command"), ("heap 3", "bad command"),
        ("heap  3 alloc 1", "bad command"), ("heap x alloc 1", "bad command"), ("heap 4294967296 alloc 1", "bad command"), ("heap 3 dropped", "bad command"),
        ("heap 3 give", "bad command"), ("heap 3 give up 1", "bad command"), ("heap 3 align 1 0", "bad command"), ("heap 3 space 100 nodes 1 index 32", "bad limit"),
        ("heap 5 space 100 nodes x index 32", "bad command"), ("none", "bad command"), ("none alloc 1", "bad command"), ("none alloc 1 small", "bad command"),
        ("none align 1 0 full", "bad command"), ("none relocate 1", "bad command"), ("none relocate 1 0", "bad command"), ("none free 1", "bad command"),
        ("none alloc 4294967296 full", "bad command"), ("none tight 1", "bad command"), ("none tight 1 small", "bad command"), ("none tight 1 0 full", "bad command"), ("heap 3 heap 3 alloc 1", "bad command"),
    ] {
        let text = format!("{begin}{line}\n");
        assert_eq!(fault(&text), format!("line 2: {why}"), "{line}");
        // drawn too
        assert_eq!(course(text.as_bytes()).err().unwrap().to_string(), format!("line 2: {why}"), "{line}");
    }
    for (text, why) in [
        ("heap 0 alloc 1\n", "line 1: bad header"), ("none alloc 1\n", "line 1: bad header"), ("none alloc 1 full\nalloc 1\n", "line 2: bad command"), ("heap 0 space 9 nodes 1 index 32\n", "line 1: bad limit"),
        ("space 9 nodes 9 index 32\nheap 0 alloc 1\n", "line 2: bad command"), ("space 9 nodes 9 index 32\nspace 9 nodes 9\n", "line 2: bad command"),
        ("space 9 nodes 9 index 32\nspace 9 nodes 1 index 16\n", "line 2: bad limit"), ("space 9 nodes 9 index 32\nnone free\n", "line 2: bad command"),
        // a call on a heap that is gone
        ("heap 0 space 9 nodes 9 index 32\nheap 0 drop\nheap 0 alloc 1\n", "line 3: bad command"), ("", "line 1: bad header"),
    ] {
        assert_eq!(fault(text), why, "{text}");
    }
    // to drop one that is gone is none
    assert_eq!(answers(&format!("{begin}heap 3 drop\nheap 3 drop\nheap 3 give up\n{begin}heap 3 alloc 1\nheap 3 drop\n")),
        ["heap 3 dropped", "heap 3 gone", "heap 3 gone", "heap 3 grant 1 at 0", "heap 3 none"]);
    // each space by itself is refused: their memory is not held together
    let large = "space 9 nodes 4294967293 index 32\n";
    assert_eq!(fault(&large.repeat(2)), "out of memory");
}

#[test]
fn a_refused_drop_ends_no_life() {
    let text = "heap 3 space 100 nodes 16 index 32\nheap 3 alloc 10\nheap 3 drop\nheap 3 alloc 5\nheap 3 free 1\nheap 3 free 2\nheap 3 drop\n";
    let drawn = draw_heap("grant 1", text.as_bytes(), None).unwrap();
    assert!(drawn.contains("<title>grant 1, offset 0, size 10, calls 1-3</title>"), "{drawn}");
    assert!(drawn.contains("<title>grant 2, offset 10, size 5, calls 2-4</title>"), "{drawn}");
    // the picture's own title gets no name
    let named = draw_heap("grant 1", "space 9 nodes 9 index 32\n# a\nalloc 1\n".as_bytes(), None).unwrap();
    assert!(named.contains("<title>grant 1</title>") && named.contains("<title>grant 1 “a”, "), "{named}");
}

#[test]
fn one_heap_of_many_is_drawn() {
    let text = "heap 5 space 100 nodes 16 index 32\n# a <b> & c\nheap 5 alloc 10\nheap 7 space 50 nodes 8 index 16\nheap 7 alloc 5\nheap 5 alloc 7\nheap 5 give up\n\
        heap 5 space 60 nodes 9 index 32\n# again\n#! frame\nheap 5 alloc 3\n";
    let found = course(text.as_bytes()).unwrap();
    let rows: Vec<_> = found.lives.iter().map(|l| (l.number, l.offset, l.size, l.first, l.last)).collect();
    // of heap 5, whose second space has the later numbers
    assert_eq!(rows, [(1, 0, 10, 0, 2), (2, 10, 7, 1, 2), (3, 0, 3, 2, 3)]);
    assert_eq!((found.max_allocs, &found.sizes[..]), (9, &[100, 100, 100, 60][..]));
    let drawn = draw_heap("t", text.as_bytes(), None).unwrap();
    assert!(drawn.contains("<title>grant 1 “a &lt;b&gt; &amp; c”, offset 0, size 10, calls 1-3</title>"), "{drawn}");
    assert!(drawn.contains("<title>grant 2, offset 10, size 7, calls 2-3</title>"), "{drawn}");
    assert!(drawn.contains("<title>grant 3 “again”, offset 0, size 3, calls 3-end</title>"), "{drawn}");
    // a range keeps its name in the space that takes the place of the one that it was in
    let raised = "space 100 nodes 8 index 32\n# a\nalloc 10\n# b\nalloc 10\nfree 1\ncompact\nspace 100 nodes 9 index 32\nat 0 100\nshrink 1 10\n#! begun\nat 30 5\n";
    let drawn = draw_heap("t", raised.as_bytes(), None).unwrap();
    assert!(drawn.contains("<title>grant 3 “b”, offset 0,") && drawn.contains("<title>grant 4, offset 30,"), "{drawn}");
    let other = draw_heap("t", text.as_bytes(), Some(7)).unwrap();
    assert!(other.contains("<title>grant 1, offset 0, size 5, calls 1-end</title>") && !other.contains("grant 2"), "{other}");
    assert_eq!(draw_heap("t", text.as_bytes(), Some(6)).unwrap_err().to_string(), "line 11: bad header");
}
