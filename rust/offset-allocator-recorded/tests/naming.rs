//! Names that ranges get after their grants: from values beside their tickets, in the recording and in what is drawn of it.

use offset_allocator_guarded::{Beside, Guarded, Ticket};
use offset_allocator_heaps::{Heaps, Limits};
use offset_allocator_proved::{ByNode, Global};
use offset_allocator_recorded::{draw, draw_heap, play, GuardedOf, Recorded, RecordedHeaps, Recording};
use std::collections::BTreeMap;
use std::io::Write;

struct Mesh {
    name: String,
}

type Meshes = Beside<Mesh>;

// A mesh is loaded, as a program does that knows of no recording.
fn load<W: Write>(heap: &mut Recorded<GuardedOf<ByNode<u32>>, W>, meshes: &mut Meshes, name: &str, size: u32) -> Ticket {
    let ticket = heap.allocate(size).unwrap();
    assert!(meshes.put(heap, ticket, Mesh { name: name.to_owned() }).is_ok());
    ticket
}

fn space(units: u32, nodes: u32, realm: u32) -> Guarded<u32> {
    Guarded::with_realm(Global, units, nodes, realm).unwrap()
}

// The names in a picture, by the numbers of their grants.
fn names(picture: &str) -> BTreeMap<u64, String> {
    let mut found = BTreeMap::new();
    for title in picture.split("<title>grant ").skip(1) {
        let (number, rest) = title.split_at(title.find(|c: char| !c.is_ascii_digit()).unwrap());
        if let Some(rest) = rest.strip_prefix(" “") {
            found.insert(number.parse().unwrap(), rest.split('”').next().unwrap().to_owned());
        }
    }
    found
}

fn names_of(text: &str) -> Vec<(u64, String)> {
    names(&draw("t", text.as_bytes()).unwrap()).into_iter().collect()
}

fn named(list: &[(u64, &str)]) -> Vec<(u64, String)> {
    list.iter().map(|(number, name)| (*number, (*name).to_owned())).collect()
}

// How many answers a recording has: marks have none.
fn answers(text: &str) -> usize {
    let mut out = Vec::new();
    play(text.as_bytes(), &mut out).unwrap();
    String::from_utf8(out).unwrap().lines().count()
}

#[test]
fn a_value_beside_its_ticket_names_a_range() {
    let mut heap = Recorded::guarded(space(1000, 16, 1), Vec::new()).unwrap();
    let mut meshes = Meshes::new(Global);
    load(&mut heap, &mut meshes, "mesh: rock", 100);
    let moss = load(&mut heap, &mut meshes, "mesh:\nmoss", 50);
    // a name before its request stays
    heap.name("texture: sky");
    load(&mut heap, &mut meshes, "another", 200);
    heap.name_all(&meshes, |mesh| &mesh.name);
    assert!(heap.free(moss) && meshes.take(moss).is_some());
    load(&mut heap, &mut meshes, "mesh: fern", 30);
    // what is not live, or has no text, gets no name
    let gone = load(&mut heap, &mut meshes, "gone", 10);
    assert!(heap.free(gone));
    load(&mut heap, &mut meshes, " ", 500);
    heap.name_all(&meshes, |mesh| &mesh.name);
    heap.name_all(&meshes, |mesh| &mesh.name);
    assert!(heap.failure().is_none());
    let text = String::from_utf8(heap.finish().1.unwrap()).unwrap();
    assert_eq!(
        text,
        "space 1000 nodes 16 index 32\nalloc 100\nalloc 50\n# texture: sky\nalloc 200\n#! name 1 mesh: rock\n#! name 2 mesh: moss\nfree 2\n\
         alloc 30\nalloc 10\nfree 5\nalloc 500\n#! name 4 mesh: fern\n"
    );
    assert_eq!(names_of(&text), named(&[(1, "mesh: rock"), (2, "mesh: moss"), (3, "texture: sky"), (4, "mesh: fern")]));
    assert_eq!(answers(&text), 8);
}

#[test]
fn a_space_that_there_is_has_its_names() {
    let mut begun = space(100, 8, 1);
    let mut meshes = Meshes::new(Global);
    for (name, size) in [("one", 10), ("two", 20), ("three", 30)] {
        let ticket = begun.allocate(size).unwrap();
        assert!(meshes.put(&begun, ticket, Mesh { name: name.to_owned() }).is_ok());
    }
    let mut heap = Recorded::guarded(begun, Vec::new()).unwrap();
    heap.name_all(&meshes, |mesh| &mesh.name);
    // the names go with the ranges under a larger limit, where grants are numbered from 1 again
    assert!(heap.raise_limit(9).is_ok());
    heap.name_all(&meshes, |mesh| &mesh.name);
    let fourth = heap.allocate(5).unwrap();
    heap.name_live(fourth, "four");
    heap.name_live(fourth, "5 and more");
    heap.name_live(Ticket::from_parts(fourth.offset, fourth.name(), 9, fourth.realm()).unwrap(), "none");
    let text = String::from_utf8(heap.finish().1.unwrap()).unwrap();
    let ranges = "at 0 10\nat 10 20\nat 30 70\nshrink 3 30\n#! begun\n";
    assert_eq!(
        text,
        format!(
            "space 100 nodes 8 index 32\n{ranges}#! name 1 one\n#! name 2 two\n#! name 3 three\nspace 100 nodes 9 index 32\n{ranges}\
             alloc 5\n#! name 4 four\n#! name 4 5 and more\n"
        )
    );
    let wanted = [(1, "one"), (2, "two"), (3, "three"), (4, "one"), (5, "two"), (6, "three"), (7, "5 and more")];
    assert_eq!(names_of(&text), named(&wanted));
}

#[test]
fn ranges_of_many_heaps_have_their_names() {
    let mut recording = Recording::new(Vec::new());
    let mut meshes = recording.guarded(space(100, 8, 1)).unwrap();
    let mut textures = recording.guarded(space(100, 8, 2)).unwrap();
    let (mut one, mut other) = (Meshes::new(Global), Meshes::new(Global));
    load(&mut meshes, &mut one, "mesh", 10);
    load(&mut textures, &mut other, "texture", 20);
    textures.thread(3);
    // a table of the other heap has no value here
    textures.name_all(&one, |mesh| &mesh.name);
    textures.name_all(&other, |mesh| &mesh.name);
    meshes.name_all(&one, |mesh| &mesh.name);
    drop((meshes, textures));
    let text = String::from_utf8(recording.finish().unwrap()).unwrap();
    assert_eq!(
        text,
        "heap 0 space 100 nodes 8 index 32\nheap 1 space 100 nodes 8 index 32\nheap 0 alloc 10\nheap 1 alloc 20\n#! thread 3\n\
         #! heap 1 name 1 texture\n#! heap 0 name 1 mesh\n"
    );
    for (heap, name) in [(0, "mesh"), (1, "texture")] {
        let picture = draw_heap("t", text.as_bytes(), Some(heap)).unwrap();
        assert_eq!(names(&picture).into_iter().collect::<Vec<_>>(), named(&[(1, name)]));
    }
}

#[test]
fn a_second_range_has_the_name_of_the_first() {
    let limits = Limits { size: 100, first_size: 100, max_allocs: 16, first_allocs: 16, most: 2, most_larger: 0 };
    let mut heaps = RecordedHeaps::new(Heaps::<u32>::with_realm(Global, limits, 1).unwrap(), Vec::new()).unwrap();
    let mut tables = [Beside::new(Global), Beside::new(Global)];
    let places = [60, 30, 90].map(|size| heaps.allocate(size).unwrap().place);
    for (place, name) in places.iter().zip(["rock", "moss", "sky"]) {
        assert!(tables[place.heap as usize].put(heaps.heap(place.heap).unwrap(), place.ticket(0), name).is_ok());
    }
    for (number, table) in [0, 1].into_iter().zip(&tables) {
        heaps.name_all(number, table, |name| name);
        heaps.name_all(number, table, |name| name);
    }
    assert!(heaps.free(places[0]));
    heaps.name_live(places[0], "gone");
    heaps.name_live(places[1], "moss, wet");
    // 90 live units are more than 30, and behind them 6 are granted
    assert!(heaps.shrink(places[1], 5).unwrap() && heaps.relocate(places[1]).is_some());
    let text = String::from_utf8(heaps.finish().1.unwrap()).unwrap();
    assert_eq!(
        text,
        "heap 0 space 100 nodes 16 index 32\nheap 0 alloc 60\nheap 0 alloc 30\nheap 1 space 100 nodes 16 index 32\nheap 1 alloc 90\n\
         #! heap 0 name 1 rock\n#! heap 0 name 2 moss\n#! heap 1 name 1 sky\nheap 0 free 1\n#! heap 0 name 2 moss, wet\nheap 0 shrink 2 5\n\
         # moss, wet (of grant 2, heap 0)\nheap 1 alloc 5\n"
    );
    let picture = draw_heap("t", text.as_bytes(), Some(1)).unwrap();
    assert_eq!(names(&picture).into_iter().collect::<Vec<_>>(), named(&[(1, "sky"), (2, "moss, wet (of grant 2, heap 0)")]));
}

#[test]
fn what_has_no_name_of_its_own_gets_one() {
    // a name of blanks alone is none
    let mut heap = Recorded::guarded(space(100, 16, 1), Vec::new()).unwrap();
    let mut meshes = Meshes::new(Global);
    heap.name(" ");
    load(&mut heap, &mut meshes, "mesh", 10);
    heap.name_all(&meshes, |mesh| &mesh.name);
    let text = String::from_utf8(heap.finish().1.unwrap()).unwrap();
    assert_eq!(text, "space 100 nodes 16 index 32\n#  \nalloc 10\n#! name 1 mesh\n");
    // nor is where a second range comes from
    let limits = Limits { size: 100, first_size: 100, max_allocs: 16, first_allocs: 16, most: 2, most_larger: 0 };
    let mut heaps = RecordedHeaps::new(Heaps::<u32>::with_realm(Global, limits, 1).unwrap(), Vec::new()).unwrap();
    heaps.name("");
    let places = [60, 5, 90].map(|size| heaps.allocate(size).unwrap().place);
    let second = heaps.relocate(places[1]).unwrap();
    let (mut first, mut other) = (Beside::new(Global), Beside::new(Global));
    assert!(first.put(heaps.heap(0).unwrap(), places[0].ticket(0), "rock").is_ok());
    assert!(other.put(heaps.heap(1).unwrap(), second.place.ticket(second.offset), "moss").is_ok());
    heaps.name_all(0, &first, |name| name);
    heaps.name_all(1, &other, |name| name);
    let text = String::from_utf8(heaps.finish().1.unwrap()).unwrap();
    assert_eq!(
        text,
        "heap 0 space 100 nodes 16 index 32\n# \nheap 0 alloc 60\nheap 0 alloc 5\nheap 1 space 100 nodes 16 index 32\nheap 1 alloc 90\n\
         # (of grant 2, heap 0)\nheap 1 alloc 5\n#! heap 0 name 1 rock\n#! heap 1 name 2 moss\n"
    );
}

#[test]
fn marks_that_name_no_grant() {
    let text = "space 100 nodes 16 index 32\nalloc 10\n#! name 1 a\n#! name 1   b c \n#! name 2 early\n#! name 0 zero\n#! heap 0 name 1 d\n#! name 1\n\
                #! name 1 \n#! name x y\n#! named 1 e\n#! name 99999999999 f\nalloc 5\n";
    assert_eq!(names_of(text), named(&[(1, "b c")]));
    assert_eq!(answers(text), 2);
    let text = "#! name 1 before\nheap 3 space 100 nodes 16 index 32\nheap 3 alloc 10\n#! name 1 all\n#! heap 4 name 1 other\n";
    assert_eq!(names_of(text), named(&[]));
    assert_eq!(names_of(&format!("{text}#! heap 3 name 1 heap 4 name 1\n")), named(&[(1, "heap 4 name 1")]));
}
