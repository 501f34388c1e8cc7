//! That the recorders, here and in C++, have each call that changes a space, many heaps, or one of these.

use std::collections::BTreeSet;
use std::path::Path;

fn text(path: &str) -> String {
    let path = Path::new(env!("CARGO_MANIFEST_DIR")).join("..").join(path);
    if path.is_dir() {
        let mut all: Vec<_> = std::fs::read_dir(path).unwrap().map(|entry| entry.unwrap().path()).collect();
        all.sort();
        return all.iter().map(|path| text(path.to_str().unwrap())).collect();
    }
    std::fs::read_to_string(path).unwrap()
}

// The parts of a text in the blocks that begin with a line, up to the line that ends them.
fn blocks<'a>(text: &'a str, begin: &'a str, end: &'a str) -> impl Iterator<Item = &'a str> {
    text.split(begin).skip(1).map(move |block| block.split(end).next().unwrap())
}

// The public methods by `&mut self` in the blocks of a type.
fn mutable(text: &str, of: &str) -> BTreeSet<String> {
    let mut found = BTreeSet::new();
    for block in blocks(text, of, "\n}\n") {
        for call in block.split("pub fn ").skip(1) {
            let name: String = call.chars().take_while(|c| c.is_alphanumeric() || *c == '_').collect();
            if call.split('{').next().unwrap().contains("&mut self") {
                found.insert(name);
            }
        }
    }
    found
}

// The public methods of a class that may change it: those without `const`.
fn changing(text: &str, class: &str) -> BTreeSet<String> {
    let body = blocks(text, class, "\nprivate:").next().unwrap();
    let mut found = BTreeSet::new();
    for line in body.lines().filter(|line| line.starts_with("    ") && !line.starts_with("     ") && ["{", "; }", ");"].iter().any(|end| line.ends_with(end))) {
        let Some(at) = line.find('(') else { continue };
        let name = line[..at].rsplit(' ').next().unwrap();
        let after = &line[line.rfind(") const").unwrap_or(0)..];
        let is_made = line.contains("operator") || line.contains("static ") || line.contains("explicit ") || name.starts_with('~') || class.contains(&format!(" {name} "));
        if !after.starts_with(") const") && !is_made {
            found.insert(name.to_owned());
        }
    }
    found
}

#[test]
fn in_rust() {
    if !Path::new(env!("CARGO_MANIFEST_DIR")).join("../offset-allocator-proved").is_dir() {
        return;
    }
    let space = mutable(&text("offset-allocator-proved/src"), "impl<T: Tables> AllocatorOf<T> {");
    let tickets = mutable(&text("offset-allocator-guarded/src"), "impl<T: Tables> GuardedOf<T> {");
    let heaps = mutable(&text("offset-allocator-heaps/src"), "impl<T: Tables> HeapsOf<T> {");
    assert!(space.contains("allocate_at") && space.contains("make_room_by") && heaps.contains("give_up"), "{space:?} {heaps:?}");
    let heap = mutable(&text("offset-allocator-heaps/src"), "impl<T: Tables> HeapMut<'_, T> {");
    let src = text("offset-allocator-recorded/src");
    // the calls with tickets are said once, and two types have them
    let with_tickets = mutable(&src, "macro_rules! calls_with_tickets {");
    let recorded = |of| {
        let mut all = mutable(&src, of);
        if blocks(&src, of, "\n}\n").any(|block| block.contains("\n    calls_with_tickets!();")) {
            all.extend(with_tickets.iter().cloned());
        }
        all
    };
    let lacking = |all: BTreeSet<String>, of| -> Vec<String> { all.difference(&recorded(of)).cloned().collect() };
    assert!(space.len() == 19 && tickets.len() == 24 && heaps.len() == 19 && heap.len() == 24, "{space:?} {tickets:?} {heaps:?} {heap:?}");
    assert_eq!(lacking(space, "impl<T: Tables, W: Write> Recorded<AllocatorOf<T>, W> {"), [""; 0]);
    assert_eq!(lacking(tickets, "impl<T: Tables, W: Write> Recorded<GuardedOf<T>, W> {"), [""; 0]);
    assert_eq!(lacking(heaps, "impl<T: Tables, W: Write> RecordedHeaps<T, W> {"), [""; 0]);
    assert_eq!(lacking(heap, "impl<T: Tables, W: Write> RecordedHeap<'_, T, W> {"), [""; 0]);
}

#[test]
fn in_cpp() {
    if !Path::new(env!("CARGO_MANIFEST_DIR")).join("../offset-allocator-c/include").is_dir() {
        return;
    }
    let all = text("offset-allocator-c/include/offsetAllocator.hpp");
    let heaps = text("offset-allocator-c/include/offsetAllocatorHeaps.hpp");
    let recorder = text("offset-allocator-c/include/offsetAllocatorRecorded.hpp");
    // the calls of one space are said once, and two classes have them
    let of_space = changing(&recorder, "template <class Of, class A> class RecordedCalls {\n");
    let recorded = |class: &str| {
        let mut all = changing(&recorder, class);
        if class.contains(" : public detail::RecordedCalls<") {
            all.extend(of_space.iter().cloned());
        }
        all
    };
    // a swap of two spaces is none of their calls
    let lacking = |all: &BTreeSet<String>, class| -> Vec<String> { all.difference(&recorded(class)).filter(|name| *name != "swap").cloned().collect() };
    for class in ["class Allocator {\n", "class GuardedAllocator : public TicketQuestions<GuardedAllocator> {\n"] {
        let calls = changing(&all, class);
        assert!(calls.contains("allocateAt") && calls.contains("raiseLimit") && !calls.contains("save"), "{calls:?}");
        assert_eq!(lacking(&calls, "template <class A> class Recorded : public detail::RecordedCalls<Recorded<A>, A> {\n"), [""; 0], "{class}");
    }
    let heap = changing(&heaps, "class Heap : public TicketQuestions<Heap> {\n");
    assert!(heap.len() == 24 && heap.contains("retract") && heap.contains("raiseStep"), "{heap:?}");
    assert_eq!(lacking(&heap, "class RecordedHeap : public detail::RecordedCalls<RecordedHeap, Heap> {\n"), [""; 0]);
    let heaps = changing(&heaps, "class Heaps {\n");
    assert!(heaps.contains("dropEmpty") && heaps.contains("at"), "{heaps:?}");
    assert_eq!(lacking(&heaps, "class RecordedHeaps {\n"), [""; 0]);
}
