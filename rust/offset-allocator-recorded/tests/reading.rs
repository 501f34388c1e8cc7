//! That recordings of the commands of scripts are read and played as the proved program does, and the other lines as what
//! they say.

use offset_allocator_heaps::Refusal;
use offset_allocator_recorded::{play, Global, RunFault};
use offset_script::{run, FromRead, IntoWrite};

fn ours(text: &[u8]) -> Result<Vec<u8>, RunFault> {
    let mut out = Vec::new();
    play(text, &mut out).map(|()| out)
}

fn theirs(text: &[u8]) -> Result<Vec<u8>, RunFault> {
    let mut out = IntoWrite::new(Vec::new());
    run(Global, &mut FromRead::new(text), &mut out).map(|()| out.into_inner())
}

fn below(state: &mut u64, n: usize) -> usize {
    *state = state.wrapping_mul(6_364_136_223_846_793_005).wrapping_add(1_442_695_040_888_963_407);
    ((*state >> 33) % n as u64) as usize
}

#[test]
fn stored_scripts() {
    let folder = concat!(env!("CARGO_MANIFEST_DIR"), "/../../bench/traces");
    let mut count = 0;
    // a packaged crate has no traces beside it
    for path in std::fs::read_dir(folder).into_iter().flatten().map(|entry| entry.unwrap().path()) {
        if path.extension().is_some_and(|end| end == "script") {
            let text = std::fs::read(&path).unwrap();
            assert_eq!(ours(&text), theirs(&text), "{path:?}");
            count += 1;
        }
    }
    assert!(count == 8 || !std::path::Path::new(folder).exists());
}

#[test]
fn random_texts() {
    let heads = ["space 1000 nodes 32 index 32", "space 0 nodes 2 index 16", "space 9 nodes 1 index 16", "space 9 nodes 65534 index 16",
        "space 9 nodes 65533 index 16", "space 4294967296 nodes 8 index 32", "space 9 nodes 8 index 8", "space 9  nodes 8 index 32", " space"];
    let lines = ["alloc 10", "alloc 300", "alloc 0", "alloc", "alloc 1 2", "alloc x", "alloc -1", "alloc 00000000001", "alloc 4294967295",
        "alloc 4294967296", "align 10 8", "align 10 0", "align 10", "free 1", "free 2", "free 0", "size 1", "size 9", "report",
        "report 1", "full", "reset", "extend 7", "extend 4294967295", "", "# a remark", "#", " alloc 1", "alloc 1 ", "alloc\t1", "alloc 1\r",
        "Alloc 1", "shrin 1 2"];
    let mut state = 1;
    let (mut good, mut bad) = (0, 0);
    for _ in 0..20_000 {
        let mut text = String::new();
        if below(&mut state, 4) == 0 {
            text.push_str("# a remark\n\n");
        }
        text.push_str(heads[if below(&mut state, 3) > 0 { 0 } else { below(&mut state, heads.len()) }]);
        for _ in 0..below(&mut state, 30) {
            let faulty = below(&mut state, 40) == 0;
            let line = loop {
                let line = lines[below(&mut state, lines.len())];
                if faulty || offset_allocator_recorded::call(line.as_bytes()).is_some() || line.is_empty() || line.starts_with('#') {
                    break line;
                }
            };
            text.push('\n');
            text.push_str(line);
        }
        if below(&mut state, 2) == 0 {
            text.push('\n');
        }
        let found = ours(text.as_bytes());
        match &found {
            Ok(_) => good += 1,
            Err(_) => bad += 1,
        }
        // the program answers nothing where a later line is faulty; a recording has its answers up to there
        assert_eq!(found, theirs(text.as_bytes()), "{text}");
    }
    assert!(good > 5000 && bad > 3000, "{good} {bad}");
}

#[test]
fn no_header() {
    for text in ["", "\n", "#", "# x\n", "\n\n", "\n#", "# x\n\n#"] {
        assert_eq!(ours(text.as_bytes()), theirs(text.as_bytes()), "{text:?}");
        assert!(ours(text.as_bytes()).is_err());
    }
}

#[test]
fn longer_than_a_script() {
    let mut text = b"space 1000000 nodes 400000 index 32\n".to_vec();
    for _ in 0..200_000 {
        text.extend_from_slice(b"alloc 1\n");
    }
    assert!(text.len() > 1 << 20);
    assert_eq!(theirs(&text).unwrap_err().to_string(), "too long");
    let found = ours(&text).unwrap();
    assert!(found.ends_with(b"grant 200000 at 199999\n"));
}

#[test]
fn the_commands_that_scripts_lack() {
    let text = b"space 100 nodes 16 index 32\nalloc 10\nalloc 20\nshrink 1 5\nshrink 1 6\ngrow 1 10\ngrow 1 11\nfree 1\ncompact\ngrow 2 100\nshrink 9 1\ngrow 1 1\n";
    let expected = "grant 1 at 0\ngrant 2 at 10\nshrunk\nnone\ngrown\nnone\nfreed\ncompacted\ngrown\ngone\ngone\n";
    assert_eq!(String::from_utf8(ours(text).unwrap()).unwrap(), expected);
    for line in ["shrink 1", "grow 1", "compact 0", "compact 1 2", "shrink 1 2 3", "grow x 1", "shrink 1 4294967296", "shrink  1 2", "tight", "tight 1 0",
        "tight 1 2 4", "room", "room 1 2", "relocate", "relocate -1", "relocate 1 0", "relocate 1 2 4", "retract x", "first 1", "last 1", "before", "after 1 2", "offset",
        "where", "where 1 0", "where 1 2 4", "cost", "cost 1 2", "cost 1 0 1", "cost 1 2 0", "why", "why 1", "why alloc", "why align 1", "why align 1 0", "why tight 1 0", "why tight 1 2 4", "why free 1"] {
        let text = format!("space 100 nodes 16 index 32\n{line}\n");
        assert_eq!(ours(text.as_bytes()).unwrap_err().to_string(), "line 2: bad command", "{line}");
    }
}

// Scripts have powers of two alone, and recordings any alignment from 1 on. Behind 5 units there is 12, and behind 22 of them
// 48.
#[test]
fn any_alignment() {
    let text = b"space 100 nodes 16 index 32\nalloc 5\nalign 10 12\ntight 10 48\nrelocate 3 7\nwhere 1 9\nwhy align 1 50\ncost 1 3 1\n";
    // 7 units from 5 on are free, 26 from 22 on, and 42 from 58 on: 10 at a multiple of 7 need 16, which begin at 28. Then 6 are
    // free from 22 on, and 10 from 38 on: 1 at a multiple of 9 needs 9, and 1 at a multiple of 50 needs 50, which all together
    // have
    let expected = "grant 1 at 0\ngrant 2 at 12\ngrant 3 at 48\ngrant 4 at 28\noffset 45\n\
        no free block is large enough until the space is compacted\nranges 0 units 0\n";
    assert_eq!(String::from_utf8(ours(text).unwrap()).unwrap(), expected);
    let script = b"space 100 nodes 16 index 32\nalloc 5\nalign 10 12\n";
    assert_eq!(ours(script).unwrap(), b"grant 1 at 0\ngrant 2 at 12\n");
    assert_eq!(theirs(script).unwrap_err().to_string(), "line 3: bad command");
}

// A range at a place; a mark, which is no line; and another space, whose grants are numbered from 1.
#[test]
fn at_a_place_marks_and_another_space() {
    let text = b"space 100 nodes 16 index 32\n#! frame\nat 20 30\nat 49 1\nat 100 1\nalloc 21\n#! any text\nat 10 0\nlast\nspace 8 nodes 4 index 16\nfree 1\nat 4 4\nalloc 4\n";
    // 21 units are rounded up to 22, of the 50 behind; a range of no units is within the free block from 0 to 20
    let expected = "grant 1 at 20\nnone\nnone\ngrant 2 at 50\ngrant 3 at 10\nrange 2 at 50\ngone\ngrant 1 at 4\ngrant 2 at 0\n";
    assert_eq!(String::from_utf8(ours(text).unwrap()).unwrap(), expected);
    for line in ["at", "at 1", "at 1 2 3", "at x 1", "at 1 4294967296", "at  1 2", "why at 1 2", "space", "space 9 nodes 9 index 32 ", "!"] {
        let text = format!("space 100 nodes 16 index 32\n{line}\n");
        assert_eq!(ours(text.as_bytes()).unwrap_err().to_string(), "line 2: bad command", "{line}");
    }
    let mut reader = offset_allocator_recorded::Reader::new();
    let mut name = |line: &str| {
        reader.take(line.as_bytes()).unwrap();
        String::from_utf8(reader.name().to_vec()).unwrap()
    };
    // a name is directly before its call, but for marks
    assert_eq!(["space 9 nodes 9 index 32", "# a", "#! frame", "alloc 1", "alloc 1", "#b ", "", "alloc 1"].map(&mut name), ["", "", "", "a", "", "", "", ""]);
}

// Each line with its answer.
const ROWS: &[(&str, &str)] = &[
    ("alloc 10", "grant 1 at 0"),
    ("alloc 20", "grant 2 at 10"),
    ("alloc 30", "grant 3 at 30"),
    ("free 1", "freed"),
    // free: 10 at 0, 40 at 60
    ("offset 2", "offset 10"),
    ("offset 1", "gone"),
    ("first", "range 2 at 10"),
    ("last", "range 3 at 30"),
    ("before 3", "range 2 at 10"),
    ("before 2", "none"),
    ("after 2", "range 3 at 30"),
    ("after 3", "none"),
    ("after 1", "gone"),
    ("before 0", "gone"),
    ("why alloc 40", "granted"),
    // rounded up to 44
    ("why alloc 41", "no free block is large enough until the space is compacted"),
    // rounded up to 52, and 50 units in one block are rounded down to 48
    ("why alloc 50", "too few units are free"),
    // rounded up to 104
    ("why alloc 97", "the request is too large for the space"),
    // 73 units hold it wherever they begin
    ("why align 10 64", "too few units are free"),
    ("why align 10 16", "granted"),
    ("why tight 40", "granted"),
    ("why tight 41", "no free block is large enough until the space is compacted"),
    ("why tight 8 8", "granted"),
    // of 40 units at 60, 36 are from 64 on
    ("why tight 37", "granted"),
    ("why tight 37 64", "no free block is large enough until the space is compacted"),
    ("why tight 36 64", "granted"),
    ("where 10", "offset 0"),
    ("where 11", "offset 60"),
    ("where 40 1", "offset 60"),
    ("where 41", "none"),
    // of 40 units at 60, since 10 need not hold 8 from a multiple of 8 on
    ("where 8 8", "offset 64"),
    ("where 10 64", "none"),
    ("extend 2", "extended"),
    // 42 units at the end
    ("alloc 41", "none"),
    ("tight 41", "grant 4 at 60"),
    ("retract 1", "retracted"),
    ("retract 1", "none"),
    ("align 8 8", "none"),
    ("tight 8 8", "grant 5 at 0"),
    ("free 5", "freed"),
    ("free 3", "freed"),
    // free: 10 at 0, 30 at 30; grant 2 between them
    ("cost 30", "ranges 0 units 0"),
    ("cost 40", "ranges 1 units 20"),
    ("cost 41", "none"),
    // by steps of 8 the first 10 give up 8, with the 30 at the end 38; by steps of 5 all 10
    ("cost 30 1 8", "ranges 0 units 0"),
    ("cost 36 1 8", "ranges 1 units 20"),
    ("cost 36 1 16", "none"),
    // rounded up to 40
    ("cost 37 1 8", "none"),
    ("cost 40 1 5", "ranges 1 units 20"),
    // 40 units hold it wherever they begin
    ("cost 37 4 5", "ranges 1 units 20"),
    ("cost 37 4 8", "none"),
    ("room 41", "none"),
    ("offset 2", "offset 10"),
    ("room 40", "ranges 1 units 20"),
    ("offset 2", "offset 0"),
    // 41 units do not fit into the 40 before it
    ("relocate 4", "none"),
    ("relocate 9", "gone"),
    ("shrink 4 30", "shrunk"),
    ("relocate 4", "grant 6 at 20"),
    ("free 4", "freed"),
    ("last", "range 6 at 20"),
    ("retract 52", "none"),
    ("retract 51", "retracted"),
    ("report", "free 0 largest 0"),
    ("free 2", "freed"),
    ("free 6", "freed"),
    ("first", "none"),
    ("report", "free 50 largest 48"),
    ("alloc 7", "grant 7 at 0"),
    ("align 8 8", "grant 8 at 8"),
    ("alloc 4", "grant 9 at 16"),
    ("free 7", "freed"),
    // free: 8 at 0, 30 at 20; nothing moves by 16
    ("compact 16", "compacted"),
    ("offset 8", "offset 8"),
    ("compact 5", "compacted"),
    // 8 units keep 3
    ("offset 8", "offset 3"),
    ("offset 9", "offset 11"),
    ("compact 1", "compacted"),
    ("offset 9", "offset 8"),
    // free: 38 at 12
    ("alloc 20", "grant 10 at 12"),
    ("free 8", "freed"),
    // free: 8 at 0, 18 at 32; 4 units from a multiple of 4 on need 7
    ("relocate 9 4", "grant 11 at 0"),
    ("relocate 9 4", "none"),
    ("relocate 10 16", "none"),
    ("relocate 8 4", "gone"),
];

// 30 free units, 10 live, 8 live, 52 free: either budget alone stops before the second range.
#[test]
fn a_compaction_has_two_budgets() {
    for (line, answer) in [("18 2", "ranges 2 units 18 end"), ("17 2", "ranges 1 units 10 next 40"), ("18 1", "ranges 1 units 10 next 40"), ("2 18", "ranges 1 units 10 next 40")] {
        let text = format!("space 100 nodes 16 index 32\nalloc 30\nalloc 10\nalloc 8\nfree 1\ncompact 1 0 {line}\n");
        assert!(ours(text.as_bytes()).unwrap().ends_with(format!("freed\n{answer}\n").as_bytes()), "{line}");
    }
    let found = offset_allocator_recorded::call(b"compact 1 2 3 4");
    assert_eq!(found, Some(offset_allocator_recorded::Call::CompactWithin(1, 2, 3, 4)));
}

// A call on many heaps that changes none of them has its units, its alignment and its reason.
#[test]
fn refusals_of_many_heaps_are_read() {
    use offset_allocator_recorded::{Line, NoHeap, Reader};
    let rows = [
        ("alloc 7 full", NoHeap::Refused(7, 1, Refusal::Full)),
        ("align 7 12 larger", NoHeap::Refused(7, 12, Refusal::TooLarge)),
        ("tight 7 memory", NoHeap::Refused(7, 1, Refusal::Memory)),
        ("tight 7 12 empty", NoHeap::Refused(7, 12, Refusal::Empty)),
        ("relocate 7 12", NoHeap::Kept(7, 12)),
        ("relocate", NoHeap::Gone),
        ("free", NoHeap::Gone),
    ];
    let mut reader = Reader::new();
    for (line, found) in rows {
        assert_eq!(reader.take(format!("none {line}").as_bytes()), Ok(Line::NoHeap(found)), "{line}");
    }
}

// Each number is one from which a pass may go on, and the word for its end is none of them.
#[test]
fn a_pass_ends_or_goes_on() {
    let call = offset_allocator_recorded::Call::CompactWithin(1, 0, 1, 1);
    for (next, end) in [(None, "end"), (Some(0), "next 0"), (Some(u32::MAX), "next 4294967295")] {
        let reply = offset_allocator_recorded::Reply::CompactedWithin(next, offset_calls::memory::Vec::new(Global));
        let mut out = offset_calls::memory::Vec::new(Global);
        offset_allocator_recorded::put_reply(&mut out, call, &reply).unwrap();
        assert_eq!(out.as_slice(), format!("ranges 0 units 0 {end}\n").as_bytes());
    }
}

#[test]
fn a_compaction_by_steps_can_be_refused() {
    // four blocks at most, and there are four: free 10, grant 2, free 5, grant 3
    let text = b"space 30 nodes 5 index 16\nalloc 10\nalloc 10\nalloc 10\nfree 1\nshrink 2 5\ncompact 11\ncompact 9\noffset 2\n\
        free 3\ncompact 10\nfirst\n";
    let expected = "grant 1 at 0\ngrant 2 at 10\ngrant 3 at 20\nfreed\nshrunk\ncompacted\nnone\noffset 10\nfreed\ncompacted\nrange 2 at 0\n";
    assert_eq!(String::from_utf8(ours(text).unwrap()).unwrap(), expected);
}

#[test]
fn each_call_has_a_line() {
    let column = |of: fn(&(&'static str, &'static str)) -> &'static str| ROWS.iter().map(|row| of(row).to_owned() + "\n").collect::<String>();
    for bits in [16, 32] {
        let text = format!("space 100 nodes 16 index {bits}\n{}", column(|row| row.0));
        assert_eq!(String::from_utf8(ours(text.as_bytes()).unwrap()).unwrap(), column(|row| row.1));
    }
}
