//! That the course of a recording is what its calls do, and that of a script the one that is proved for it.

use offset_allocator_proved::Refusal;
use offset_allocator_recorded::{course, draw, play, Global, RunFault};
use offset_pictures::{picture, Asked, Life, Reason, Refused};

fn below(state: &mut u64, n: usize) -> usize {
    *state = state.wrapping_mul(6_364_136_223_846_793_005).wrapping_add(1_442_695_040_888_963_407);
    ((*state >> 33) % n as u64) as usize
}

/// What the proved function draws of a script.
fn proved(title: &str, text: &[u8]) -> String {
    picture(Global, title, &offset_script::parse(Global, text).unwrap()).unwrap().into()
}

#[test]
fn stored_scripts() {
    let folder = concat!(env!("CARGO_MANIFEST_DIR"), "/../../bench/traces");
    let mut count = 0;
    // a packaged crate has no traces beside it
    for path in std::fs::read_dir(folder).into_iter().flatten().map(|entry| entry.unwrap().path()) {
        if path.extension().is_some_and(|end| end == "script") {
            let text = std::fs::read(&path).unwrap();
            let title = path.display().to_string();
            assert!(draw(&title, &text[..]).unwrap() == proved(&title, &text), "{title}");
            count += 1;
        }
    }
    assert!(count == 8 || !std::path::Path::new(folder).exists());
}

#[test]
fn random_scripts() {
    let mut state = 7;
    let (mut refused, mut moved) = (0, 0);
    for round in 0..4_000 {
        let (size, nodes) = ([100, 1000, 0, 4_294_967_295u32][below(&mut state, 4)], [2, 3, 5, 16, 500][below(&mut state, 5)]);
        let bits = [16, 32][below(&mut state, 2)];
        let mut text = format!("space {size} nodes {nodes} index {bits}\n");
        for _ in 0..below(&mut state, 120) {
            let n = [0, 1, 7, 20, 33, 150, 700, u32::MAX][below(&mut state, 8)];
            let k = below(&mut state, 40);
            text += &match below(&mut state, 10) {
                0..=3 => format!("alloc {n}\n"),
                4 => format!("align {n} {}\n", 1u32 << below(&mut state, 9)),
                5 | 6 => format!("free {k}\n"),
                7 => format!("size {k}\n# a remark\n\n"),
                8 => ["report\n", "full\n", "reset\n", "report\n"][below(&mut state, 4)].to_owned(),
                _ => format!("extend {n}\n"),
            };
        }
        let title = format!("round {round} & <more>");
        assert!(draw(&title, text.as_bytes()).unwrap() == proved(&title, text.as_bytes()), "{text}");
        let found = course(text.as_bytes()).unwrap();
        refused += found.refused.len();
        moved += found.lives.len();
    }
    assert!(refused > 40_000 && moved > 20_000, "{refused} {moved}");
}

type Row = (u64, u32, u32, usize, usize, usize);

fn rows(text: &str) -> (Vec<Row>, Vec<Refused>) {
    let found = course(text.as_bytes()).unwrap();
    let row = |l: &Life| (l.number, l.offset, l.size, l.first, l.last, l.lived);
    (found.lives.iter().map(row).collect(), found.refused.to_vec())
}

#[test]
fn resized_and_moved() {
    let (lives, refused) = rows(
        "space 100 nodes 16 index 32\nalloc 10\nalloc 20\nshrink 2 5\nshrink 2 5\ngrow 2 90\ngrow 2 91\nshrink 2 91\ngrow 2 89\n\
         free 1\ncompact\nfree 1\nalloc 11\nshrink 9 1\nfree 2\nalloc 40\nreset\nalloc 30\n",
    );
    assert_eq!(
        lives,
        [
            (1, 0, 10, 0, 8, 8),
            // grant 2 is live for the calls 1 to 13, in four ranges
            (2, 10, 20, 1, 2, 12),
            (2, 10, 5, 2, 4, 12),
            (2, 10, 90, 4, 9, 12),
            (2, 0, 90, 9, 13, 12),
            (3, 0, 40, 14, 15, 1),
            (4, 0, 30, 16, 17, 1),
        ]
    );
    assert_eq!(
        refused,
        [
            // no unit after it
            Refused { call: 5, asked: Asked::Grow(2, 91), why: Reason::NoRoom },
            Refused { call: 6, asked: Asked::Shrink(2, 91), why: Reason::Smaller },
            Refused { call: 7, asked: Asked::Grow(2, 89), why: Reason::Larger },
            // 10 units are free
            Refused { call: 11, asked: Asked::Alloc(11), why: Reason::Request(Refusal::Space) },
        ]
    );
}

#[test]
fn only_what_moves_is_drawn_again() {
    let (lives, refused) = rows("space 100 nodes 16 index 32\nalloc 10\nalloc 10\nalloc 10\nfree 2\ncompact\ncompact\n");
    assert_eq!(lives, [(1, 0, 10, 0, 6, 6), (2, 10, 10, 1, 3, 2), (3, 20, 10, 2, 4, 4), (3, 10, 10, 4, 6, 4)]);
    assert_eq!(refused, []);
}

#[test]
fn calls_that_scripts_lack() {
    // 44 units make room where grants 2 and 3 slide to the front; then grant 4 has as many units as grant 3, before it
    let (lives, refused) = rows(
        "space 100 nodes 16 index 32\ntight 10\nalloc 20\nalloc 30\nfree 1\nroom 44\nrelocate 3\nfree 2\nshrink 3 20\nrelocate 3\n\
         tight 99\nwhy alloc 1\nretract 10\n",
    );
    assert_eq!(
        lives,
        [
            (1, 0, 10, 0, 3, 3),
            (2, 10, 20, 1, 4, 5),
            (3, 30, 30, 2, 4, 10),
            (2, 0, 20, 4, 6, 5),
            (3, 20, 30, 4, 7, 10),
            (3, 20, 20, 7, 12, 10),
            (4, 0, 20, 8, 12, 4),
        ]
    );
    // no words of a picture say why these are refused
    assert_eq!(refused, []);
    assert_eq!(course(&b"space 100 nodes 16 index 32\nretract 10\n"[..]).unwrap().sizes[..], [100, 90]);
}

#[test]
fn moves_by_steps_and_to_an_alignment() {
    // 8 free units keep 3; then 11 units hold 4 from a multiple of 8 on, before grant 3, and after that no block before it does
    let (lives, refused) = rows(
        "space 50 nodes 16 index 32\nalloc 7\nalign 8 8\nalloc 4\nfree 1\ncompact 5\nalloc 20\nfree 2\nrelocate 3 8\nrelocate 3 8\n",
    );
    assert_eq!(
        lives,
        [
            (1, 0, 7, 0, 3, 3),
            (2, 8, 8, 1, 4, 5),
            (3, 16, 4, 2, 4, 7),
            (2, 3, 8, 4, 6, 5),
            (3, 11, 4, 4, 9, 7),
            (4, 15, 20, 5, 9, 4),
            (5, 0, 4, 7, 9, 2),
        ]
    );
    assert_eq!(refused, []);
}

#[test]
fn refused_for_lack_of_nodes() {
    // used 20, used 5, free 15, used 20: as many blocks as there may be
    let text = "space 60 nodes 5 index 16\nalloc 20\nalloc 20\nalloc 20\nfree 2\nalloc 5\nextend 5\nshrink 3 10\n\
                extend 4294967295\nalign 1 2\ngrow 4 20\ngrow 4 21\n";
    let (lives, refused) = rows(text);
    let nodes = Reason::Request(Refusal::Nodes);
    assert_eq!(
        refused,
        [
            Refused { call: 5, asked: Asked::Extend(5), why: nodes },
            Refused { call: 6, asked: Asked::Shrink(3, 10), why: nodes },
            Refused { call: 7, asked: Asked::Extend(4_294_967_295), why: Reason::TooManyUnits },
            Refused { call: 8, asked: Asked::Align(1, 2), why: nodes },
            Refused { call: 10, asked: Asked::Grow(4, 21), why: Reason::NoRoom },
        ]
    );
    assert_eq!(lives[3..], [(4, 20, 5, 4, 9, 7), (4, 20, 20, 9, 11, 7)]);
    let drawn = draw("nodes", text.as_bytes()).unwrap();
    assert!(drawn.contains(">4 grants, 5 refusals; at most 3 live at once. "));
    assert!(drawn.contains("<title>call 7: shrink 3 10: too few nodes are left</title>"));
    assert!(drawn.contains("<title>call 8: extend 4294967295: a space has at most 4294967295 units</title>"));
    assert!(drawn.contains("<title>call 11: grow 4 21: too few units directly after the range are free</title>"));
}

#[test]
fn a_moved_range_does_not_look_younger() {
    // grant 1 is live for 40 calls, in two ranges of 20 and 20
    let text = format!("space 100 nodes 16 index 32\nalloc 10\n{}grow 1 20\n{}free 1\n", "report\n".repeat(19), "report\n".repeat(19));
    let (lives, _) = rows(&text);
    assert_eq!(lives, [(1, 0, 10, 0, 20, 40), (1, 0, 20, 20, 40, 40)]);
    let drawn = draw("age", text.as_bytes()).unwrap();
    // 31 to 100 calls are the third age, and 11 to 30 the second
    assert_eq!(drawn.matches("<g class='age3'>\n<rect x=").count(), 1);
    assert_eq!(drawn.matches("<g class='age2'>\n</g>").count(), 1);
}

#[test]
fn every_range_is_painted() {
    // each is less than a hundredth of a pixel high, and the more there are the shorter they live; more than 20,000 are merged
    for count in [100, 19_000, 30_000] {
        let calls: String = (2..count).map(|k| format!("alloc 1\nfree {k}\n")).collect();
        let drawn = draw("thin", format!("space 4294967295 nodes 200000 index 32\nalloc 4000000000\n{calls}").as_bytes()).unwrap();
        let size = |shape: &str, name: &str| shape.split(name).nth(1)?.split('\'').next()?.parse::<f64>().ok();
        let shapes: Vec<_> = drawn.split("<rect ").skip(1).collect();
        assert!(shapes.iter().all(|s| size(s, "width='") > Some(0.0) && size(s, "height='") > Some(0.0)), "{count}");
        assert!(shapes.len() >= if count > 20_000 { 3 } else { count }, "{count}: {}", shapes.len());
    }
}

#[test]
fn faults() {
    for text in ["", "# x\n", "space 9 nodes 1 index 16\n", "space 9 nodes 9 index 16\nalloc 1\nmove 1\n", "space 9 nodes 9 index 16\nalign 1 0"] {
        let fault = draw("t", text.as_bytes()).unwrap_err();
        assert_eq!(Err::<(), RunFault>(fault), play(text.as_bytes(), &mut Vec::new()), "{text:?}");
    }
}
