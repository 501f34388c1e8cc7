//! What the programs say of their arguments.

use std::io::Write;
use std::process::{Command, Stdio};

// The status, what is said on the error output, and the output.
fn run(program: &str, arguments: &[&str], text: &str) -> (i32, String, String) {
    let piped = || Stdio::piped();
    let mut child = Command::new(program).args(arguments).stdin(piped()).stdout(piped()).stderr(piped()).spawn().unwrap();
    // one that reads nothing may have ended
    let _ = child.stdin.take().unwrap().write_all(text.as_bytes());
    let done = child.wait_with_output().unwrap();
    let said = String::from_utf8(done.stderr).unwrap();
    (done.status.code().unwrap(), said, String::from_utf8(done.stdout).unwrap())
}

const TWO: &str = "heap 3 space 9 nodes 9 index 32\nheap 7 space 8 nodes 9 index 32\nheap 7 alloc 1\n";

#[test]
fn draw_recording_says_which_heap_it_draws() {
    let draw = env!("CARGO_BIN_EXE_draw-recording");
    let (status, said, first) = run(draw, &["two"], TWO);
    assert_eq!((status, said.as_str()), (0, "heap 3 of 2: give a number for another\n"));
    let (status, said, picture) = run(draw, &["two", "7"], TWO);
    assert_eq!((status, said.as_str()), (0, ""));
    assert!(first.starts_with("<svg") && picture.starts_with("<svg") && first != picture);
    assert_eq!(run(draw, &["two", "2"], TWO), (2, "no heap 2 in this recording\n".into(), String::new()));
    // one heap alone, and one space, have no other
    assert_eq!(run(draw, &["one"], "heap 3 space 9 nodes 9 index 32\n").1, "");
    assert_eq!(run(draw, &["one"], "space 9 nodes 9 index 32\n").1, "");
    // refused requests alone have no heap
    assert_eq!(run(draw, &["none"], "none alloc 1 full\n"), (2, "line 1: bad header\n".into(), String::new()));
}

#[test]
fn play_recording_has_no_arguments() {
    let play = env!("CARGO_BIN_EXE_play-recording");
    assert_eq!(run(play, &["heap.script"], TWO), (2, "it reads standard input: play-recording < FILE\n".into(), String::new()));
    assert_eq!(run(play, &[], TWO), (0, String::new(), "heap 7 grant 1 at 0\n".into()));
}
