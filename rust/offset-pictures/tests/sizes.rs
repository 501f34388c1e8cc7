//! Scripts and their pictures, with 1 to 65,536 lines, and with up to 1,048,576 bytes: no clause says when memory is out, so
//! a body that gives up at some sizes is proved, and refused here.

use offset_pictures::{course_of, draw_program, lives, picture, picture_of, reports};
use offset_script::{parse, play_script, run_program, FromRead, Global, IntoWrite};

// The lines of a script, one after the other: every command, empty lines and comments.
const LINES: [&[u8]; 16] = [
    b"alloc 3\n",
    b"alloc 70\n",
    b"align 5 8\n",
    b"alloc 4000\n",
    b"alloc 1\n",
    b"free 2\n",
    b"size 1\n",
    b"report\n",
    b"alloc 9\n",
    b"# a comment\n",
    b"\n",
    b"extend 4\n",
    b"alloc 17\n",
    b"free 4\n",
    b"alloc 0\n",
    b"alloc 5\n",
];

// A header and `lines` lines, with a full report after each 1,024.
fn text_of(header: &[u8], lines: usize) -> Vec<u8> {
    let mut text = header.to_vec();
    for at in 0..lines {
        text.extend_from_slice(if at % 1024 == 1000 { b"full\n" } else { LINES[at % 16] });
    }
    text.extend_from_slice(b"full\nreset\nfull\n");
    text
}

// A range of each size in powers of two, every second one freed: the full report has rows of large classes.
const LARGE: &[u8] = b"space 4294967295 nodes 131072 index 32
alloc 2147483648\nalloc 1\nalloc 1073741824\nalloc 1\nalloc 536870912\nalloc 1\nalloc 268435456\nalloc 1\nalloc 65536\nalloc 1
free 1\nfull\nfree 3\nfull\nfree 5\nfull\nfree 7\nfull\nfree 9\nfull\nalloc 2147483648\nreset\nfull\nalloc 3758096384
";

const TITLE: &str = "Sizes & powers of two";

// A text is read, played, run and drawn, by calls and by programs. It returns how long the picture is.
fn use_of(text: &[u8]) -> usize {
    let script = parse(Global, text).expect("a script");
    assert_eq!(play_script(Global, &script).expect("memory").len(), script.commands.len());
    lives(Global, &script).expect("memory");
    assert_eq!(reports(Global, &script).expect("memory").len(), script.commands.len() + 1);
    let drawn = picture(Global, TITLE, &script).expect("memory");
    let course = course_of(Global, &script).expect("memory");
    assert_eq!(*picture_of(Global, TITLE, &course).expect("memory"), *drawn);
    let (mut answers, mut errors) = (Vec::new(), Vec::new());
    let mut output = IntoWrite::new(&mut answers);
    let status = run_program(Global, &mut FromRead::new(text), &mut output, &mut IntoWrite::new(&mut errors));
    assert_eq!((status, errors.len()), (0, 0));
    let mut sent = Vec::new();
    let mut output = IntoWrite::new(&mut sent);
    let status = draw_program(Global, TITLE, &mut FromRead::new(text), &mut output, &mut IntoWrite::new(&mut errors));
    assert_eq!((status, errors.len()), (0, 0));
    assert_eq!(sent, drawn.as_bytes());
    drawn.len()
}

// A script of a header alone.
#[test]
fn no_calls_have_memory() {
    use_of(b"space 1 nodes 2 index 16\n");
}

#[test]
fn each_size_has_memory() {
    let headers: [&[u8]; 3] = [
        b"space 4000000000 nodes 4000000 index 32\n",
        b"space 100000 nodes 65533 index 16\n",
        b"space 4000 nodes 40 index 16\n",
    ];
    use_of(LARGE);
    let mut longest = 0;
    for header in headers {
        for power in 0..17 {
            longest = longest.max(use_of(&text_of(header, 1 << power)));
        }
    }
    assert!(longest > 1 << 20, "{longest}");
    // as long as a script may be
    let mut text = text_of(headers[0], 100_000);
    assert!(text.len() < 1_048_576);
    text.push(b'#');
    text.resize(1_048_576, b'x');
    use_of(&text);
}
