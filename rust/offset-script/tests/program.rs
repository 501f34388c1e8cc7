//! The program: its output, its errors and its status.
use std::io::Write;
use std::process::{Command, Output, Stdio};

fn play(text: &[u8], output: Stdio) -> Output {
    let mut child = Command::new(env!("CARGO_BIN_EXE_offset-script"))
        .stdin(Stdio::piped())
        .stdout(output)
        .stderr(Stdio::piped())
        .spawn()
        .unwrap();
    // a text that is too long is not read to its end
    let _ = child.stdin.take().unwrap().write_all(text);
    child.wait_with_output().unwrap()
}

fn expect(text: &[u8], status: i32, out: &str, errors: &str) {
    let found = play(text, Stdio::piped());
    assert_eq!(String::from_utf8_lossy(&found.stdout), out);
    assert_eq!(String::from_utf8_lossy(&found.stderr), errors);
    assert_eq!(found.status.code(), Some(status));
}

#[test]
fn the_stored_script() {
    let script = include_str!("../../../crates/offset_script_program/stdin");
    let answers = include_str!("../../../crates/offset_script_program/stdout");
    expect(script.as_bytes(), 0, answers, "");
}

#[test]
fn every_command() {
    let script = "# all eight\nspace 100 nodes 16 index 16\nalloc 10\nalign 4 8\nsize 2\nfree 1\nfree 1\nreport\nfull\nextend 28\nalloc 129\nreset\nreport\n";
    // 10 units; 4 units at 16, with 6 free before them and 80 after; then the freed 10 coalesce with the padding of 6
    let answers = "grant 1 at 0\ngrant 2 at 16\nsize 4\nfreed\ngone\nfree 96 largest 80\nfull 2\nclass 16 size 16 count 1\nclass 34 size 80 count 1\nextended\nnone\nreset\nfree 128 largest 128\n";
    expect(script.as_bytes(), 0, answers, "");
}

#[test]
fn faulty_texts() {
    expect(b"", 2, "", "line 1: bad header\n");
    expect(b"# c\n\n", 2, "", "line 3: bad header\n");
    expect(b"space 10 nodes 1 index 32\n", 2, "", "line 1: bad limit\n");
    expect(b"space 10 nodes 65534 index 16\n", 2, "", "line 1: bad limit\n");
    expect(b"space 10 nodes 4 index 32\nalloc 1\nalign 1 3\n", 2, "", "line 3: bad command\n");
    expect(&vec![b'#'; 1_048_577], 2, "", "too long\n");
}

/// The number after this key of a file of the system.
#[cfg(target_os = "linux")]
fn number(file: &str, key: &str) -> u64 {
    let text = std::fs::read_to_string(file).unwrap();
    let line = text.lines().find(|line| line.starts_with(key)).unwrap();
    line[key.len()..].split_whitespace().next().unwrap().parse().unwrap()
}

#[test]
#[cfg(target_os = "linux")]
fn the_largest_node_limit() {
    // 28 bytes a node: 120 GB
    let text = b"space 10 nodes 4294967293 index 32\nalloc 1\n";
    let kilobytes = 28 * 4_294_967_293 / 1024;
    let memory = |key| number("/proc/meminfo", key);
    // what the system promises: all that is asked for, or no more than it has
    let promised = match number("/proc/sys/vm/overcommit_memory", "") {
        0 => memory("MemTotal:") + memory("SwapTotal:"),
        1 => u64::MAX,
        _ => memory("CommitLimit:"),
    };
    if promised < kilobytes {
        expect(text, 3, "", "out of memory\n");
    } else if promised == u64::MAX {
        // little of it is touched
        expect(text, 0, "grant 1 at 0\n", "");
    }
}

#[test]
#[cfg(target_os = "linux")]
fn a_device_that_takes_nothing() {
    let full = std::fs::File::options().write(true).open("/dev/full").unwrap();
    let found = play(b"space 10 nodes 4 index 32\nalloc 1\n", full.into());
    assert_eq!(String::from_utf8_lossy(&found.stderr), "write failed\n");
    assert_eq!(found.status.code(), Some(4));
}
