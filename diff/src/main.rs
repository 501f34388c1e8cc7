//! Plays random scripts on our program and on the original, and compares the answers line by line.
//!
//! `compare PROGRAM COUNT FIRST FILE..` plays the files, which are recorded programs, and COUNT scripts from number FIRST
//! on. A number always gives the same script.
mod original;
mod scripts;

use scripts::{Script, Width};
use std::collections::BTreeMap;
use std::fs::File;
use std::io::{Read, Write};
use std::process::{Command, Stdio};
use std::sync::atomic::{AtomicU64, Ordering};
use std::sync::Mutex;

/// What our program writes for a script.
fn ours(program: &str, script: &Script) -> String {
    let mut child = Command::new(program)
        .stdin(Stdio::piped())
        .stdout(Stdio::piped())
        .spawn()
        .expect("our program starts");
    // it reads everything before it writes, so this cannot deadlock
    child.stdin.take().unwrap().write_all(script.text().as_bytes()).expect("our program reads");
    let mut out = String::new();
    child.stdout.take().unwrap().read_to_string(&mut out).expect("our program writes text");
    let status = child.wait().expect("our program ends");
    if !status.success() {
        out += &format!("{status}\n");
    }
    out
}

/// Texts that are no scripts, with the line that our program writes to standard error. It ends with status 2.
const FAULTY: [(&str, &str); 7] = [
    ("", "line 1: bad header\n"),
    ("# c\n\n", "line 3: bad header\n"),
    ("space 10 nodes 4 index 8\n", "line 1: bad header\n"),
    ("space 10 nodes 65534 index 16\n", "line 1: bad limit\n"),
    ("space 10 nodes 4 index 32\nalloc 1\nalloc 4294967296\n", "line 3: bad command\n"),
    ("space 10 nodes 4 index 32\nalloc 1\nalloc 00000000001\n", "line 3: bad command\n"),
    ("space 10 nodes 4 index 32\nalloc 1\nalign 1 3\n", "line 3: bad command\n"),
];

/// Asserts that a run of our program ends in a fault: its line, its status, and nothing on standard output.
fn expect_fault(program: &str, input: Stdio, text: &[u8], output: Stdio, expected: &str, status: i32) {
    let mut child = Command::new(program)
        .stdin(input)
        .stdout(output)
        .stderr(Stdio::piped())
        .spawn()
        .expect("our program starts");
    if let Some(mut stdin) = child.stdin.take() {
        stdin.write_all(text).expect("our program reads");
    }
    let found = child.wait_with_output().expect("our program ends");
    assert_eq!(String::from_utf8_lossy(&found.stderr), expected);
    assert_eq!(found.status.code(), Some(status), "{expected}");
    assert!(found.stdout.is_empty(), "{expected}");
}

/// Texts that are no scripts, a text that is too long, and devices that fail.
fn expect_faults(program: &str) {
    for (text, expected) in FAULTY {
        expect_fault(program, Stdio::piped(), text.as_bytes(), Stdio::piped(), expected, 2);
    }
    let long = vec![b'#'; 1_048_577];
    expect_fault(program, Stdio::piped(), &long, Stdio::piped(), "too long\n", 2);
    let folder = File::open("/").expect("a folder, which gives no bytes");
    expect_fault(program, folder.into(), b"", Stdio::piped(), "read failed\n", 4);
    let full = File::options().write(true).open("/dev/full").expect("a device that takes no bytes");
    let script = b"space 10 nodes 4 index 32\nalloc 1\n";
    expect_fault(program, Stdio::piped(), script, full.into(), "write failed\n", 4);
}

/// A line of ours as the original prints it, which truncates offsets to the width of its indices.
fn truncated_line(line: &str, width: Width) -> String {
    match (width, line.split_once(" at ")) {
        (Width::Bits16, Some((grant, offset))) => format!("{grant} at {}", offset.parse::<u32>().unwrap() as u16),
        _ => line.to_string(),
    }
}

/// Compares our answers with the original's. Returns ours, or the first line that differs.
fn compare(program: &str, script: &Script) -> Result<Vec<String>, String> {
    let ours = ours(program, script);
    let theirs = original::play(script);
    let ours: Vec<String> = ours.lines().map(|line| truncated_line(line, script.width)).collect();
    let theirs: Vec<&str> = theirs.lines().collect();
    for i in 0..ours.len().max(theirs.len()) {
        let (a, b) = (ours.get(i).map(String::as_str), theirs.get(i).copied());
        if a != b {
            return Err(format!("line {}: ours {a:?}, the original {b:?}\n{}", i + 1, script.text()));
        }
    }
    Ok(ours)
}

/// The number of answers by their first word, and the scripts that differ.
#[derive(Default)]
struct Tally {
    answers: BTreeMap<String, u64>,
    narrow: u64,
    differing: Vec<(u64, String)>,
}

impl Tally {
    fn add(&mut self, number: u64, script: &Script, found: Result<Vec<String>, String>) {
        self.narrow += u64::from(script.width == Width::Bits16);
        match found {
            Ok(lines) => {
                for line in lines {
                    let word = line.split(' ').next().unwrap_or_default();
                    *self.answers.entry(word.to_string()).or_default() += 1;
                }
            }
            Err(fault) => self.differing.push((number, fault)),
        }
    }
}

fn main() {
    let words: Vec<String> = std::env::args().skip(1).collect();
    let [program, count, first, files @ ..] = &words[..] else { panic!("compare PROGRAM COUNT FIRST FILE..") };
    let (count, first): (u64, u64) = (count.parse().unwrap(), first.parse().unwrap());
    expect_faults(program);
    for file in files {
        let text = std::fs::read_to_string(file).unwrap_or_else(|error| panic!("{file}: {error}"));
        let lines = compare(program, &scripts::read(&text)).unwrap_or_else(|fault| panic!("{file}, {fault}"));
        let name = file.rsplit('/').next().unwrap_or_default();
        println!("{name}: {} equal lines", lines.len());
    }
    let next = AtomicU64::new(first);
    let tally = Mutex::new(Tally::default());
    std::thread::scope(|scope| {
        for _ in 0..std::thread::available_parallelism().map_or(4, |n| n.get()) {
            scope.spawn(|| loop {
                let number = next.fetch_add(1, Ordering::Relaxed);
                if number >= first + count {
                    return;
                }
                let script = scripts::script(number);
                let found = compare(program, &script);
                tally.lock().unwrap().add(number, &script, found);
            });
        }
    });
    let tally = tally.into_inner().unwrap();
    for (number, fault) in tally.differing.iter().take(3) {
        println!("script {number}, {fault}");
    }
    let answers: Vec<String> = tally.answers.iter().map(|(word, n)| format!("{n} {word}")).collect();
    println!("{count} scripts from number {first}, {} of them with indices of 16 bits", tally.narrow);
    println!("equal lines: {}, of these {}", tally.answers.values().sum::<u64>(), answers.join(", "));
    println!("scripts that differ: {}", tally.differing.len());
    std::process::exit(i32::from(!tally.differing.is_empty()));
}
